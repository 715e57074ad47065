#!/bin/sh
# Measures the proved program: wall time and peak memory of one run on each input that inputs.py makes.
# It prints what it measured, and fails only where the program ends with another status than it should. It can be called
# from any folder, and needs GNU time, python3 and, where the program is not built yet, rt.

bench=$(cd "$(dirname -- "$0")" && pwd) || exit 1
root=$bench/..
timer=/usr/bin/time
if [ ! -x "$timer" ] || ! command -v python3 >/dev/null; then
    echo "bench: skipped, since it takes GNU's $timer and python3"
    exit 0
fi
room=$(mktemp -d) || exit 1
trap 'rm -rf "$room"' EXIT
failed=0

# measure NAME STATUS WHAT
measure() {
    "$timer" -v -o "$room/measured" "$root/crates/pacti/out/pacti" "$room/$1.json" "$room/script.txt" >"$room/report"
    status=$?
    wall=$(sed -n 's/.*Elapsed (wall clock) time.*): //p' "$room/measured")
    peak=$(sed -n 's/.*Maximum resident set size (kbytes): //p' "$room/measured")
    printf '%s\n    %s bytes in, %s bytes out, wall %s (minutes:seconds), peak %s KiB, status %s\n' "$3" \
        "$(($(wc -c <"$room/$1.json")))" "$(($(wc -c <"$room/report")))" "$wall" "$peak" "$status"
    if [ "$status" -ne "$2" ]; then
        echo "    FAILED: the status should be $2"
        failed=1
    fi
}

python3 "$bench/inputs.py" "$room" || exit 1
# The launcher builds the program where it has to.
"$root/pacti" "$room/ordinary.json" "$room/script.txt" >/dev/null || exit 1
measure ordinary 0 "two contracts with 64 ports and 256 rows each"
measure largest 0 "the same with long names and numbers, and blanks up to the most bytes of a diagram"
measure repeated 0 "a contract with 64 ports and equal rows up to the most bytes of a diagram"
measure brackets 2 "as many bytes of ["
measure objects 2 "as many bytes of {\"a\":"
exit "$failed"
