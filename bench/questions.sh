#!/bin/sh
# Measures refinements, bounds, hidings and compositions with the proved program; questions.py says what. It can be called from any
# folder, and needs python3, and, where the program is not built yet, rt. Words that are given are another program that reads
# the same files: it is run beside, and ratios are printed.

bench=$(cd "$(dirname -- "$0")" && pwd) || exit 1
if ! command -v python3 >/dev/null; then
    echo "bench: skipped, since python3 is not here"
    exit 0
fi
# The launcher builds the program where it has to.
"$bench/../pacti" "$bench/../examples/refusals/diagram.json" "$bench/../examples/refusals/script.txt" >/dev/null || exit 1
exec python3 "$bench/questions.py" "$bench/../crates/pacti/out/pacti" "$@"
