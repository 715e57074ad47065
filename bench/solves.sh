#!/bin/sh
# Times whole runs of the simplex method, in milliseconds of user time for a run: the proved code beside the same work in
# plain C++. It can be called from any folder, and needs rt, python3 and a C++ compiler (the one that CXX names, or g++).
bench=$(cd "$(dirname -- "$0")" && pwd) || exit 1
crate=$bench/../crates/solve_bench
compiler=${CXX:-g++}

for needed in rt python3 "$compiler"; do
    if ! command -v "$needed" >/dev/null; then
        echo "bench: skipped, since $needed is not here"
        exit 0
    fi
done
work=$(mktemp -d) || exit 1
trap 'rm -rf "$work"' EXIT

echo "bench: proving and building where that has not been done, which can take tens of minutes"
(cd "$crate" && rt run <stdin) >"$work/build.log" 2>&1 || {
    tail -20 "$work/build.log"
    exit 1
}
"$compiler" -O2 -o "$work/plain" "$bench/solves.cpp" || exit 1
python3 "$bench/solves.py" "$crate/out/solve_bench" "$work/plain"
