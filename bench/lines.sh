#!/bin/sh
# Measures the proved program on large diagrams and long scripts; lines.py says what. It can be called from any folder, and
# needs python3, GNU time for the memory, and, where the program is not built yet, rt.

bench=$(cd "$(dirname -- "$0")" && pwd) || exit 1
if ! command -v python3 >/dev/null; then
    echo "bench: skipped, since python3 is not here"
    exit 0
fi
# The launcher builds the program where it has to.
"$bench/../pacti" "$bench/../examples/refusals/diagram.json" "$bench/../examples/refusals/script.txt" >/dev/null || exit 1
exec python3 "$bench/lines.py" "$bench/../crates/pacti/out/pacti"
