#!/bin/sh
# Counts operations on fractions, in millions a second: the proved code beside the same work in plain Rust over i128.
# Sizes: whole numbers of 20 bits, fractions of 20 and of 60 bits, and fractions of 120 bits whose denominators share most factors.
# The last column has the proved code with fractions of 62 bits, for the sizes whose results they hold.
# Each figure is the best of three runs. All have to print the same check sums. It can be called from any folder, and needs
# rt; without rustc the proved code is measured alone.
cd "$(dirname "$0")/.." || exit 1
proved=crates/frac_bench/out/frac_bench
work=$(mktemp -d) || exit 1
trap 'rm -rf "$work"' EXIT

if ! command -v rt >/dev/null; then
    echo "skipped: rt is not here"
    exit 0
fi
(cd crates/frac_bench && rt run <stdin) >"$work/build.log" 2>&1 || {
    tail -20 "$work/build.log"
    exit 1
}
plain=
if command -v rustc >/dev/null; then
    rustc -O -o "$work/plain" bench/fractions.rs || exit 1
    plain=$work/plain
else
    echo "plain Rust is skipped: rustc is not here"
fi

# The least time of three runs, in nanoseconds, of a program on a line; its output is left in $work/out.
best() {
    least=
    for _ in 1 2 3; do
        start=$(date +%s%N)
        echo "$2" | "$1" >"$work/out" || exit 1
        took=$(($(date +%s%N) - start))
        if [ -z "$least" ] || [ "$took" -lt "$least" ]; then least=$took; fi
    done
    echo "$least"
}

rate() { awk -v ns="$1" -v start="$2" -v rounds="$3" 'BEGIN { printf "%8.2f", rounds * 64 * 1000 / (ns - start) }'; }

printf '%-8s %-8s %10s %10s %10s\n' operation size proved plain '62 bits'
none=$(best "$proved" "none")
for operation in gcd add sub mul compare; do
    for size in whole:200000 small:40000 long:10000 longest:5000; do
        rounds=${size#*:}
        line="$operation ${size%:*} $rounds"
        ours=$(best "$proved" "$line")
        cp "$work/out" "$work/ours"
        figure='         -'
        if [ -n "$plain" ]; then
            theirs=$(best "$plain" "$line")
            if ! cmp -s "$work/out" "$work/ours"; then
                echo "$line: the check sums differ"
                exit 1
            fi
            figure=$(rate "$theirs" "$none" "$rounds")
        fi
        narrow='         -'
        case $size in
            whole:* | small:*)
                least=$(best "$proved" "$line narrow")
                cmp -s "$work/out" "$work/ours" || {
                    echo "$line: the check sums at 62 bits differ"
                    exit 1
                }
                narrow=$(rate "$least" "$none" "$rounds")
                ;;
        esac
        printf '%-8s %-8s %10s %10s %10s\n' "$operation" "${size%:*}" "$(rate "$ours" "$none" "$rounds")" "$figure" "$narrow"
    done
done
