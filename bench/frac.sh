#!/bin/bash
# Builds the proved sums and products of frac128 and the same in plain Rust, runs the two programs in turns,
# and prints the best time of a call of each, in nanoseconds, and their ratio. An argument is the number of turns.
set -eu
turns=${1:-9}
here=$(cd "$(dirname "$0")" && pwd)
work=$(mktemp -d)
trap 'rm -rf "$work"' EXIT

mkdir -p "$work/crates/frac_bench/src" "$work/crates/frac_bench/specs" "$work/crates/frac_bench/proofs"
touch "$work/crates/frac_bench/specs/Lib.antt" "$work/crates/frac_bench/proofs/Lib.antt"
cp -r "$here/../crates/airy_math" "$here/../crates/frac128" "$work/crates/"
cp "$here/frac_main.rt.txt" "$work/crates/frac_bench/src/main.rt"
printf 'airy_math:\nfrac128: airy_math thiserror itoa\nfrac_bench: frac128\n' > "$work/crates.txt"

(cd "$work/crates/frac_bench" && rt run > "$work/first.txt" 2> "$work/build.txt") || { cat "$work/build.txt" >&2; exit 1; }
rustc -O "$here/plain/frac.rs" -o "$work/plain"

for _ in $(seq "$turns"); do
    "$work/crates/frac_bench/out/frac_bench" | sed 's/^/proved /'
    "$work/plain" | sed 's/^/plain /'
done > "$work/times.txt"

awk '
    { job = $2 " " $3; key = $1 " " job }
    !(job in seen) { seen[job] = 1; order[++jobs] = job }
    !(key in best) || $4 < best[key] { best[key] = $4 }
    job in total && total[job] != $5 { print "the two programs differ at " job; bad = 1 }
    { total[job] = $5 }
    END {
        if (bad) exit 1
        printf "%-22s %10s %10s %7s\n", "pool and operation", "proved", "plain", "ratio"
        for (i = 1; i <= jobs; i++) {
            proved = best["proved " order[i]] / 100
            plain = best["plain " order[i]] / 100
            printf "%-22s %10.1f %10.1f %7.2f\n", order[i], proved, plain, proved / plain
        }
    }
' "$work/times.txt"
