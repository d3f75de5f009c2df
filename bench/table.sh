#!/bin/bash
# Builds the proved plans, tables and checks of every pivot and the same in plain Rust, runs the two programs in turns, the plain one with
# sums in lowest terms at each step and with sums reduced once, and prints the best time of each part of a job, in milliseconds, and the
# ratios of the proved one to both. The first argument is the number of turns, the
# others are jobs: a structure and a bound, as wk-12; dense-6 is a plan alone.
set -euo pipefail
turns=${1:-5}
[ $# -eq 0 ] || shift
[ $# -gt 0 ] || set -- wk-12 wk-16 wk-20 wk-24 bgw-24 wp-11 dense-6
here=$(cd "$(dirname "$0")" && pwd)
work=$(mktemp -d)
trap 'rm -rf "$work"' EXIT

tar -C "$here/.." --exclude=out -cf - crates crates.txt | tar -C "$work" -xf -
mkdir -p "$work/crates/table_bench/src" "$work/crates/table_bench/specs" "$work/crates/table_bench/proofs"
touch "$work/crates/table_bench/specs/Lib.antt" "$work/crates/table_bench/proofs/Lib.antt"
cp "$here/table_main.rt.txt" "$work/crates/table_bench/src/main.rt"
below=$(awk '/^(constraint_check|named_families)[ :]/ { name = $1; sub(/:$/, "", name); sub(/^[^:]*:/, ""); print name, $0 }' "$work/crates.txt" | tr -s ' ' '\n' | sort -u | tr '\n' ' ')
echo "table_bench: $below" >> "$work/crates.txt"

(cd "$work/crates/table_bench" && rt run > "$work/first.txt" 2> "$work/build.txt") || { cat "$work/build.txt" >&2; exit 1; }
rustc -O "$here/plain/table.rs" -o "$work/plain"

# The proved program writes two lines of numbers, the plain one a line for each.
named='NR == 1 { print "cells", $1; print "needs", $2; print "needs-sum", $3; print "time-plan", $4 }
       NR == 2 { print "values-sum", $1; print "solution", $2 == 0; print "time-fill", $3; print "time-check", $4 }'

for _ in $(seq "$turns"); do
    for job in "$@"; do
        "$work/crates/table_bench/out/table_bench" "${job%-*}" "${job#*-}" | awk "$named" | sed "s/^/$job proved /"
        "$work/plain" "${job%-*}" "${job#*-}" | sed "s/^/$job plain /"
        "$work/plain" once "${job%-*}" "${job#*-}" | sed "s/^/$job once /"
    done
done > "$work/lines.txt"

awk '
    { job = $1; side = $2; name = $3; sub(/^[^ ]+ [^ ]+ [^ ]+ /, "") }
    !(job in seen) { seen[job] = 1; order[++jobs] = job }
    name ~ /^time-/ {
        key = side " " job " " substr(name, 6)
        if (!(key in best) || $0 + 0 < best[key]) best[key] = $0 + 0
        next
    }
    name == "end" { name = "solution"; $0 = 1 }
    name ~ /^end-over/ { name = "solution"; $0 = 0 }
    name !~ /^(cells|needs|needs-sum|values-sum|solution)$/ { next }
    { told[side " " job " " name] = $0; lines[job " " name] = 1 }
    function time(side, job, part) {
        if (part == "fill+check") return best[side " " job " fill"] + best[side " " job " check"]
        return best[side " " job " " part]
    }
    function row(job, part,    proved, plain, once) {
        proved = time("proved", job, part)
        plain = time("plain", job, part)
        once = time("once", job, part)
        printf "%-10s %-12s %12.3f %12.3f %7.2f %12.3f %7.2f\n", job, part, proved / 1e6, plain / 1e6, proved / plain, once / 1e6, proved / once
    }
    END {
        for (line in lines) {
            proved = told["proved " line]
            plain = told["plain " line]
            once = told["once " line]
            if (proved != plain || proved != once) {
                print "the programs differ at " line ": " proved ", " plain " and " once
                bad = 1
            }
        }
        if (bad) exit 1
        printf "%-10s %-12s %12s %12s %7s %12s %7s\n", "job", "part", "proved ms", "by steps ms", "ratio", "once ms", "ratio"
        for (i = 1; i <= jobs; i++) {
            job = order[i]
            row(job, "plan")
            if (!("plain " job " fill" in best)) continue
            row(job, "fill")
            row(job, "check")
            row(job, "fill+check")
        }
    }
' "$work/lines.txt"
