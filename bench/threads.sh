#!/bin/bash
# Times the built program with 0 to 3 workers, in turns, and prints the best time of each in seconds, its ratio to no workers, and the peak memory in
# MB; beside it the plain Rust program of the same algorithm on one thread. The first argument is the built program (crates/airyrun/out/airyrun after
# `rt run` there), the second the number of turns, the others are jobs: a structure and a bound, as wk-20. Every run must write the same bytes.
set -euo pipefail
program=$1
turns=${2:-5}
shift; [ $# -eq 0 ] || shift
[ $# -gt 0 ] || set -- wk-16 wk-20 wk-23 wp-11
here=$(cd "$(dirname "$0")" && pwd)
work=$(mktemp -d)
trap 'rm -rf "$work"' EXIT
rustc -O "$here/plain/table.rs" -o "$work/plain"

for _ in $(seq "$turns"); do
    for job in "$@"; do
        for workers in 0 1 2 3; do
            /usr/bin/time -f "$job $workers %e %M" -a -o "$work/times.txt" "$program" table "${job%-*}" "${job#*-}" --workers "$workers" > "$work/$job-$workers.txt"
            cmp "$work/$job-0.txt" "$work/$job-$workers.txt"
        done
        /usr/bin/time -f "$job plain %e %M" -a -o "$work/times.txt" "$work/plain" "${job%-*}" "${job#*-}" > /dev/null
    done
done

awk '
    { key = $1 " " $2; if (!(key in best) || $3 < best[key]) best[key] = $3; if ($4 > peak[key]) peak[key] = $4; if (!($1 in seen)) { seen[$1] = 1; order[++jobs] = $1 } }
    END {
        for (j = 1; j <= jobs; j++) for (w = 0; w <= 4; w++) {
            name = w < 4 ? w : "plain"; key = order[j] " " name
            printf "%-8s %-6s %7.2f s %6.2f of no workers %8.1f MB\n", order[j], name, best[key], best[key] / best[order[j] " 0"], peak[key] / 1024
        }
    }' "$work/times.txt"
