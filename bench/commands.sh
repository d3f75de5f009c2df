#!/bin/bash
# Times `bulk` and `volume` of the built program on one thread beside the plain Rust program, in turns, and prints the best time of each in
# seconds and the ratios of the built program to the plain one, which reduces its sums once, as the built program does, or at each step. The first
# argument is the built program (crates/airyrun/out/airyrun after `rt run` there), the second the number of turns. All must write the same bytes.
set -euo pipefail
here=$(cd "$(dirname "$0")" && pwd)
program=${1:-$here/../crates/airyrun/out/airyrun}
turns=${2:-5}
work=$(mktemp -d)
trap 'rm -rf "$work"' EXIT
rustc -O "$here/plain/table.rs" -o "$work/plain"

# Runs a program with its words, and notes the job, the side and the time.
timed() {
    local job=$1 side=$2
    shift 2
    local start=${EPOCHREALTIME/./}
    "$@" > "$work/$job-$side.txt"
    echo "$job $side $((${EPOCHREALTIME/./} - start))" >> "$work/times.txt"
}

for _ in $(seq "$turns"); do
    for job in bulk-1-4-12 bulk-1-8-8 volume-3-7; do
        words=${job//-/ }
        workers=--workers=0
        [ "${job%%-*}" = bulk ] || workers=
        timed "$job" proved "$program" $words $workers
        timed "$job" once "$work/plain" once $words
        timed "$job" steps "$work/plain" $words
        cmp "$work/$job-proved.txt" "$work/$job-once.txt"
        cmp "$work/$job-proved.txt" "$work/$job-steps.txt"
    done
done

awk '
    { key = $1 " " $2; if (!(key in best) || $3 < best[key]) best[key] = $3; if (!($1 in seen)) { seen[$1] = 1; order[++jobs] = $1 } }
    END {
        printf "%-12s %9s %9s %7s %9s %7s\n", "job", "proved", "plain", "ratio", "by steps", "ratio"
        for (j = 1; j <= jobs; j++) {
            proved = best[order[j] " proved"] / 1e6; once = best[order[j] " once"] / 1e6; steps = best[order[j] " steps"] / 1e6
            printf "%-12s %9.3f %9.3f %7.2f %9.3f %7.2f\n", order[j], proved, once, proved / once, steps, proved / steps
        }
    }' "$work/times.txt"
