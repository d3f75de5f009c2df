#!/bin/bash
# Times `table` for every bound of the three named structures on one thread (no workers) and on four (three workers), in turns, and prints a line for
# each: structure, bound, lines of the table, and the best seconds of both. The first argument is the built program, the second the number of turns.
# Both runs of a table must write the same bytes. `bench/times.csv` is what it printed; `tools/figures.py` draws it.
set -euo pipefail
program=$(realpath -- "$1")
turns=${2:-3}
work=$(mktemp -d)
trap 'rm -rf "$work"' EXIT

# The best of all turns; more runs where one is short, since a short one is mostly the start of the program.
best() { sort -g "$1" | head -1; }
seconds() { local from=$EPOCHREALTIME; "$program" table "$1" "$2" --workers "$3" > "$work/$3.txt"; awk -v a="$from" -v b="$EPOCHREALTIME" 'BEGIN { printf "%.4f\n", b - a }'; }

echo "# best of $turns turns; load $(cut -d' ' -f1 /proc/loadavg) at the begin; $(nproc) processors"
echo "kind,bound,lines,seconds_1,seconds_4"
for job in wk-{1..23} bgw-{1..24} wp-{1..11}; do
    kind=${job%-*} bound=${job#*-}
    for _ in $(seq "$turns"); do
        seconds "$kind" "$bound" 0 >> "$work/$job-0.times"
        seconds "$kind" "$bound" 3 >> "$work/$job-3.times"
        cmp "$work/0.txt" "$work/3.txt"
    done
    echo "$kind,$bound,$(wc -l < "$work/0.txt"),$(best "$work/$job-0.times"),$(best "$work/$job-3.times")"
done
echo "# load $(cut -d' ' -f1 /proc/loadavg) at the end"
