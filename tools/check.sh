#!/bin/bash
# Everything beside the proofs that can be checked of a built program: what the pages and examples show, the loaders, the numbers of the literature,
# the manual page and the figures, and that tables which another program made are verified. The arguments are the three programs. What isn't there on the machine (python3, gp, mandoc) is named and left out; the first
# check that fails ends this script with its status.
set -euo pipefail
program=$(realpath -- "$1")
more=$(realpath -- "$2")
waiting=$(realpath -- "$3")
cd "$(dirname "$0")/.."
if command -v python3 > /dev/null; then
    python3 -B tools/transcripts.py "$program" "$more" "$waiting" README.md docs/LITERATURE.md examples
    python3 -B tools/loaders.py "$program"
    python3 -B tools/literature.py "$program"
    python3 -B tools/figures.py --check "$program"
    for table in "wk 12" "bgw 24" "wp 9"; do
        told=$(python3 -B tools/document.py $table | "$more" verify) || true
        echo "a document of $table by tools/document.py: $told"
        [ "$told" = solution ]
    done
else
    echo "no python3 here: the pages, examples, loaders and numbers are left out"
fi
if command -v mandoc > /dev/null; then
    mandoc -T lint -W warning docs/airyrun.1
else
    echo "no mandoc here: the manual page is left out"
fi
