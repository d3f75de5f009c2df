#!/bin/bash
# Lets the built program and the reader of grammar.py answer many texts, and compares status and bytes of each.
# The arguments: the program (by default what `rt run` in crates/airyrun builds), the number of texts, a seed or `edits`, the command (`probe`, or
# `table`, which checks the relations first), and its bound.
set -euo pipefail
here=$(cd "$(dirname "$0")" && pwd)
program=$(realpath -- "${1:-$here/../crates/airyrun/out/airyrun}")
work=$(mktemp -d)
trap 'rm -rf "$work"' EXIT
cc -O2 "$here/shim/batch.c" -o "$work/batch"
PYTHONDONTWRITEBYTECODE=1 python3 "$here/fuzz.py" "$program" "$work/batch" "${2:-100000}" "${3:-1}" "${4:-probe}" "${5:-1}"
