#!/bin/bash
# Refuses the allocations and the starts of threads of the built program, one number at a time and all from a number on, and judges each answer.
# The argument is the program, by default what `rt run` in crates/airyrun builds.
set -euo pipefail
here=$(cd "$(dirname "$0")" && pwd)
program=$(realpath -- "${1:-$here/../crates/airyrun/out/airyrun}")
work=$(mktemp -d)
trap 'rm -rf "$work"' EXIT
cc -O2 -shared -fPIC "$here/shim/refuse.c" -o "$work/refuse.so" -ldl
python3 "$here/ends.py" memory "$program" "$work/refuse.so"
