#!/bin/bash
# Lets the reads and the writes of the built program fail, one number at a time, and take one byte at a time, and judges each answer.
# The argument is the program, by default what `rt run` in crates/airyrun builds.
set -euo pipefail
here=$(cd "$(dirname "$0")" && pwd)
program=$(realpath -- "${1:-$here/../crates/airyrun/out/airyrun}")
work=$(mktemp -d)
trap 'rm -rf "$work"' EXIT
cc -O2 -shared -fPIC "$here/shim/refuse.c" -o "$work/refuse.so" -ldl
python3 "$here/ends.py" faults "$program" "$work/refuse.so"
