#!/bin/sh
# Runs P4_16 programs that are made at random by `run16` and by a plain interpreter, which is written in Python from docs/LANGUAGE16.md and shares
# no code with it, and prints how many gave the same sent file, report and printed line, and how many of these had each feature
# (bench/random16/features.py): `bench/random16.sh PROGRAM [COUNT [FIRST]]`, with the program as it is built, 400 where no count is given, and the
# number of the first program. It wants python3. The gate doesn't run it.
set -eu
top=$(cd "$(dirname "$0")/.." && pwd)
program=$(cd "$(dirname "$1")" && pwd)/$(basename "$1")
work=$(mktemp -d)
trap 'rm -rf "$work"' EXIT
cd "$work"
PYTHONDONTWRITEBYTECODE=1 python3 "$top/bench/random16/compare.py" "$program" "${2:-400}" "${3:-0}"
