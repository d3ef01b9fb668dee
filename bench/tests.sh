#!/bin/sh
# Runs the tests of every crate without any proof, by `rt try --test`, as many crates at a time as there are processors, or as many as
# the first word says. It prints a line a crate, with its tests' last line, and what failed whole; the status is 0 where all passed. It
# takes some minutes. It proves nothing: `rt ci` does, and runs the same tests as LLVM builds them.
set -eu
cd "$(dirname "$0")/../crates"
work=$(mktemp -d)
trap 'rm -rf "$work"' EXIT
export work
grep -l -r '#\[test\]' --include='*.rt' . | cut -d/ -f2 | sort -u | xargs -P "${1:-$(nproc)}" -I{} sh -c '
    if (cd {} && rt try --test) >"$work/{}" 2>&1 && grep -q "^test result: ok" "$work/{}"; then
        echo "{}: $(grep "^test result:" "$work/{}" | tail -n 1)"
    else
        cat "$work/{}"; echo "{}: FAILED"; exit 1
    fi'
