#!/bin/sh
# Prints the crates of this repository that the named ones stand on, and these, in the order of crates.txt.
set -eu
top=$(cd "$(dirname "$0")/.." && pwd)
awk -v names="$*" '
    /^#/ { next }
    { sub(/:/, ""); crate[++count] = $1; for (i = 2; i <= NF; i++) uses[$1] = uses[$1] " " $i }
    END {
        size = split(names, asked, " ")
        for (i = 1; i <= size; i++) wanted[asked[i]] = 1
        for (i = count; i >= 1; i--) if (crate[i] in wanted) {
            size = split(uses[crate[i]], asked, " ")
            for (j = 1; j <= size; j++) wanted[asked[j]] = 1
        }
        for (i = 1; i <= count; i++) if (crate[i] in wanted) print crate[i]
    }' "$top/crates.txt"
