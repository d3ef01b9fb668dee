#!/bin/sh
# Times the check of P4_16 programs of 1 and of 2 MiB, each of one shape, and prints the best of three runs. The program is proved
# first, in a scratch copy of the crates that it calls, which takes as long as the checks of p416_reader and p416_types where none
# was kept. run.sh calls it; the gate doesn't run it.
set -eu
top=$(cd "$(dirname "$0")/.." && pwd)
. "$top/bench/scratch.sh"
make_program judging16 p4x_fault p416_reader p416_types
run_once
for _ in 1 2 3; do out/bench_judging16; done | awk '
    { key = $1 " " $2; octets[key] = $3; if (!(key in best) || $4 < best[key]) best[key] = $4; if ($5 != 0) broken[$1] = $5 }
    function row(shape, title) {
        printf "%-52s %9d %8.0f %9d %8.0f %6.2f\n", title, octets[shape " one"], best[shape " one"] / 1e6, octets[shape " two"],
            best[shape " two"] / 1e6, best[shape " two"] / best[shape " one"]
    }
    END {
        printf "%-52s %9s %8s %9s %8s %6s\n", "", "octets", "ms", "octets", "ms", "times"
        row("types", "header and struct types, controls of them"); row("actions", "actions, tables, statements that apply them")
        row("states", "states with selects"); row("expressions", "one control, expressions 300 deep")
        row("parameters", "actions with many parameters"); row("variables", "variables in blocks within blocks")
        row("labels", "one table with many actions, many switches over it"); row("listed", "one action with many parameters, in many tables")
        for (shape in broken) { print shape ": T" broken[shape] " is broken"; wrong = 1 }
        exit wrong
    }'
