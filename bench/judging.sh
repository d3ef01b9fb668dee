#!/bin/sh
# Times the judging of the declarations of P4_14 texts, the graphs of their parser states, and the order of the headers of long parsers,
# and prints the best of three runs. The program is proved first, in a scratch copy of the crates that it calls, which takes as long as the
# checks of p414_reader and p414_decl_check where none was kept. run.sh calls it; the gate doesn't run it.
set -eu
top=$(cd "$(dirname "$0")/.." && pwd)
. "$top/bench/scratch.sh"
make_program judging p4x_bits p414_syntax p414_reader p414_decl_check parse_graph deparse_order
run_once
for _ in 1 2 3; do out/bench_judging; done | awk '
    function least(of, name, time) { if (!(name in of) || time < of[name]) of[name] = time }
    $1 ~ /^order/ { states[$1] = $2; least(ordered, $1, $3); found[$1] = $4; next }
    { octets[$1] = $2; count[$1] = $3; least(judged, $1, $4); least(graphed, $1, $5); kept[$1] = $6 }
    function row(name, title) {
        printf "%-28s %9d %12d %10.0f %10.1f\n", title, octets[name], count[name], judged[name] / 1e6, graphed[name] / 1e6
    }
    END {
        printf "%-28s %9s %12s %10s %10s\n", "", "octets", "declarations", "decls, ms", "graph, ms"
        row("program", "declarations"); row("program2", "declarations, twice as many")
        printf "the doubled text takes %.2f times as long\n", judged["program2"] / judged["program"]
        for (name in ordered) printf "%d states, each with a header of its own: their order in %.1f ms\n", states[name], ordered[name] / 1e6
        if (kept["program"] != 1 || kept["program2"] != 1) { print "a rule is broken"; exit 1 }
        for (name in found) if (found[name] != states[name]) { print "an order lacks headers"; exit 1 }
    }'
