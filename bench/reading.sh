#!/bin/sh
# Times the reading of P4_14 texts, and prints for each the best of three runs: the time of its tokens and of the whole reading,
# and what is read in a second. The program is proved first, in a scratch copy of the crates that it calls, which takes as long
# as the check of p414_reader where none was kept. run.sh calls it; the gate doesn't run it.
set -eu
top=$(cd "$(dirname "$0")/.." && pwd)
. "$top/bench/scratch.sh"
make_program reading p414_tok p414_reader
run_once
for _ in 1 2 3; do out/bench_reading; done | awk '
    function least(of, name, time) { if (!(name in of) || time < of[name]) of[name] = time }
    { octets[$1] = $2; count[$1] = $3; least(lexed, $1, $4); least(read, $1, $5); told[$1] = $6 }
    function row(name, title) {
        printf "%-34s %9d %9d %10.0f %10.0f %9.2f\n", title, octets[name], count[name], lexed[name] / 1e6, read[name] / 1e6,
            octets[name] / 1048576 / (read[name] / 1e9)
    }
    END {
        printf "%-34s %9s %9s %10s %10s %9s\n", "", "octets", "tokens", "tokens, ms", "whole, ms", "MiB/s"
        row("program", "declarations"); row("program2", "declarations, twice as many")
        row("open", "`(` without end, refused"); row("parens", "`(` and as many `)`")
        row("blocks", "an `if` in an `if`"); row("else_if", "an `if` behind an `else`")
        printf "the doubled text takes %.2f times as long\n", read["program2"] / read["program"]
        if (told["program2"] <= told["program"] || told["open"] != octets["open"] + 1 || told["parens"] != 1 || told["blocks"] != 1 || told["else_if"] != 1) {
            print "a text is read otherwise than it should be"; exit 1
        }
    }'
