#!/bin/sh
# Times the writing of P4_16 texts, and prints for each the best of three runs: the time, what it is for each MiB of the text that
# is written, and what is written in a second. The program is proved first, in a scratch copy of the crates that it calls, which
# takes as long as the checks of p416_reader and p416_writer where none was kept. run.sh calls it; the gate doesn't run it.
set -eu
top=$(cd "$(dirname "$0")/.." && pwd)
. "$top/bench/scratch.sh"
make_program writing16 p416_reader p416_writer
run_once
for _ in 1 2 3; do out/bench_writing16; done | awk '
    { read[$1] = $2; octets[$1] = $3; if (!($1 in best) || $4 < best[$1]) best[$1] = $4; if ($5 != $6 || $6 == 0) wrong = 1 }
    function mebi(name) { return octets[name] / 1048576 }
    function row(name, title) {
        printf "%-34s %9d %9d %10.1f %10.1f %9.2f\n", title, read[name], octets[name], best[name] / 1e6, best[name] / 1e6 / mebi(name),
            mebi(name) / (best[name] / 1e9)
    }
    END {
        printf "%-34s %9s %9s %10s %10s %9s\n", "", "read", "written", "whole, ms", "1 MiB, ms", "MiB/s"
        row("program", "declarations"); row("program2", "declarations, twice as many")
        row("sums", "a sum in a sum"); row("blocks", "an `if` in an `if`")
        printf "the doubled text takes %.2f times as long\n", best["program2"] / best["program"]
        if (wrong) { print "a text is read back otherwise than it was written"; exit 1 }
    }'
