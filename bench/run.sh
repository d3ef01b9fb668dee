#!/bin/sh
# Times look-ups, CRCs and sums, beside the plain scan of match_core and beside BTreeMap of plain Rust, and prints a table of
# what is done in a second: the best of three runs. Then fields.sh times fields of bits, reading.sh and reading16.sh the reading of both languages, writing16.sh the writing of P4_16, judging.sh
# the rules of declarations, judging16.sh those of P4_16, carry.sh the command `carry`, and check.sh `check` and `order`.
# It wants rt and rustc. The gate doesn't run it. The program is proved first, in a scratch copy of the crates that it calls.
set -eu
top=$(cd "$(dirname "$0")/.." && pwd)
. "$top/bench/scratch.sh"
make_program tables p4x_bits match_core calc_core
for way in fill fill_pairs; do
    mkdir -p "proofs/$way"
    cp "$top/bench/$way.rattle" "proofs/$way/Invariants.antt"
done
run_once
rustc --edition 2024 -O -C target-cpu=x86-64-v2 -o "$work/baseline" "$top/bench/baseline.rs"
for _ in 1 2 3; do out/bench_tables; "$work/baseline"; done | awk '
    { way = $1 " " $2; rate = $3 * 1e9 / $4; if (rate > best[way]) best[way] = rate; sum[way] = $5 }
    function row(name, title, unit) {
        scan = best[name " scan"] ? sprintf("%.0f", best[name " scan"]) : "-"
        printf "%-22s %-11s %12.0f %12s %12.0f\n", title, unit, best[name " p4x"], scan, best[name " rust"]
        if (sum[name " p4x"] != sum[name " rust"] || sum[name " few"] != sum[name " scan"]) { print name ": the answers differ"; wrong = 1 }
    }
    END {
        printf "%-22s %-11s %12s %12s %12s\n", "", "a second", "p4x", "its scan", "plain Rust"
        row("exact", "exact, 65,536 entries", "look-ups"); row("lpm", "lpm, 10,000 prefixes", "look-ups")
        row("pair", "exact and lpm, 65,536", "look-ups")
        row("crc32", "crc32, 1 MiB lists", "octets"); row("csum16", "csum16, 1 MiB lists", "octets")
        exit wrong
    }'
"$top/bench/fields.sh"
"$top/bench/reading.sh"
"$top/bench/reading16.sh"
"$top/bench/writing16.sh"
"$top/bench/judging.sh"
"$top/bench/judging16.sh"
"$top/bench/carry.sh"
"$top/bench/check.sh"
