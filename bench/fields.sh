#!/bin/sh
# Times the reading and writing of one field of bits, beside plain Rust that goes octet by octet, and prints the nanoseconds of each: the best of three
# runs. It wants rt and rustc. run.sh may call it; the gate doesn't run it. The program is proved first, in a scratch copy.
set -eu
top=$(cd "$(dirname "$0")/.." && pwd)
. "$top/bench/scratch.sh"
make_program fields p4x_bits
run_once
rustc --edition 2024 -O -C target-cpu=x86-64-v2 -o "$work/fields" "$top/bench/fields.rs"
for _ in 1 2 3; do out/bench_fields; "$work/fields"; done | awk '
    { way = $1 " " $2; time = $4 / $3; if (!(way in best) || time < best[way]) best[way] = time; sum[way] = $5 }
    function row(name, title) {
        printf "%-34s %8.2f %12.2f\n", title, best[name " p4x"], best[name " rust"]
        if (sum[name " p4x"] != sum[name " rust"]) { print name ": the answers differ"; wrong = 1 }
    }
    END {
        printf "%-34s %8s %12s\n", "nanoseconds a field", "p4x", "plain Rust"
        row("read48", "read 48 bits, whole octets"); row("write48", "write 48 bits, whole octets")
        row("read48odd", "read 48 bits at an odd bit"); row("write48odd", "write 48 bits at an odd bit")
        row("read128", "read 128 bits, whole octets"); row("write128", "write 128 bits, whole octets")
        row("read128odd", "read 128 bits at an odd bit"); row("write128odd", "write 128 bits at an odd bit")
        exit wrong
    }'
