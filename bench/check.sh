#!/bin/sh
# Times `check` and `order` of programs of 0.5 and of 1 MiB that break no rule, with declarations of every kind, and prints the best of five
# runs, the start of the program among it, and the most memory that a run took. `bench/check.sh PROGRAM` times a program that is built
# already; without the word the program is proved first, in a scratch copy of the crates that it stands on, which takes as long as their
# checks where none was kept. It wants python3, and rt where it is to prove. The gate doesn't run it.
set -eu
top=$(cd "$(dirname "$0")/.." && pwd)
. "$top/bench/scratch.sh"
if [ $# -gt 0 ]; then
    program=$(cd "$(dirname "$1")" && pwd)/$(basename "$1")
else
    copy_crates p4x
    cd "$work/crates/p4x"
    run_once -- check data/p1.p4
    program=$work/crates/p4x/out/p4x
fi
cd "$work"
cat >check.py <<'END'
import os, subprocess, sys, time

# One part of a program: its parser states go on to those of the next part, and ingress calls its control.
PART = """// Part $.
header_type ethernet_$_t { fields { dst : 48; src : 48; kind : 16; } }
header_type ipv4_$_t { fields { version : 4; ihl : 4; diffserv : 8; totalLen : 16;
  identification : 16; flags : 3; fragOffset : 13; ttl : 8; protocol : 8;
  hdrChecksum : 16; srcAddr : 32; dstAddr : 32; } }
header_type label_$_t { fields { bos : 8; } }
header_type meta_$_t { fields { k : 8; l : 8 (saturating); n : 8; } }
header ethernet_$_t ethernet_$;
header ipv4_$_t ipv4_$;
header label_$_t labels_$[2];
metadata meta_$_t m_$ { l : 5; }
parser start_$ { extract(ethernet_$); set_metadata(m_$.k, latest.kind);
  return select(latest.kind, current(0, 8)) { 0x0800, 0x0806 mask 0xfffe : parse_ipv4_$; default : @; } }
parser parse_ipv4_$ { extract(ipv4_$); extract(labels_$[next]); return @; }
field_list ipv4_list_$ { ipv4_$.version; ipv4_$.ihl; ipv4_$.diffserv; ipv4_$.totalLen;
  ipv4_$.identification; ipv4_$.flags; ipv4_$.fragOffset; ipv4_$.ttl; ipv4_$.protocol;
  ipv4_$.srcAddr; ipv4_$.dstAddr; payload; }
field_list pair_$ { ipv4_$.srcAddr; ipv4_$.dstAddr; 16'0x0011; }
field_list_calculation ipv4_sum_$ { input { ipv4_list_$; } algorithm : csum16; output_width : 16; }
field_list_calculation way_$ { input { pair_$; } algorithm : crc16; output_width : 16; }
calculated_field ipv4_$.hdrChecksum { verify ipv4_sum_$ if (valid(ipv4_$)); update ipv4_sum_$; }
action nowhere_$() { drop(); }
action route_$(port, mac) { modify_field(standard_metadata.egress_spec, port);
  modify_field(ethernet_$.dst, mac); add_to_field(ipv4_$.ttl, -1); count(seen_$, 3); }
action mark_$(port) { modify_field(m_$.k, 16'0x1f); bit_xor(m_$.l, m_$.k, labels_$[1].bos);
  register_write(last_$, m_$.k, ipv4_$.srcAddr); execute_meter(rate_$, 1, m_$.n);
  modify_field_with_hash_based_offset(m_$.k, 0, way_$, 16); pop(labels_$, 1); nowhere_$(); }
counter routed_$ { type : packets; direct : routes_$; }
counter seen_$ { type : packets_and_bytes; instance_count : 64; }
register last_$ { width : 32; instance_count : 1024; }
meter rate_$ { type : bytes; instance_count : 16; }
table routes_$ { reads { ipv4_$.dstAddr : lpm; ipv4_$.srcAddr mask 0xffff0000 : exact; ethernet_$ : valid; }
  actions { route_$; mark_$; nowhere_$; } size : 1024; default_action : nowhere_$(); }
table reject_$ { actions { nowhere_$; } default_action : nowhere_$(); }
control inner_$ { if (m_$.n == 3) { apply(reject_$); } }
control apply_$ {
  if (valid(ipv4_$) and ipv4_$.ttl > 1) { apply(routes_$); } else { apply(reject_$); }
  if (m_$.k & 0xf == 3 or not (m_$.l << 2 >= m_$.n + 1)) {
    if (m_$.k == 0) { apply(routes_$) { hit { apply(reject_$); } miss { inner_$(); } } }
    else if (m_$.k == 1) { apply(routes_$) { route_$ { if (true) { inner_$(); } } default { } } }
    else { if (ethernet_$.kind != 0x0800) { if (m_$.n <= 7) { inner_$(); } else { apply(reject_$); } } }
  }
}
"""

def text(size):
    count = size // 5000
    while True:
        parts = []
        for n in range(count):
            on = "start_%06d" % (n + 1) if n + 1 < count else "ingress"
            parts.append(PART.replace("$", "%06d" % n).replace("@", on))
        calls = "".join("  apply_%06d();\n" % n for n in range(count))
        parts.append("parser start { return start_000000; }\ncontrol ingress {\n%s}\n" % calls)
        whole = "".join(parts)
        if len(whole) + 6000 > size:
            return whole + " " * (size - len(whole)), count
        count += 1

def run(program, command):
    start = time.monotonic()
    child = subprocess.Popen([program, command, "program.p4"], stdout=open("printed", "w"))
    _, status, used = os.wait4(child.pid, 0)
    took = time.monotonic() - start
    assert status == 0, open("printed").read()
    return took, used.ru_maxrss

print("%8s %10s %8s %10s %12s" % ("", "octets", "parts", "seconds", "KiB at most"))
for size in 524288, 1048576:
    whole, count = text(size)
    with open("program.p4", "w") as file:
        file.write(whole)
    for command in "check", "order":
        runs = [run(sys.argv[1], command) for _ in range(5)]
        printed = open("printed").read()
        expected = "accepted\n" if command == "check" else "".join(
            "ethernet_%06d\nipv4_%06d\nlabels_%06d\n" % (n, n, n) for n in range(count))
        assert printed == expected, printed[:200]
        best, most = min(took for took, _ in runs), max(used for _, used in runs)
        print("%8s %10d %8d %10.3f %12d" % (command, size, count, best, most))
END
python3 check.py "$program"
