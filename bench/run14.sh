#!/bin/sh
# Times `run14` over captures in real files, on one core, and prints how many packets it runs in a second, the best of three runs, with the
# reading of the program, the entries and the capture and the writing of the sent file and the report, and the most memory that a run took:
#   router   100,000 packets through the sample router, which verifies and updates the checksum of each, and routes it by one of 2 prefixes
#   exact    100,000 packets through a table of 65,536 exact entries
#   long     1,000,000 and 2,000,000 packets through the router: the memory of the second shows that it doesn't grow with the capture
# `bench/run14.sh PROGRAM` times a program that is built already; without the word the program is proved first, in a scratch copy of the crates
# that it stands on. `bench/run14.sh PROGRAM 180` takes the best of 180 runs of the first two. What is timed is from just before the program is
# spawned to its end. It wants python3, 600 MB in the temporary folder, and rt where it is to prove. The gate doesn't run it.
set -eu
top=$(cd "$(dirname "$0")/.." && pwd)
. "$top/bench/scratch.sh"
if [ $# -gt 0 ]; then
    program=$(cd "$(dirname "$1")" && pwd)/$(basename "$1")
else
    copy_crates p4x
    cd "$work/crates/p4x"
    run_once -- run14 data/router.p4 data/routes.txt data/frame.pcap --sent sent --report report
    program=$work/crates/p4x/out/p4x
fi
cp "$top/crates/p4x/data/router.p4" "$top/bench/captures.py" "$work"
cd "$work"
sed -n 's/^model name[^:]*: //p' /proc/cpuinfo | sed -n 1p
cat >run14.py <<'END'
import struct
from captures import routed, routes, table

EXACT = """header_type four_t { fields { x : 16; y : 8; z : 8; } }
header four_t f;
parser start { extract(f); return ingress; }
action go(port) { modify_field(standard_metadata.egress_spec, port); }
table u { reads { f.x : exact; } actions { go; } size : 65536; }
control ingress { apply(u); }
"""

routes("routes")
with open("exact.p4", "w") as file:
    file.write(EXACT)
with open("exact", "w") as file:
    file.write("".join("table_add u go %d => %d\n" % (x, x % 511) for x in range(65536)))

def words(program, entries):
    return ["run14", program, entries, "in", "--sent", "sent", "--report", "report"]

table((
    ("router", 100000, routed, words("router.p4", "routes"), "ran"),
    ("exact", 100000, lambda x: struct.pack(">HBB", x // 2**48, 0, 0), words("exact.p4", "exact"), "ran"),
    ("long", 1000000, routed, words("router.p4", "routes"), "ran"),
    ("long", 2000000, routed, words("router.p4", "routes"), "ran"),
))
END
python3 run14.py "$program" "${2:-3}"
