#!/bin/sh
# Times `run16` over captures in real files, on one core, and prints how many packets it runs in a second, the best of three runs, with the
# reading of the text, the entries and the capture and the writing of the sent file and the report, and the most memory that a run took:
#   plain    100,000 packets through a program that extracts one header, chooses a port and emits the header
#   router   100,000 packets through the sample router, which verifies and updates the checksum of each, and routes it by one of 2 prefixes
#   long     1,000,000 and 2,000,000 packets through the router: the memory of the second shows that it doesn't grow with the capture
#   carry    1,000,000 packets carried by a program of P4_14
#   carried  the same packets through the text that was written of it, so what the interpreter costs
# `bench/run16.sh PROGRAM` times a program that is built already; without the word the program is proved first, in a scratch copy of the crates
# that it stands on. `bench/run16.sh PROGRAM 180` takes the best of 180 runs of the first two. It wants python3, 600 MB in the temporary folder, and rt where it is to prove. The gate doesn't run it.
set -eu
top=$(cd "$(dirname "$0")/.." && pwd)
. "$top/bench/scratch.sh"
if [ $# -gt 0 ]; then
    program=$(cd "$(dirname "$1")" && pwd)/$(basename "$1")
else
    copy_crates p4x
    cd "$work/crates/p4x"
    run_once -- run16 data/router16.p4 data/routes.txt data/frame.pcap --sent sent --report report
    program=$work/crates/p4x/out/p4x
fi
cp "$top/crates/p4x/data/router16.p4" "$top/crates/p4x/data/plain16.p4" "$top/bench/captures.py" "$work"
cd "$work"
sed -n 's/^model name[^:]*: //p' /proc/cpuinfo | sed -n 1p
cat >run16.py <<'END'
from captures import routed, routes, table

ONE_TABLE = """header_type eth_t { fields { a : 48; b : 48; c : 16; } }
header eth_t eth;
parser start { extract(eth); return ingress; }
action out3() { modify_field(standard_metadata.egress_spec, 3); }
table t { actions { out3; } default_action : out3(); }
control ingress { apply(t); }
"""

routes("routes")
with open("one.p4", "w") as file:
    file.write(ONE_TABLE)
with open("none", "w") as file:
    pass

def words(program, entries):
    return ["run16", program, entries, "in", "--sent", "sent", "--report", "report"]

def plain(x):
    return x.to_bytes(8, "big") * 8

table((
    ("plain", 100000, plain, words("plain16.p4", "none"), "ran"),
    ("router", 100000, routed, words("router16.p4", "routes"), "ran"),
    ("long", 1000000, routed, words("router16.p4", "routes"), "ran"),
    ("long", 2000000, routed, words("router16.p4", "routes"), "ran"),
    ("carry", 1000000, plain, ["carry", "one.p4", "none", "in", "--text", "text", "--sent", "sent", "--report", "report"], "carried"),
    ("carried", 1000000, plain, words("text", "none"), "ran"),
))
END
python3 run16.py "$program" "${2:-3}"
