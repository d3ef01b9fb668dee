#!/bin/sh
# Times `carry` over captures of 1,000,000 and of 2,000,000 packets of 64 octets in real files, and prints how many packets it carries in
# a second, the best of three runs, and the most memory that a run took: that of the second capture shows that it doesn't grow. It wants
# rt, python3 and 600 MB in the temporary folder. Where tcpdump is there, it reads the last sent file. The gate doesn't run it. The
# program is proved first, in a scratch copy.
set -eu
top=$(cd "$(dirname "$0")/.." && pwd)
. "$top/bench/scratch.sh"
copy_crates p4x
cd "$work/crates/p4x"
run_once -- carry data/p1.p4 data/entries.txt data/in.pcap --text text --sent sent --report report
cat >"$work/carry.py" <<'END'
import os, struct, subprocess, time

def capture(name, count):
    with open(name, "wb") as file:
        file.write(struct.pack("<IHHIIII", 0xA1B2C3D4, 2, 4, 0, 0, 65535, 1))
        for first in range(0, count, 10000):
            numbers = range(first, min(first + 10000, count))
            file.write(b"".join(struct.pack("<IIII", n // 1000000, n % 1000000, 64, 64) + struct.pack(">Q", n) * 8 for n in numbers))

def run(count):
    words = ["out/p4x", "carry", "data/p1.p4", "data/entries.txt", "in", "--text", "text", "--sent", "sent", "--report", "report"]
    start = time.monotonic()
    child = subprocess.Popen(words, stdout=subprocess.DEVNULL)
    _, status, used = os.wait4(child.pid, 0)
    took = time.monotonic() - start
    assert status == 0, status
    assert os.path.getsize("sent") == 24 + 80 * count
    return took, used.ru_maxrss

print("%10s %12s %12s %12s" % ("packets", "seconds", "a second", "KiB at most"))
for count in 1000000, 2000000:
    capture("in", count)
    runs = [run(count) for _ in range(3)]
    best = min(took for took, _ in runs)
    print("%10d %12.2f %12.0f %12d" % (count, best, count / best, max(used for _, used in runs)))
END
python3 "$work/carry.py"
if command -v tcpdump >/dev/null; then
    tcpdump --version 2>&1 | sed -n 1p
    tcpdump --count -r sent
fi
