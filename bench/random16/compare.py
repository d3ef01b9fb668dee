# Runs programs that are made at random (generate.py) by the command run16 and by a plain interpreter (interpret.py), and compares the sent files,
# the reports, the count of work among them, and the printed lines: compare.py PROGRAM COUNT [FIRST]. Each program has its entries, eight packets,
# their ports and a bound of passes. Behind this it prints how many of the programs that were equal have each feature (features.py). It works in
# the current folder.
import os
import struct
import subprocess
import sys
from collections import Counter

from features import FEATURES
from generate import Generator
from interpret import Machine

READ = struct.pack("<IHHIIII", 0xA1B2C3D4, 2, 4, 0, 0, 65535, 1)
SENT = struct.pack("<IHHIIII", 0xA1B2C3D4, 2, 4, 0, 0, 262144, 1)
WORDS = ["run16", "text", "entries", "in", "--sent", "sent", "--report", "report", "--ports", "ports", "--passes"]


def records(packets):
    return b"".join(struct.pack("<IIII", 1, 2, len(packet), len(packet)) + packet for packet in packets)


def content(name):
    with open(name, "rb") as file:
        return file.read()


def write(name, content):
    with open(name, "wb") as file:
        file.write(content)


def outcome(program, number):
    """What becomes of the program of this number: `equal`, `another`, or the line of a run that didn't end with status 0. Its features."""
    made = Generator(number)
    text, entries = made.text(), made.entry_file()
    packets, ports, bound = made.packets()
    write("text", text.encode())
    write("entries", entries.encode())
    write("ports", "".join("%d\n" % port for port in ports).encode())
    write("in", READ + records(packets))
    ran = subprocess.run([program] + WORDS + [str(bound)], stdout=subprocess.PIPE, stderr=subprocess.DEVNULL)
    if ran.returncode:
        return ran.stdout.decode().strip() or "status %d" % ran.returncode, ()
    machine = Machine(text, entries, bound)
    sent, report, line = machine.report(packets, ports)
    wanted = SENT + records([octets for _, octets in sent]), report.encode(), line.encode()
    found = "equal" if (content("sent"), content("report"), ran.stdout) == wanted else "another"
    return found, made.made | machine.ran


def main():
    program, count = os.path.abspath(sys.argv[1]), int(sys.argv[2])
    first = int(sys.argv[3]) if len(sys.argv) > 3 else 0
    equal, features = 0, Counter()
    for number in range(first, first + count):
        found, its = outcome(program, number)
        if found == "equal":
            equal += 1
            features.update(its)
        else:
            print("%d: %s" % (number, found), flush=True)
    unknown = set(features) - set(FEATURES)
    assert not unknown, unknown
    for feature in FEATURES:
        print("%6d %s" % (features[feature], feature))
    print("%d of %d programs give the same" % (equal, count))
    sys.exit(equal != count)


main()
