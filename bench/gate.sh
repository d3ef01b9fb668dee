#!/bin/sh
# Runs the gate with nothing kept over a fresh clone of the last commit, and prints the minutes of each crate's proof, of its tests and
# of its edits as a table. With names of crates it does so for these and those below them: `bench/gate.sh p4x_fault calc_core`. The lines
# of `rt ci` go to standard error, each behind the minutes since the start. The status is that of `rt ci`. It wants rt, git, python3 and
# the /proc of Linux. The gate doesn't run it.
set -eu
top=$(cd "$(dirname "$0")/.." && pwd)
work=$(mktemp -d)
trap 'rm -rf "$work"' EXIT
git clone --quiet "$top" "$work/repository"
cat >"$work/gate.py" <<'END'
import collections, os, subprocess, sys, threading, time

KINDS = "proof", "tests", "edits"
TICKS = os.sysconf("SC_CLK_TCK")

def processes():
    """The parent, the processor time and the words of each process that runs, by its number."""
    found = {}
    for name in filter(str.isdigit, os.listdir("/proc")):
        try:
            with open(f"/proc/{name}/stat") as file:
                stat = file.read().rpartition(")")[2].split()
            with open(f"/proc/{name}/cmdline", errors="replace") as file:
                found[int(name)] = int(stat[1]), (int(stat[11]) + int(stat[12])) / TICKS, file.read().split("\0")
        except OSError:
            pass  # It ended meanwhile.
    return found

def checks_below(top, found):
    """The number, the crate, the kind and the processor time of each check that is a descendant of this process."""
    below = collections.defaultdict(list)
    for number, (parent, _, _) in found.items():
        below[parent].append(number)
    left = list(below[top])
    while left:
        number = left.pop()
        left += below[number]
        _, used, words = found[number]
        if "--crate-name" in words[:-1]:
            kind = "edits" if words[1] == "check" else "tests" if "--test" in words else "proof"
            yield number, words[words.index("--crate-name") + 1], kind, used

def stamp(stream, start):
    for line in stream:
        sys.stderr.write(f"{(time.monotonic() - start) / 60:7.2f} {line}")

start = time.monotonic()
# Kits whose rt ci keeps what it has passed know --anew; the others keep nothing, and take no names.
keeps = "--anew" in subprocess.run(["rt", "help"], stdout=subprocess.PIPE, stderr=subprocess.STDOUT, text=True, errors="replace").stdout
child = subprocess.Popen(["rt", "ci", *(["--anew"] if keeps else []), *sys.argv[1:]], stdout=subprocess.PIPE, stderr=subprocess.STDOUT, text=True, errors="replace")
reader = threading.Thread(target=stamp, args=(child.stdout, start))
reader.start()
ran, used, last = collections.Counter(), {}, start
try:
    while child.poll() is None:
        time.sleep(0.5)
        now = time.monotonic()
        seen = list(checks_below(child.pid, processes()))
        for crate, kind in {(crate, kind) for _, crate, kind, _ in seen}:
            ran[crate, kind] += now - last
        for number, crate, kind, seconds in seen:
            used[number, crate, kind] = seconds
        last = now
finally:
    child.terminate()
    reader.join()
whole = time.monotonic() - start
spent = collections.Counter()
for (_, crate, kind), seconds in used.items():
    spent[crate, kind] += seconds
with open("crates.txt") as file:
    crates = [line.partition(":")[0].split()[0] for line in file if line[0] not in "#\n"]
print(f"Minutes on the clock, on {os.cpu_count()} cores, in which a check of this kind ran, and behind the stroke minutes of a processor. Several checks")
print("run at once, so those on the clock overlap, and come to more than the whole. The edits begin with one more check of the crate.\n")
print("| crate | proof | tests | edits |\n|---|---|---|---|")
for crate in crates:
    if spent[crate, "proof"]:
        print(f"| `{crate}` | " + " | ".join(f"{ran[crate, kind] / 60:.1f} / {spent[crate, kind] / 60:.1f}" for kind in KINDS) + " |")
parts = ", ".join(f"{kind} {sum(spent[crate, kind] for crate in crates) / 60:.1f}" for kind in KINDS)
print(f"\nThe whole run took {whole / 60:.1f} minutes on the clock, and {sum(spent.values()) / 60:.1f} minutes of a processor: {parts}.")
sys.exit(child.returncode)
END
cd "$work/repository"
python3 "$work/gate.py" "$@"
