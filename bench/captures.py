# What the scripts that time runs over captures have in common: captures of many packets, and a run with its time and its memory.
import os, struct, sys, time

def checksum(octets):
    total = sum(struct.unpack(">%dH" % (len(octets) // 2), octets))
    while total >> 16:
        total = (total & 0xFFFF) + (total >> 16)
    return ~total & 0xFFFF

def routed(x):
    head = bytes.fromhex("450000730000400040110000c0a80001c0a8") + bytes([x // 2**48 % 2, x // 2**56])
    sum_of = struct.pack(">H", checksum(head))
    return bytes.fromhex("0200000000010200000000020800") + head[:10] + sum_of + head[12:]

def routes(name):
    with open(name, "w") as file:
        file.write("table_add routes route 192.168.0.0/24 => 3 02:00:00:00:00:07\n")
        file.write("table_add routes route 192.168.1.0/24 => 4 02:00:00:00:00:08\n")

def stepped(count, frame_of):
    x = 1
    for n in range(count):
        x = (x * 6364136223846793005 + 1442695040888963407) % 2**64
        yield frame_of(x)

def capture(name, count, frame_of):
    with open(name, "wb") as file:
        file.write(struct.pack("<IHHIIII", 0xA1B2C3D4, 2, 4, 0, 0, 65535, 1))
        some = []
        for n, frame in enumerate(stepped(count, frame_of)):
            some.append(struct.pack("<IIII", n // 1000000, n % 1000000, len(frame), len(frame)) + frame)
            if len(some) == 10000:
                file.write(b"".join(some))
                some = []
        file.write(b"".join(some))

def spawned(words, printed):
    return os.posix_spawn(words[0], words, os.environ, file_actions=[(os.POSIX_SPAWN_DUP2, printed.fileno(), 1)])

def run(words, line):
    """The seconds that a call of the program takes; it prints this line."""
    with open("line", "wb") as printed:
        start = time.monotonic()
        _, status = os.waitpid(spawned(words, printed), 0)
        took = time.monotonic() - start
    assert status == 0, status
    with open("line") as printed:
        assert printed.read() == line
    return took

def peak(words):
    """The most KiB that a call of the program holds, as the system tells them while it runs: what is told of a child that has ended counts
    this script's own memory too."""
    most = 0
    with open("line", "wb") as printed:
        child = spawned(words, printed)
        while os.waitpid(child, os.WNOHANG) == (0, 0):
            with open("/proc/%d/status" % child) as told:
                held = [int(line.split()[1]) for line in told if line.startswith("VmHWM:")]
            most = max([most] + held)
            time.sleep(0.001)
    return most

def table(rows):
    """A line for each row: its name, how many packets, the frame of a number, and the words of the call, whose word is that of its line."""
    os.sched_setaffinity(0, {min(os.sched_getaffinity(0))})
    print("%-8s %10s %12s %12s %12s" % ("", "packets", "seconds", "a second", "KiB at most"))
    for name, count, frame_of, words, word in rows:
        capture("in", count, frame_of)
        call = sys.argv[1:2] + words
        best = min(run(call, "%s %d %d 0\n" % (word, count, count)) for _ in range(int(sys.argv[2]) if count == 100000 else 3))
        print("%-8s %10d %12.2f %12.0f %12d" % (name, count, best, count / best, peak(call)))
