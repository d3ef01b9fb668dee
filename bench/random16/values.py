# Values of P4_16 programs as the plain interpreter has them, sums over lists of bits, and keys of entries.
import zlib

# What values stand in, which stay where they are while their contents change. Each holder has a width: None for a truth value, `error` for an error.


class Variable:
    def __init__(self, width):
        self.width = width
        self.value = False if width is None else 0


class Header:
    def __init__(self, fields):
        self.widths = dict(fields)
        self.clear()

    def clear(self):
        self.valid = False
        self.values = {name: 0 for name in self.widths}

    def take(self, other):
        self.valid, self.values = other.valid, dict(other.values)

    def copy(self):
        made = Header(self.widths.items())
        made.take(self)
        return made

    def bits(self):
        return "".join(format(self.values[name], "0%db" % width) for name, width in self.widths.items())


class Stack:
    def __init__(self, fields, size):
        self.elements = [Header(fields) for _ in range(size)]
        self.place = 0

    def take(self, other):
        for mine, its in zip(self.elements, other.elements):
            mine.take(its)
        self.place = other.place

    def copy(self):
        made = Stack([], 0)
        made.elements, made.place = [header.copy() for header in self.elements], self.place
        return made

    def move(self, count, up):
        old = [header.copy() for header in self.elements]
        for number, header in enumerate(self.elements):
            source = number - count if up else number + count
            if 0 <= source < len(old):
                header.take(old[source])
            else:
                header.clear()


class Field:
    """A field of a header: of an invalid one it reads 0, and nothing is written."""

    def __init__(self, header, name):
        self.header, self.name, self.width = header, name, header.widths[name]

    @property
    def value(self):
        return self.header.values[self.name] if self.header.valid else 0

    @value.setter
    def value(self, value):
        if self.header.valid:
            self.header.values[self.name] = value


class Slice:
    def __init__(self, of, high, low):
        self.of, self.low, self.width = of, low, high - low + 1

    @property
    def value(self):
        return self.of.value >> self.low & (1 << self.width) - 1

    @value.setter
    def value(self, value):
        mask = (1 << self.width) - 1 << self.low
        self.of.value = self.of.value & ~mask | value << self.low & mask


def copy_of(value):
    """A value by itself: a number, a truth value, a header, a stack, or a struct of such."""
    if isinstance(value, dict):
        return {name: copy_of(part) for name, part in value.items()}
    return value.copy() if isinstance(value, (Header, Stack)) else value.value


# Sums over lists of bits.


def octets_of(bits):
    bits += "0" * (-len(bits) % 8)
    return bytes(int(bits[at:at + 8], 2) for at in range(0, len(bits), 8))


def csum16(bits):
    bits += "0" * (-len(bits) % 16)
    total = sum(int(bits[at:at + 16], 2) for at in range(0, len(bits), 16))
    while total >> 16:
        total = (total & 0xFFFF) + (total >> 16)
    return ~total & 0xFFFF


def crc16(bits):
    rest = 0
    for octet in octets_of(bits):
        rest ^= octet
        for _ in range(8):
            rest = rest >> 1 ^ (0xA001 if rest & 1 else 0)
    return rest


SUMS = {
    "csum16": csum16, "crc16": crc16, "crc32": lambda bits: zlib.crc32(octets_of(bits)), "identity": lambda bits: int(bits[-128:] or "0", 2),
}


# Entries files.


def plain_number(word):
    if word in ("true", "false"):
        return int(word == "true")
    if "." in word:
        return int.from_bytes(map(int, word.split(".")), "big")
    if ":" in word:
        return int(word.replace(":", ""), 16)
    return int(word, 0) if word[:2] in ("0x", "0b") else int(word)


def key_of(word, kind):
    marks = {"ternary": "&&&", "lpm": "/", "range": "->"}
    return (kind, *map(plain_number, word.split(marks[kind]) if kind in marks else [word]))


def is_ranked(keys):
    return any(key[0] in ("ternary", "range") for key in keys)


def matches(value, width, key):
    kind = key[0]
    if kind == "exact":
        return value == key[1]
    if kind == "ternary":
        return (value ^ key[1]) & key[2] == 0
    if kind == "lpm":
        return (value ^ key[1]) >> width - key[2] == 0
    return key[1] <= value <= key[2]
