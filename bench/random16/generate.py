# Makes a P4_16 program of this project's profile from a number, with entries that fit it, packets, ports and a bound of passes. The program breaks
# none of the rules T1 to T12. Few names are used, so many hide others.
import random

from express import Expressions, Scope
from spell import BEHIND

SUMS = ("csum16", "crc16", "crc32", "identity")
COUNTS = ("packets", "bytes", "packets_and_bytes")
STANDARD = [("ingress_port", 9), ("egress_spec", 9), ("egress_port", 9), ("packet_length", 32), ("instance_type", 32), ("checksum_error", 1)]
LOCALS = ("a", "a", "b", "b", "x", "x", "y", "z", "c", "hit", "next", "last", "lookahead", "exact")
HIDING = ("meta", "hdr", "sm", "hash", "p", "count", "t1", "a2")
PLANES = ("V1Switch", "main", "bit", "table", "apply", "true", "default", "key", "A", "Z9", "_", "__a", "in", "out", "hit", "error", "NoAction")
HEADERS, METADATA, STANDARD_METADATA = ("named", "hs"), ("named", "ms"), ("named", "standard_metadata_t")
LISTS = (0, 1, 1, 1, 2, 2, 200)
MOST = 2**32 - 1


class Generator(Expressions):
    def __init__(self, number):
        super().__init__(random.Random("random16 %d" % number))
        self.names = 0
        self.top, self.entries, self.meters = {}, [], []
        self.table_planes, self.object_planes = set(), set()
        self.notes = {}
        self.types()

    def name(self, letter):
        self.names += 1
        return letter + str(self.names)

    def text_of(self, *parts):
        return " ".join(part for part in parts if part)

    # Types

    def types(self):
        for _ in range(self.upto(1, 3)):
            fields = [("f%d" % number, self.pick((1, 2, 4, 7, 8, 8, 8, 9, 16, 16, 32, 48, 65, 128))) for number in range(self.upto(1, 4))]
            odd = sum(width for _, width in fields) % 8
            fields += [("pad", 8 - odd)] if odd else []
            self.random.shuffle(fields)
            self.headers[self.name("h_t")] = [(name, ("bit", width)) for name, width in fields]
        wholes = [("h%d" % number, self.header_kind()) for number in range(self.upto(1, 3))]
        wholes += [("s%d" % number, self.stack_kind(4)) for number in range(self.upto(0, 2))]
        self.random.shuffle(wholes)
        self.structs = {
            "standard_metadata_t": [(name, ("bit", width)) for name, width in STANDARD] + [("parser_error", ("error",))],
            "hs": wholes,
            "inner_t": [("g%d" % number, ("bit", self.width())) for number in range(self.upto(0, 3))],
            "ms": [("m%d" % number, ("bit", self.width())) for number in range(self.upto(1, 4))],
            "mixed_t": [
                ("b", ("bool",)), ("n", ("bit", self.width())), ("h", self.header_kind()), ("k", self.stack_kind(2)), ("e", ("named", "inner_t")),
            ],
        }
        if self.chance(0.7):
            self.structs["ms"].append(("st", ("named", "inner_t")))
        for struct in ("ms", "inner_t"):
            for name, _ in self.structs[struct]:
                lists = ", ".join(str(self.pick(LISTS)) for _ in range(self.upto(1, 2)))
                self.notes[struct, name] = "@field_list(%s)" % lists if self.chance(0.6) else ""

    def header_kind(self):
        return ("named", self.pick(list(self.headers)))

    def stack_kind(self, most):
        return ("stack", self.header_kind()[1], self.upto(1, most))

    def declared_types(self):
        for name, fields in self.headers.items():
            yield "header %s { %s }" % (name, " ".join("%s %s;" % (self.kind(kind), field) for field, kind in fields))
        for name, fields in self.structs.items():
            if name != "standard_metadata_t":
                written = [self.text_of(self.notes.get((name, field), ""), self.kind(kind), field + ";") for field, kind in fields]
                yield "struct %s { %s }" % (name, " ".join(written))

    def variable_kind(self):
        kinds = [("bit", self.width())] * 5 + [("bool",)] * 2 + [self.header_kind()] * 2 + [self.stack_kind(3)]
        return self.pick(kinds + [("named", self.pick(("inner_t", "ms", "hs", "mixed_t", "standard_metadata_t")))])

    # The whole program

    def text(self):
        declared = list(self.declared_types())
        for _ in range(self.upto(0, 2)):
            name, meaning, written = self.new_object()
            self.top[name] = meaning
            self.made.add("program: object at the top")
            declared.append(written)
        self.witness = self.name("o") if self.chance(0.7) else None
        if self.witness:
            self.object_planes.add(self.witness)
            self.top[self.witness] = ("object", "register", 128)
            declared.append("register<bit<128>>(16) %s;" % self.witness)
        declared.append(self.parser())
        blocks = ["V", "I", "E", "C", "D"]
        for first, second in (("V", "C"), ("I", "E")):
            if self.chance(0.15):
                blocks[blocks.index(second)] = first
                self.made.add("program: control at two places of main")
        for block in dict.fromkeys(blocks):
            declared.append(self.control(block, blocks.count(block) > 1))
        if self.chance(0.5):
            self.random.shuffle(declared)
            self.made.add("program: declarations in any order")
        text = "\n".join(declared + ["V1Switch(P(), %s) main;" % ", ".join(block + "()" for block in blocks)])
        text = self.blanks(text) if self.chance(0.3) else text
        return "#include <core.p4>\n#include <v1model.p4>\n%s\n" % text

    def parser(self):
        names = {"p": ("packet",)}
        names.update((name, ("variable", kind, True)) for name, kind in (("hdr", HEADERS), ("meta", METADATA), ("sm", STANDARD_METADATA)))
        scope = Scope("P", [self.top, names], in_action=True)
        variables = " ".join(self.declared(scope, *variable) for variable in self.block_variables(scope))
        states = ["start"] + ["q%d" % number for number in range(self.upto(0, 5))]
        written = []
        for number, state in enumerate(states):
            back = self.chance(0.4)
            statements = [self.first_extract()] if back or self.chance(0.5) else []
            inner = scope.within({})
            statements += [self.statement(inner, 2) for _ in range(self.upto(0, 3))]
            targets = (states if back else states[number + 1:]) + ["accept"] * 3 + ["reject"]
            written.append("state %s { %s %s }" % (state, " ".join(statements), self.transition(inner, targets)))
        self.random.shuffle(written)
        parameters = "packet_in p, out hs hdr, inout ms meta, inout standard_metadata_t sm"
        return "parser P(%s) { %s %s }" % (parameters, variables, "\n  ".join(written))

    def first_extract(self):
        """An extract of a state from which others come back to earlier states."""
        name, kind = self.pick(self.structs["hs"])
        if kind[0] != "stack":
            return "p.extract(hdr.%s);" % name
        first = "p.extract(hdr.%s%s);" % (name, self.pick((".next", ".next", ".next", "[0]")))
        return first + (" p.extract(hdr.%s.last);" % name if self.chance(0.4) else "")

    def block_variables(self, scope):
        """Variables of a parser or control, whose initial values may read them all: their kinds and names."""
        made = []
        for _ in range(self.upto(0, 5)):
            kind, name = self.variable_kind(), self.pick(("a", "b", "x", "y", "z"))
            if name not in scope.names[-1]:
                scope.names[-1][name] = ("variable", kind, True)
                made.append((kind, name))
        return made

    def declared(self, scope, kind, name):
        value = self.expression(scope, kind, 2) if self.chance(0.6) else None
        return "%s %s%s;" % (self.kind(kind), name, " = " + self.spell(value) if value else "")

    def transition(self, scope, targets):
        if self.chance(0.3):
            return "transition %s;" % self.pick(targets)
        keys = [self.select_key(scope) for _ in range(self.upto(1, 3))]
        cases = [self.case(keys) for _ in range(self.pick((0, 1, 2, 3, 4)))]
        cases += ["default"] if self.chance(0.6) else []
        written = " ".join("%s : %s;" % (case, self.pick(targets)) for case in cases)
        return "transition select(%s) { %s }" % (", ".join(self.spell(key) for _, key in keys), written)

    def select_key(self, scope):
        sort = self.pick(("bits",) * 5 + ("bool", "error"))
        if sort != "bits":
            return sort, self.truth(scope, 2) if sort == "bool" else self.error(scope, 1)
        width = self.pick((1, 1, 2, 3, 8, self.width()))
        return width, self.bits(scope, width, 2)

    def case(self, keys):
        if self.chance(0.1):
            return self.pick(("default", "_"))
        simple = ", ".join(self.simple(sort) for sort, _ in keys)
        return simple if len(keys) == 1 and self.chance(0.5) else "(%s)" % simple

    def simple(self, sort):
        if sort == "error" or self.chance(0.2):
            return self.pick(("_", "default"))
        if sort == "bool":
            return self.pick(("true", "false"))
        first, second = (self.number(self.below(sort), self.pick((sort, None))) for _ in range(2))
        return self.pick(("{0}", "{0}", "{0} &&& {1}", "{0} .. {1}")).format(first, second)

    # Controls

    def control(self, block, twice):
        parameters = [("inout", HEADERS, "hdr"), ("inout", METADATA, "meta")]
        if block == "D":
            parameters = [("in", HEADERS, "hdr")]
        elif block in ("I", "E"):
            parameters.append(("inout", STANDARD_METADATA, "sm"))
        names = {name: ("variable", kind, direction != "in") for direction, kind, name in parameters}
        written = ["%s %s %s" % (direction, self.kind(kind), name) for direction, kind, name in parameters]
        if block == "D":
            names["p"] = ("packet",)
            written.insert(0, "packet_out p")
        scope = Scope({"I": "IE", "V": "VC"}[block] if twice else block, [self.top, names])
        declared = self.locals(scope)
        statements = self.first_statements(scope) if block in ("I", "E") else []
        inner = scope.within({})
        statements += [self.statement(inner, 3) for _ in range(self.upto(1, 7))]
        statements += self.last_statements(inner)
        return "control %s(%s) { %s apply { %s } }" % (block, ", ".join(written), "\n  ".join(declared), " ".join(statements))

    def first_statements(self, scope):
        """Most packets are to leave; the metadata as they come in are written to a register; and many packets come again."""
        made = ["sm.egress_spec = 9w3;"] if self.chance(0.8) else []
        places = [(name, kind[1]) for name, kind in self.structs["ms"] if kind[0] == "bit"]
        if ("st", ("named", "inner_t")) in self.structs["ms"]:
            places += [("st." + name, kind[1]) for name, kind in self.structs["inner_t"]]
        if self.witness:
            made += ["if (meta.{0} != 0) {1}.write({2}, meta.{0});".format(place, self.witness, at) for at, (place, _) in enumerate(places)]
        if scope.block != "IE" and self.chance(0.5):
            set_first = ["meta.%s = %s;" % (place, self.number(self.below(width))) for place, width in places if self.chance(0.7)]
            made.append("if (sm.instance_type == 0) { %s }" % " ".join(set_first + [self.request(scope)]))
        return made

    def last_statements(self, scope):
        """What makes the values that are there show: in a register, the metadata, a header or what is emitted."""
        made, name = [], self.name("u")
        if scope.block in ("I", "E", "IE") and self.witness:
            made.append("bit<128> {0}; {1}.read({0}, 15); {1}.write(15, {2});".format(name, self.witness, self.mixed(scope, 128, ("name", name))))
        elif scope.block in ("V", "VC", "C"):
            name, kind = ("meta", METADATA) if scope.block == "V" else ("hdr", HEADERS)
            if scope.means(name, "variable", kind, True):
                steps, (_, width) = self.pick([part for part in self.parts(kind) if part[1][0] == "bit"])
                target = self.steps_to(("name", name), steps)
                made.append("%s = %s;" % (self.spell(target, BEHIND), self.mixed(scope, width, target)))
        elif scope.block == "D" and scope.means("p", "packet"):
            kind, fields = self.pick(list(self.headers.items()))
            field, (_, width) = self.pick(fields)
            target = ("member", ("name", name), field)
            made.append("{0} {1}; {1}.setValid(); {1}.{2} = {3}; p.emit({1});".format(kind, name, field, self.mixed(scope, width, target)))
            if scope.means("hdr", "variable", HEADERS, False):
                made += ["p.emit(hdr.%s);" % whole for whole, _ in self.structs["hs"] if self.chance(0.7)]
        return made

    def mixed(self, scope, width, first):
        """A value that depends on a first one and on some that are there."""
        made = first
        for _ in range(8):
            found = self.bits_place(scope)
            if found:
                made = ("operator", "*", made, ("number", width, 3 % (1 << width)))
                made = ("operator", "+", made, ("cast", ("bit", width), found[0]))
        return self.spell(made)

    def locals(self, scope):
        """The declarations of a control."""
        names, stateful = scope.names[-1], scope.block in ("I", "E", "IE")
        others, actions, tables, variables = [], [], [], self.block_variables(scope)
        for _ in range(self.upto(0, 3) if stateful else 0):
            name, meaning, written = self.new_object()
            names[name] = meaning
            others.append(written)
        for _ in range(self.upto(0, 4)):
            directed = [(self.pick(("in", "out", "inout")), self.parameter_kind(scope)) for _ in range(self.upto(0, 3))]
            plain = [("", ("bit", self.width()) if self.chance(0.7) else ("bool",)) for _ in range(self.upto(0, 2))]
            if directed and plain:
                self.made.add("program: action with parameters of both sorts")
            actions.append(self.new_action(names, directed + plain, None))
        shared = [action for action in actions if all(not direction and kind[0] == "bit" for direction, kind in action[1])]
        for _ in range(self.upto(0, 3)):
            counter = self.direct_counter(names, others) if stateful and self.chance(0.5) else None
            own = [self.new_action(names, [("", ("bit", self.width())) for _ in range(self.upto(0, 3))], counter) for _ in range(self.upto(1, 3))]
            actions += own
            listed = list(own)
            if shared and self.chance(0.3):
                listed.append(self.pick(shared))
                self.made.add("program: action of a table that others may call")
            name = self.name("t")
            names[name] = ("table", [action[0] for action in listed])
            tables.append((name, counter, listed))
        others += [self.action(scope, *action) for action in actions]
        others += [self.table(scope, *table) for table in tables]
        self.random.shuffle(others)
        return self.between(others, [self.declared(scope, *variable) for variable in variables])

    def between(self, others, variables):
        """The variables in their order among the other declarations."""
        places = sorted(self.upto(0, len(others)) for _ in variables)
        made = list(others)
        for place, variable in reversed(list(zip(places, variables))):
            made.insert(place, variable)
        return made

    def parameter_kind(self, scope):
        """A kind of which there may be a place, each sort of kind as often as the others."""
        sorts = {}
        for _, whole, _ in scope.of_sort("variable"):
            for _, kind in self.parts(whole):
                if kind[0] != "error":
                    sorts.setdefault((kind[0], self.is_header(kind)), []).append(kind)
        return self.pick(self.pick(list(sorts.values())))

    def noted(self, name, planes):
        """The control-plane name of a table or object, with the annotation that gives it."""
        plane = self.pick(PLANES) if self.chance(0.6) else "n%d" % self.upto(0, 99)
        note = '@name("%s")' % plane
        if plane in planes or self.chance(0.5):
            plane, note = name, ""
        else:
            self.made.add("program: @name")
        planes.add(plane)
        return plane, note

    def new_object(self):
        kind, name, width = self.pick(("counter", "register", "register", "meter")), self.name("o"), self.width()
        size = self.number(self.pick((1, 2, 3, 4, 1000)), self.pick((32, None)))
        plane, note = self.noted(name, self.object_planes)
        if kind == "meter":
            self.meters.append(plane)
        written = {
            "counter": "counter(%s, CounterType.%s)" % (size, self.pick(COUNTS)), "register": "register<bit<%d>>(%s)" % (width, size),
            "meter": "meter(%s, MeterType.%s)" % (size, self.pick(COUNTS[:2])),
        }
        return name, ("object", kind, width), self.text_of(note, written[kind], name + ";")

    def direct_counter(self, names, written):
        name = self.name("d")
        names[name] = ("object", "direct_counter", 0)
        written.append(self.text_of(self.noted(name, self.object_planes)[1], "direct_counter(CounterType.%s)" % self.pick(COUNTS), name + ";"))
        return name

    def new_action(self, names, parameters, counter):
        name = self.name("a")
        plane = self.pick(PLANES) + name if self.chance(0.3) else name
        names[name] = ("action", parameters, self.names)
        return name, parameters, plane, counter

    def action(self, scope, name, parameters, plane, counter):
        own, written = {}, []
        for direction, kind in parameters:
            parameter = self.pick(("a", "b", "x"))
            parameter = self.name("q") if parameter in own else parameter
            own[parameter] = ("variable", kind, direction in ("out", "inout"))
            written.append(self.text_of(direction, self.kind(kind), parameter))
        inner = scope.within(own, in_action=True, rank=scope.names[-1][name][2], counter=counter)
        body = self.block(inner, 1)
        if counter and self.chance(0.7):
            body = "%s %s.count(); }" % (body[:-1], counter)
        note = '@name("%s")' % plane if plane != name else ""
        return self.text_of(note, "action %s(%s) %s" % (name, ", ".join(written), body))

    def table(self, scope, name, counter, listed):
        inner = scope.within({}, in_action=True)
        keys = [self.key(inner) for _ in range(self.upto(0, 3))]
        if self.chance(0.3):
            width = self.width()
            keys.insert(self.upto(0, len(keys)), ("lpm", width, self.bits(inner, width, 2)))
        if self.chance(0.3):
            keys = [key for key in keys if key[0] not in ("ternary", "range")]
        actions = [action[0] for action in listed] + (["NoAction"] if self.chance(0.4) else [])
        self.random.shuffle(actions)
        widths = {action[0]: [kind[1] for _, kind in action[1]] for action in listed}
        properties = ["actions = { %s }" % " ".join(action + ";" for action in actions)]
        if keys or self.chance(0.1):
            written = ["%s : %s%s;" % (self.spell(key[2]), key[0], ' @name("q")' if self.chance(0.1) else "") for key in keys]
            properties.append("key = { %s }" % " ".join(written))
        if counter:
            properties.append("counters = %s;" % counter)
        if self.chance(0.3):
            properties.append("size = %s;" % self.number(self.pick((5, 6, 100, 2**40))))
        if self.chance(0.5):
            action = self.pick(actions)
            arguments = [self.number(self.below(width), self.pick((width, None))) for width in widths.get(action, [])]
            properties.append("default_action = %s(%s);" % (action, ", ".join(arguments)))
        self.random.shuffle(properties)
        plane, note = self.noted(name, self.table_planes)
        self.fill(plane, keys, [(action[2], widths[action[0]]) for action in listed])
        return self.text_of(note, "table %s { %s }" % (name, " ".join(properties)))

    def key(self, scope):
        if self.chance(0.2):
            return "exact", 1, self.truth(scope, 2)
        width = self.width()
        return self.pick(("exact", "exact", "ternary", "range")), width, self.bits(scope, width, 2)

    # Entries and packets

    def fill(self, table, keys, actions):
        ranked = any(key[0] in ("ternary", "range") for key in keys)
        there = set()
        for _ in range(self.upto(0, 5) if keys else 0):
            action, widths = self.pick(actions)
            words, values = zip(*(self.entry_key(kind, width) for kind, width, _ in keys))
            priority = self.pick((0, 1, 5, 2**31 - 1))
            if (values, ranked and priority) in there:
                continue
            there.add((values, ranked and priority))
            words = ["table_add", table, action, *words, "=>"] + [self.entry_number(self.below(width)) for width in widths]
            self.entries.append(words + ([self.entry_number(priority)] if ranked else []))
        for _ in range(self.pick((0, 0, 1, 2))):
            action, widths = self.pick(actions)
            self.entries.append(["table_set_default", table, action] + [self.entry_number(self.below(width)) for width in widths])

    def entry_key(self, kind, width):
        """The word of a key, and what it asks for."""
        value = self.below(width) if self.chance(0.5) else self.upto(0, 3) % (1 << width)
        if kind == "exact":
            return (("false", "true")[value] if width == 1 and self.chance(0.4) else self.entry_number(value)), value
        if kind == "ternary":
            mask = self.pick((0, 0, 1, self.below(width)))
            return "%s&&&%s" % (self.entry_number(value), self.entry_number(mask)), (value & mask, mask)
        if kind == "lpm":
            length = min(width, self.pick((0, 0, 1, width, self.upto(0, width))))
            return "%s/%d" % (self.entry_number(value), length), (value >> width - length, length)
        low, high = sorted((value if self.chance(0.7) else 0, self.below(width)))
        return "%s->%s" % (self.entry_number(low), self.entry_number(high)), (low, high)

    def entry_number(self, value):
        forms = ["%d" % value] * 4 + ["00%d" % value, "0x%x" % value, "0x00%X" % value, "0b" + format(value, "b")]
        if value < 2**32:
            forms.append(".".join(map(str, value.to_bytes(4, "big"))))
        if value < 2**48:
            forms.append(value.to_bytes(6, "big").hex(":"))
        return self.pick(forms)

    def entry_file(self):
        """The entries, to be asked for behind the text."""
        lines = list(self.entries)
        self.random.shuffle(lines)
        lines += [["mirroring_add", session, port] for session, port in (("7", "9"), ("8", "10"), ("0x7fff", "510"), ("0", "0"))]
        for meter in self.meters * 2:
            lines.append(["meter_colours", meter] + [str(self.upto(0, 2)) for _ in range(self.upto(0, 4))])
        ends = ("\n", "\n", "\r\n", " \n", "\n\n", "\n# c\n")
        return "".join(self.pick(("", "", "", "\t ")) + self.pick((" ", " ", "\t", "  ")).join(words) + self.pick(ends) for words in lines)

    def packets(self):
        """The packets, the ports on which they come in, and the bound of passes."""
        sizes = [self.pick((0, 1, 8, 20, 60, 100, 150, 250)) for _ in range(8)]
        packets = [bytes(self.upto(0, 255) if self.chance(0.7) else self.pick((0, 1, 255)) for _ in range(size)) for size in sizes]
        return packets, [self.pick((0, 1, 510, self.upto(0, 510))) for _ in sizes], self.pick((1, 2, 3, 8, 16))

    # Statements

    def block(self, scope, depth, most=4):
        inner = scope.within({})
        return "{ %s }" % " ".join(self.statement(inner, depth) for _ in range(self.upto(0, most)))

    def statement(self, scope, depth):
        makers = [self.assignment] * 5 + [self.variable, self.whole_assignment] * 2 + [self.validity, self.move, self.empty]
        if depth > 0:
            makers += [self.branch] * 4 + [self.block]
        makers += {
            "P": [self.extract] * 6, "V": [self.checksum, self.call] * 3, "C": [self.checksum, self.call] * 3, "VC": [self.call] * 5,
            "D": [self.emit] * 5 + [self.call] * 3,
        }.get(scope.block, [self.extern] * 8 + [self.call] * 4)
        for _ in range(5):
            made = self.pick(makers)(scope, depth - 1)
            if made:
                return made
        return ";"

    def empty(self, *_):
        return self.pick((";", "{ }", "{ ; }"))

    def assignment(self, scope, _):
        target = self.target(scope)
        return target and "%s = %s;" % (self.spell(target[0], BEHIND), self.spell(self.bits(scope, target[1], 3, True)))

    def whole_assignment(self, scope, _):
        found = self.place(scope, lambda kind: kind[0] != "bit", True)
        if not found or found[1] == STANDARD_METADATA and self.chance(0.6):
            return None
        return "%s = %s;" % (self.spell(found[0], BEHIND), self.spell(self.expression(scope, found[1], 2)))

    def variable(self, scope, _):
        names, kind = scope.names[-1], self.variable_kind()
        free = [name for name in LOCALS + (HIDING if self.chance(0.15) else ()) if name not in names]
        name = self.pick(free) if free else self.name("u")
        written = self.declared(scope, kind, name)
        names[name] = ("variable", kind, True)
        return written

    def validity(self, scope, _):
        found = self.place(scope, self.is_header, True)
        return found and "%s.%s();" % (self.spell(found[0], BEHIND), self.pick(("setValid", "setValid", "setInvalid")))

    def move(self, scope, _):
        found = self.place(scope, lambda kind: kind[0] == "stack", True)
        count = self.number(self.pick((0, 1, 1, 2, 3, 5, MOST)), self.pick((None, 32)))
        return found and "%s.%s(%s);" % (self.spell(found[0], BEHIND), self.pick(("push_front", "pop_front")), count)

    def branch(self, scope, depth):
        condition = self.spell(self.truth(scope, 3))
        if self.chance(0.5):
            return "if (%s) %s" % (condition, self.arm(scope, depth))
        yes = self.arm(scope, depth)
        return "if (%s) %s else %s" % (condition, "{ %s }" % yes if yes.startswith("if") else yes, self.arm(scope, depth))

    def arm(self, scope, depth):
        return self.block(scope, depth) if self.chance(0.5) else self.statement(scope.within({}), depth)

    def extract(self, scope, _):
        found = self.place(scope, self.is_header, True) if scope.means("p", "packet") else None
        return found and "p.extract(%s);" % self.spell(found[0])

    def emit(self, scope, _):
        fits = lambda kind: kind[0] == "stack" or self.is_header(kind)
        found = self.whole(scope, fits, 2) if scope.means("p", "packet") else None
        return found and "p.emit(%s);" % self.spell(found[0])

    # Calls

    def list(self, scope):
        return ("list", [self.bits(scope, self.width(), 2) for _ in range(self.upto(0, 5))])

    def sum_name(self):
        return ("member", ("name", "HashAlgorithm"), self.pick(SUMS))

    def checksum(self, scope, _):
        name = "verify_checksum" if scope.block == "V" else "update_checksum"
        name += "_with_payload" if self.chance(0.5) else ""
        if scope.block == "V":
            field = self.bits(scope, self.pick((16, 16, 8, 1, 32, 128)), 2)
        else:
            target = self.target(scope)
            if not target:
                return None
            field = target[0]
        return self.call_of(name, self.truth(scope, 2), self.list(scope), field, self.sum_name())

    def call_of(self, name, *arguments):
        return self.called(("name", name), arguments)

    def method(self, name, method, *arguments):
        return self.called(("member", ("name", name), method), arguments)

    def index(self, scope):
        if self.chance(0.3):
            return self.bits(scope, 32, 2, True)
        return ("number", self.pick((32, None)), self.pick((0, 0, 1, 2, 3, 4, 5, MOST)))

    def extern(self, scope, _):
        makers = [self.object_call, self.direct_count] * 3 + [self.request, self.spec] * 2 + [self.hash, self.drop]
        return self.pick(makers)(scope)

    def object_call(self, scope):
        objects = [found for found in scope.of_sort("object") if found[1] != "direct_counter"]
        if not objects:
            return None
        name, kind, width = self.pick(objects)
        if kind == "counter":
            return self.method(name, "count", self.index(scope))
        if kind == "register" and self.chance(0.5):
            return self.method(name, "write", self.index(scope), self.bits(scope, self.pick((width, self.width())), 2))
        target = self.target(scope)
        if not target:
            return None
        if kind == "register":
            return self.method(name, "read", target[0], self.index(scope))
        return self.method(name, "execute_meter", self.index(scope), target[0])

    def hash(self, scope):
        target = self.target(scope)
        if not target or "hash" in scope.visible():
            return None
        base, most = self.bits(scope, self.width(), 2), self.bits(scope, self.width(), 2)
        return self.call_of("hash", target[0], self.sum_name(), base, self.list(scope), most)

    def drop(self, scope):
        found = self.place(scope, lambda kind: kind == STANDARD_METADATA, True) if self.chance(0.3) else None
        return found and "mark_to_drop(%s);" % self.spell(found[0])

    def spec(self, scope):
        if scope.means("sm", "variable", STANDARD_METADATA, True):
            return "sm.egress_spec = %s;" % self.number(self.pick((1, 3, 5, 510, 511)), 9)
        return None

    def request(self, scope):
        if scope.block == "IE":
            return None
        number = self.number(self.pick(LISTS), self.pick((8, None)))
        ingress = scope.block == "I"
        if self.chance(0.4):
            return "%s_preserving_field_list(%s);" % ("resubmit" if ingress else "recirculate", number)
        session = self.number(self.pick((0, 7, 7, 8, 8, 9, 32767, MOST)), self.pick((32, None)))
        if self.chance(0.2):
            session = self.spell(self.bits(scope, 32, 2, True))
        return "clone_preserving_field_list(CloneType.%s, %s, %s);" % ("I2E" if ingress else "E2E", session, number)

    def direct_count(self, scope):
        return "%s.count();" % scope.counter if scope.counter else None

    def call(self, scope, depth):
        """Applies a table or calls an action."""
        tables = [] if scope.in_action else scope.of_sort("table")
        if tables and self.chance(0.6):
            name, actions = self.pick(tables)
            if self.chance(0.5):
                return "%s.apply();" % name
            labels = [self.pick(actions + ["default"]) for _ in range(self.upto(0, 4))]
            cases = " ".join("%s : %s" % (label, self.block(scope, depth, 2)) for label in labels)
            return "switch (%s.apply().action_run) { %s }" % (name, cases)
        actions = [(name, parameters) for name, parameters, rank in scope.of_sort("action") if scope.rank is None or rank < scope.rank]
        if not actions:
            return None
        name, parameters = self.pick(actions)
        arguments = [self.argument_for(scope, direction, kind) for direction, kind in parameters]
        return None if None in arguments else self.call_of(name, *arguments)

    def argument_for(self, scope, direction, kind):
        if direction not in ("out", "inout"):
            return self.expression(scope, kind, 2)
        fits = (lambda other: other[0] == "bit" and other[1] >= kind[1]) if kind[0] == "bit" else lambda other: other == kind
        found = self.place(scope, fits, True)
        if not found:
            return None
        made, of = found
        if of == kind:
            return made
        low = self.upto(0, of[1] - kind[1])
        return ("slice", made, low + kind[1] - 1, low)
