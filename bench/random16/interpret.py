# A plain interpreter of P4_16 programs of this project's profile, with entries, over packets: values are numbers and truth values, headers and
# stacks are objects, and nothing is made ready. It follows docs/LANGUAGE16.md ("What a P4_16 program does with a packet"), docs/FABRIC.md and
# the tables of docs/LANGUAGE14.md, and shares no code with the commands. It takes down in `ran` which features it met (features.py).
from read import program_of
from values import copy_of, Field, Header, is_ranked, key_of, matches, octets_of, plain_number, Slice, Stack, SUMS, Variable

ERRORS = ["NoError", "PacketTooShort", "StackOutOfBounds", "NoMatch"]
DROP = 511
STANDARD = {
    "ingress_port": 9, "egress_spec": 9, "egress_port": 9, "instance_type": 32, "packet_length": 32, "checksum_error": 1, "parser_error": "error",
}
BLOCKS = ["verify", "ingress", "egress", "compute", "deparser"]
TRUTHS = ("==", "!=", "<", "<=", ">", ">=", "&&", "||", "!")


class Stopped(Exception):
    """An error that stops the parser."""


class Machine:
    def __init__(self, text, entries, bound):
        self.program = program_of(text)
        self.bound = bound
        self.work = 0
        self.ran = set()
        blocks, parsers, controls = (self.program[part] for part in ("blocks", "parsers", "controls"))
        self.parser = parsers[blocks[0]]
        self.controls = [controls[name] for name in blocks[1:]]
        _, headers, metadata, _ = self.parser[0]
        self.headers = headers[1][1]
        self.metadata = metadata[1][1]
        self.sessions, self.colours, self.tables = {}, {}, {}
        inner = {id(made) for control in controls.values() for made in control["objects"].values()}
        self.top = {made["name"]: made for made in self.program["objects"] if id(made) not in inner}
        for made in self.program["objects"]:
            made["cells"] = [[0, 0] if made["kind"] == "counter" else 0 for _ in range(made["size"])]
            made["executed"], made["blocks"] = 0, set()
        for control in controls.values():
            for table in control["tables"].values():
                table["entries"], table["put default"] = [], None
                self.tables[table["plane"]] = (table, control)
        for line in entries.split("\n"):
            words = line.split()
            if words and words[0][0] != "#":
                self.fill(words)

    def fill(self, words):
        """A line of the entries file."""
        if words[0] == "mirroring_add":
            self.sessions[plain_number(words[1])] = plain_number(words[2])
        elif words[0] == "meter_colours":
            self.colours.setdefault(words[1], []).extend(map(plain_number, words[2:]))
        else:
            table, control = self.tables[words[1]]
            action = next(name for name in table["actions"] if name != "NoAction" and control["actions"][name]["plane"] == words[2])
            if words[0] == "table_set_default":
                table["put default"] = (action, list(map(plain_number, words[3:])))
                return
            arrow = words.index("=>", 3)
            keys = [key_of(word, kind) for word, (_, kind) in zip(words[3:arrow], table["keys"])]
            behind = list(map(plain_number, words[arrow + 1:]))
            count = len(control["actions"][action]["parameters"])
            priority = behind[count] if is_ranked(keys) else 0
            table["entries"].append({"keys": keys, "action": action, "arguments": behind[:count], "priority": priority, "cell": [0, 0]})

    # The frame of a packet

    def new(self, kind):
        if kind[0] == "bit":
            return Variable(kind[1])
        if kind[0] == "bool":
            return Variable(None)
        if kind[0] == "stack":
            return Stack(self.program["headers"][kind[1]], kind[2])
        if kind[1] in self.program["headers"]:
            return Header(self.program["headers"][kind[1]])
        if kind[1] == "standard_metadata_t":
            return {name: Variable(width) for name, width in STANDARD.items()}
        return {name: self.new(of) for name, of, _ in self.program["structs"][kind[1]]}

    def begin(self, kind, length, port, kept):
        """The frame as a pass begins."""
        self.packet_headers = self.new(("named", self.headers))
        self.packet_metadata = self.new(("named", self.metadata))
        self.standard = self.new(("named", "standard_metadata_t"))
        self.put_all(self.packet_metadata, kept)
        self.standard["instance_type"].value = kind
        self.standard["packet_length"].value = length % 2**32
        self.standard["ingress_port"].value = port

    def put_all(self, into, values):
        for name, value in values.items():
            if isinstance(value, dict):
                self.put_all(into[name], value)
            else:
                into[name].value = value

    def preserved(self, number):
        """What a field list preserves of the metadata: the bit fields whose own declaration bears its number."""
        return self.preserved_of(self.metadata, self.packet_metadata, number)

    def preserved_of(self, struct, values, number, marked=False):
        """`marked` is whether the member that is this struct bears the number, which preserves nothing."""
        kept = {}
        for name, kind, lists in self.program["structs"][struct]:
            if kind[0] == "named":
                kept[name] = self.preserved_of(kind[1], values[name], number, number in lists)
                continue
            inner = struct != self.metadata
            if number in lists:
                kept[name] = values[name].value
                if kept[name]:
                    self.ran.add("preserved: field of a member struct" if inner else "preserved: field of the metadata")
            elif values[name].value:
                self.ran.add("preserved: not by the mark of the member struct" if marked else "preserved: not without a mark")
        return kept

    # Blocks

    def enter(self, parameters, variables, block):
        self.block, self.requests, self.hit = block, {}, None
        self.packet = parameters[0][2]
        parts = {"standard_metadata_t": self.standard, self.headers: self.packet_headers, self.metadata: self.packet_metadata}
        self.names = {name: parts.get(kind[1]) for _, kind, name in parameters}
        for _, kind, name, _ in variables:
            self.names[name] = self.new(kind)
            self.ran.add("variable: " + self.sort_of_kind(kind))
        self.base, self.caller, self.applied = self.names, self.names, set()
        for _, kind, name, value in variables:
            if value is not None:
                self.tick()
                self.put(self.names[name], self.value_for(value, kind))

    def sort_of_kind(self, kind):
        if kind[0] != "named":
            return kind[0]
        return "header" if kind[1] in self.program["headers"] else "struct"

    def named(self, name):
        """What a name means in the scope of the declaration that is run, which needn't be what it means where this was called."""
        found = self.names[name]
        if found is self.base.get(name) and found is not self.caller.get(name):
            self.ran.add("scope: of the declaration, not of the call")
        return found

    def tick(self):
        self.work = (self.work + 1) % 2**64

    def parse(self, octets):
        """Runs the parser; whether nothing stopped it."""
        self.unparsed = "".join(format(octet, "08b") for octet in octets)
        parameters, variables, states = self.parser
        try:
            self.enter(parameters, variables, None)
            state = "start"
            while state not in ("accept", "reject"):
                outer, self.names = self.names, dict(self.names)
                statements, transition = states[state]
                for statement in statements:
                    self.run(statement)
                self.tick()
                state = self.lead(transition)
                self.names = outer
            self.ran.add("parser: " + state)
            return True
        except Stopped as stopped:
            self.ran.add("parser: " + stopped.args[0])
            self.standard["parser_error"].value = ERRORS.index(stopped.args[0])
            return False

    def lead(self, transition):
        if transition[0] == "go":
            return transition[1]
        keys = [self.key_value(key) for key in transition[1]]
        if len(keys) > 1:
            self.ran.add("select: several keys")
        if not transition[2]:
            self.ran.add("select: no case")
        for keyset, state in transition[2]:
            if keyset == [("any",)] or all(self.is_in(value, simple) for (value, _), simple in zip(keys, keyset)):
                self.ran.update("select: " + simple[0] for simple in keyset)
                self.ran.update("select: key that is " + sort for _, sort in keys)
                return state
        raise Stopped("NoMatch")

    def key_value(self, key):
        """The value of a select's key, and the sort of it."""
        sort = self.sort(key)
        if sort == "bits":
            return self.bits(key)[0], sort
        return (self.truth(key) if sort == "bool" else self.error(key)), sort

    def is_in(self, value, simple):
        if simple[0] == "any":
            return True
        first, *second = (part[1] if part[0] == "truth" else part[2] for part in simple[1:])
        if simple[0] == "mask":
            return (value ^ first) & second[0] == 0
        if simple[0] == "range":
            return first <= value <= second[0]
        return value == first

    def control(self, number):
        control = self.controls[number]
        self.part = BLOCKS[number]
        self.enter(control["parameters"], control["variables"], control)
        self.run(control["apply"])
        return self.requests

    # Statements

    def run(self, statement):
        kind = statement[0]
        if kind == "block":
            outer, self.names = self.names, dict(self.names)
            for inner in statement[1]:
                self.run(inner)
            self.names = outer
        elif kind == "variable":
            _, of, name, value = statement
            made = self.new(of)
            if value is not None:
                self.tick()
                self.put(made, self.value_for(value, of))
            self.ran.add("variable: " + self.sort_of_kind(of))
            if name in self.names:
                self.ran.add("scope: name that hides another")
            self.names[name] = made
        elif kind != "empty":
            self.tick()
            getattr(self, "run_" + kind)(*statement[1:])

    def run_assign(self, target, value):
        place = self.place(target)
        if isinstance(place, (Header, Stack, dict)):
            self.ran.add("assignment: " + {Header: "header", Stack: "stack", dict: "struct"}[type(place)])
            self.put(place, copy_of(self.place(value)))
        elif place.width is None:
            self.put(place, self.truth(value))
        elif place.width == "error":
            self.ran.add("assignment: error")
            self.put(place, self.error(value))
        else:
            if target[0] == "slice":
                self.ran.add("assignment: slice")
            self.put(place, self.bits(value, place.width)[0])

    def run_if(self, condition, yes, no):
        outer, self.names = self.names, dict(self.names)
        self.run(yes if self.truth(condition) else no)
        self.names = outer

    def run_switch(self, table, cases):
        _, action = self.apply(table)
        named = [body for label, body in cases if label == action]
        others = [body for label, body in cases if label == "default"]
        self.ran.add("switch: " + ("label" if named else "default" if others else "neither"))
        if len(named) > 1:
            self.ran.add("switch: label twice")
        for body in (named or others)[:1]:
            self.run(body)

    def put(self, place, value):
        """Puts a value (`copy_of`) of the kind of the place there: a number is cut."""
        if isinstance(place, (Header, Stack)):
            place.take(value)
        elif isinstance(place, dict):
            for name in place:
                self.put(place[name], value[name])
        else:
            place.value = value if place.width in (None, "error") else value % (1 << place.width)

    def value_for(self, expression, kind):
        if kind[0] == "bit":
            return self.bits(expression, kind[1])[0]
        return self.truth(expression) if kind[0] == "bool" else copy_of(self.place(expression))

    # Expressions

    def place(self, expression):
        """What an l-value means, or a header, a stack or a struct that an expression is."""
        kind = expression[0]
        if kind == "name":
            return self.named(expression[1])
        if kind == "choice":
            self.ran.add("expression: choice of headers, stacks or structs")
            return self.place(expression[2] if self.truth(expression[1]) else expression[3])
        of = self.place(expression[1])
        if kind == "element":
            return of.elements[expression[2]]
        if kind == "slice":
            return Slice(of, *expression[2:])
        if isinstance(of, Stack):
            place = of.place - (expression[2] == "last")
            if not 0 <= place < len(of.elements):
                raise Stopped("StackOutOfBounds")
            return of.elements[place]
        return Field(of, expression[2]) if isinstance(of, Header) else of[expression[2]]

    def is_place(self, expression):
        while expression[0] == "slice":
            expression = expression[1]
        return expression[0] in ("name", "member", "element")

    def like(self, expression):
        """A place of the kind of an expression, which is found without any effect or error."""
        kind = expression[0]
        if kind == "name":
            return self.names[expression[1]]
        if kind == "choice":
            return self.like(expression[2])
        if kind == "slice":
            return Variable(expression[2] - expression[3] + 1)
        of = self.like(expression[1])
        if isinstance(of, Stack):
            return of.elements[0]
        return Field(of, expression[2]) if isinstance(of, Header) else of[expression[2]]

    def sort(self, expression):
        """Whether an expression is `bits`, a `bool`, an `error` or something of `several` values."""
        kind = expression[0]
        if kind == "choice":
            return self.sort(expression[2])
        if kind in ("truth", "called"):
            return "bool"
        if kind == "cast":
            return "bool" if expression[1][0] == "bool" else "bits"
        if kind in ("operator", "before"):
            return "bool" if expression[1] in TRUTHS else "bits"
        if kind in ("number", "lookahead", "slice"):
            return "bits"
        if kind == "member" and expression[1] == ("name", "error"):
            return "error"
        if kind == "member" and expression[1][0] == "called":
            return "bool"
        found = self.like(expression)
        if isinstance(found, (Header, Stack, dict)):
            return "several"
        return {None: "bool", "error": "error"}.get(found.width, "bits")

    def error(self, expression):
        """The number of an error."""
        if expression[0] == "choice":
            return self.error(expression[2] if self.truth(expression[1]) else expression[3])
        if expression[1] == ("name", "error"):
            return ERRORS.index(expression[2])
        return self.place(expression).value

    def truth(self, expression):
        kind = expression[0]
        if kind == "truth":
            return expression[1]
        if kind == "before":
            return not self.truth(expression[2])
        if kind == "cast":
            return self.bits(expression[2])[0] == 1
        if kind == "choice":
            return self.truth(expression[2] if self.truth(expression[1]) else expression[3])
        if kind == "called":
            return self.place(expression[1][1]).valid
        if kind == "member" and expression[1][0] == "called":
            hit, _ = self.apply(expression[1][1][1][1])
            self.ran.add("expression: hit or miss of a table")
            return hit == (expression[2] == "hit")
        if kind != "operator":
            return bool(self.place(expression).value)
        _, operator, left, right = expression
        if operator == "&&":
            return self.truth(left) and self.truth(right)
        if operator == "||":
            return self.truth(left) or self.truth(right)
        a, b = self.compared(left, right)
        return {"==": a == b, "!=": a != b, "<": a < b, "<=": a <= b, ">": a > b, ">=": a >= b}[operator]

    def compared(self, left, right):
        sort = self.sort(left)
        self.ran.add("expression: comparison of " + sort)
        if sort == "error":
            return self.error(left), self.error(right)
        if sort == "bool":
            return self.truth(left), self.truth(right)
        width = self.width(left) or self.width(right)
        return self.bits(left, width)[0], self.bits(right, width)[0]

    def width(self, expression):
        """The width of a number by itself, or None where it has that of its place."""
        kind = expression[0]
        if kind in ("number", "lookahead"):
            return expression[1]
        if kind == "before":
            return self.width(expression[2])
        if kind == "cast":
            return expression[1][1]
        if kind == "choice":
            return self.width(expression[2]) or self.width(expression[3])
        if kind == "operator" and expression[1] == "++":
            return self.width(expression[2]) + self.width(expression[3])
        if kind == "operator" and expression[1] in ("<<", ">>"):
            return self.width(expression[2])
        if kind == "operator":
            return self.width(expression[2]) or self.width(expression[3])
        return self.like(expression).width

    def bits(self, expression, width=None):
        """The number that an expression is, with its width; a number without a width has that of its place."""
        kind = expression[0]
        if kind == "number":
            width = expression[1] or width
            return expression[2] % (1 << width), width
        if kind == "before":
            value, width = self.bits(expression[2], width)
            return (~value if expression[1] == "~" else -value) % (1 << width), width
        if kind == "cast":
            width = expression[1][1]
            if self.sort(expression[2]) == "bool":
                self.ran.add("expression: cast of a truth value")
                return int(self.truth(expression[2])), width
            return self.bits(expression[2])[0] % (1 << width), width
        if kind == "choice":
            width = self.width(expression) or width
            return self.bits(expression[2] if self.truth(expression[1]) else expression[3], width)
        if kind == "lookahead":
            width = expression[1]
            self.ran.add("parser: lookahead")
            if len(self.unparsed) < width:
                raise Stopped("PacketTooShort")
            return int(self.unparsed[:width], 2), width
        if kind == "operator":
            return self.operated(*expression[1:], self.width(expression) or width)
        if kind == "slice" and not self.is_place(expression):
            self.ran.add("expression: slice of what is no place")
            value, _ = self.bits(expression[1])
            count = expression[2] - expression[3] + 1
            return value >> expression[3] & (1 << count) - 1, count
        place = self.place(expression)
        return place.value, place.width

    def operated(self, operator, left, right, width):
        self.ran.add("operator: " + operator)
        a, width = self.bits(left, None if operator == "++" else width)
        if operator == "++":
            b, behind = self.bits(right)
            return a << behind | b, width + behind
        if operator in ("<<", ">>"):
            b, _ = self.bits(right)
            if b >= width:
                return 0, width
            return (a << b) % (1 << width) if operator == "<<" else a >> b, width
        b, _ = self.bits(right, width)
        most = (1 << width) - 1
        results = {
            "+": a + b & most, "-": a - b & most, "*": a * b & most, "|+|": min(a + b, most), "|-|": max(a - b, 0),
            "&": a & b, "|": a | b, "^": a ^ b,
        }
        return results[operator], width

    def list_bits(self, items):
        return "".join(format(value, "0%db" % width) for value, width in map(self.bits, items[1]))

    # Calls

    def run_call(self, expression):
        _, callee, arguments = expression
        if callee[0] == "name":
            if self.block and callee[1] in self.block["actions"]:
                self.act_given(callee[1], arguments)
            else:
                self.extern(callee[1], arguments)
            return
        of, method = callee[1:]
        if of == ("name", self.packet):
            self.extract(arguments[0]) if method == "extract" else self.emit(arguments[0])
        elif of[0] == "name" and of[1] not in self.names:
            if method == "apply":
                self.apply(of[1])
            else:
                self.call_object(self.object(of[1]), method, arguments)
        else:
            self.call_header(self.place(of), method, arguments)

    def object(self, name):
        return self.block["objects"].get(name) or self.top.get(name)

    def call_header(self, of, method, arguments):
        self.ran.add("header or stack: " + method)
        if method in ("push_front", "pop_front"):
            of.move(arguments[0][2], method == "push_front")
        elif method == "setInvalid":
            of.clear()
        elif method == "setValid" and not of.valid:
            of.clear()
            of.valid = True

    def act(self, name, values):
        """Runs an action with the values of its parameters, and gives these as they are left."""
        action = self.block["actions"][name]
        own = {}
        for (direction, kind, parameter), value in zip(action["parameters"], values):
            own[parameter] = self.new(kind)
            if value is not None:
                self.put(own[parameter], value)
            self.ran.add("parameter: %s %s" % (direction or "plain", self.sort_of_kind(kind)))
            if parameter in self.base:
                self.ran.add("scope: name that hides another")
        outer, caller = self.names, self.caller
        self.names, self.caller = {**self.base, **own}, outer
        self.run(action["body"])
        self.names, self.caller = outer, caller
        return [own[parameter] for _, _, parameter in action["parameters"]]

    def act_given(self, name, arguments):
        self.ran.add("action: called")
        parameters = self.block["actions"][name]["parameters"]
        places, values = [], []
        for (direction, kind, _), argument in zip(parameters, arguments):
            if direction in ("out", "inout"):
                places.append(self.place(argument))
                values.append(copy_of(places[-1]) if direction == "inout" else None)
            else:
                places.append(None)
                values.append(self.value_for(argument, kind))
        for place, left in zip(places, self.act(name, values)):
            if place is not None:
                self.put(place, copy_of(left))

    def apply(self, name):
        """Applies a table: whether an entry was hit, and which action ran."""
        table = self.block["tables"][name]
        self.ran.add("table: in " + self.part)
        if name in self.applied:
            self.ran.add("table: again in the same block")
        self.applied.add(name)
        names, caller = self.names, self.caller
        self.names, self.caller = self.base, names
        sorts = [self.sort(key) for key, _ in table["keys"]]
        keys = [(int(self.truth(key)), 1) if sort == "bool" else self.bits(key) for sort, (key, _) in zip(sorts, table["keys"])]
        self.names, self.caller = names, caller
        fitting = [entry for entry in table["entries"] if all(matches(*key, asked) for key, asked in zip(keys, entry["keys"]))]
        outer = self.hit
        if fitting:
            best = min(fitting, key=lambda entry: self.rank(entry))
            self.hit = (table, best)
            action, arguments = best["action"], best["arguments"]
            self.ran.update("table: hit by a key that is " + key[0] for key in best["keys"])
            if "bool" in sorts:
                self.ran.add("table: hit by a key that is bool")
            if len(fitting) > 1:
                self.ran.add("table: several entries fit")
        else:
            self.hit = None
            action, arguments = self.default_of(table)
        if action:
            self.act(action, arguments)
        self.hit = outer
        return bool(fitting), action

    def rank(self, entry):
        if is_ranked(entry["keys"]):
            return entry["priority"]
        return -sum(key[2] for key in entry["keys"] if key[0] == "lpm")

    def default_of(self, table):
        if table["put default"]:
            self.ran.add("table: default of the entries")
            return table["put default"]
        if not table["default"] or table["default"][0] == "NoAction":
            self.ran.add("table: miss without an action")
            return None, []
        self.ran.add("table: default of the program")
        name, arguments = table["default"]
        parameters = self.block["actions"][name]["parameters"]
        return name, [self.value_for(argument, kind) for argument, (_, kind, _) in zip(arguments, parameters)]

    def count(self, counter, cell):
        if counter["counts"] in ("packets", "packets_and_bytes"):
            cell[0] = (cell[0] + 1) % 2**64
        if counter["counts"] in ("bytes", "packets_and_bytes"):
            cell[1] = (cell[1] + self.standard["packet_length"].value) % 2**64

    def call_object(self, made, method, arguments):
        kind, cells = made["kind"], made["cells"]
        made["blocks"].add(self.part)
        self.ran.add("object: %s, %s" % (kind, method))
        if len(made["blocks"]) > 1:
            self.ran.add("object: used in two blocks")
        if kind == "direct_counter":
            if self.hit and self.object(self.hit[0]["counter"]) is made:
                self.ran.add("object: count of an entry")
                self.count(made, self.hit[1]["cell"])
        elif kind == "counter":
            index, _ = self.bits(arguments[0], 32)
            if index < len(cells):
                self.count(made, cells[index])
        elif kind == "meter":
            index, _ = self.bits(arguments[0], 32)
            place = self.place(arguments[1])
            self.put(place, self.colour(made) if index < len(cells) else 0)
        elif method == "write":
            index, _ = self.bits(arguments[0], 32)
            value, _ = self.bits(arguments[1])
            if index < len(cells):
                cells[index] = value % (1 << made["width"])
        elif method == "read":
            place = self.place(arguments[0])
            index, _ = self.bits(arguments[1], 32)
            self.put(place, cells[index] if index < len(cells) else 0)

    def colour(self, meter):
        turn = meter["executed"]
        meter["executed"] = turn + 1
        return (self.colours.get(meter["plane"], []) + [0] * (turn + 1))[turn]

    def extern(self, name, arguments):
        self.ran.add("call: " + name)
        if name == "mark_to_drop":
            self.place(arguments[0])["egress_spec"].value = DROP
        elif name == "hash":
            target, sum_of, base, items, most = arguments
            place = self.place(target)
            start, _ = self.bits(base)
            result = SUMS[sum_of[2]](self.list_bits(items))
            count, _ = self.bits(most)
            self.put(place, start + (result % count if count else 0))
        elif "checksum" in name:
            self.checksum(name, *arguments)
        elif name == "clone_preserving_field_list":
            kind, session, number = arguments
            self.requests[kind[2]] = (self.bits(session, 32)[0], number[2])
        else:
            self.requests[name.split("_")[0]] = arguments[0][2]

    def checksum(self, name, condition, items, field, sum_of):
        holds = self.truth(condition)
        self.ran.add("sum: " + sum_of[2])
        result = SUMS[sum_of[2]](self.list_bits(items) + (self.unparsed if name.endswith("_with_payload") else ""))
        if name.startswith("update"):
            place = self.place(field)
            if holds:
                self.put(place, result)
            return
        value, width = self.bits(field)
        if holds and result % (1 << width) != value:
            self.ran.add("sum: not that of the packet")
            self.standard["checksum_error"].value = 1

    def extract(self, target):
        header = self.place(target)
        count = sum(header.widths.values())
        if len(self.unparsed) < count:
            raise Stopped("PacketTooShort")
        bits, self.unparsed = self.unparsed[:count], self.unparsed[count:]
        header.valid = True
        for name, width in header.widths.items():
            header.values[name], bits = int(bits[:width], 2), bits[width:]
        of_stack = target[0] == "member" and isinstance(self.like(target[1]), Stack)
        self.ran.add("extract: " + (target[2] if of_stack else target[0]))
        if of_stack and target[2] == "next":
            self.place(target[1]).place += 1

    def emit(self, what):
        found = self.place(what)
        self.ran.add("emit: " + ("stack" if isinstance(found, Stack) else "header"))
        for header in found.elements if isinstance(found, Stack) else [found]:
            if header.valid:
                self.emitted += header.bits()

    # Passes

    def serve(self, octets, port):
        """What comes of a packet that comes in: the packets that are sent, each with its port, and how many items the bound cuts."""
        queue = [{"kind": 0, "octets": octets, "port": port, "kept": {}}]
        sent = []
        passes = 0
        while queue and passes < self.bound:
            passes += 1
            self.one_pass(queue.pop(0), queue, sent)
        if queue:
            self.ran.add("pass: cut by the bound")
        return sent, len(queue)

    def one_pass(self, item, queue, sent):
        kind, octets, port = item["kind"], item["octets"], item["port"]
        self.ran.add("pass: of instance type %d" % kind)
        if kind == 2:
            self.begin(kind, item["length"], port, item["kept"])
            self.packet_headers, self.unparsed = item["headers"], item["unparsed"]
            self.leave(item, item["to"], queue, sent)
            return
        self.begin(kind, len(octets), port, item["kept"])
        parsed = self.parse(octets)
        if kind == 1:
            self.leave(item, item["to"], queue, sent)
            return
        if parsed:
            self.control(0)
        requests = self.control(1)
        session, number = requests.get("I2E", (None, None))
        if session in self.sessions:
            queue.append({"kind": 1, "octets": octets, "port": port, "kept": self.preserved(number), "to": self.sessions[session]})
        if "resubmit" in requests:
            queue.append({"kind": 6, "octets": octets, "port": port, "kept": self.preserved(requests["resubmit"])})
        elif self.standard["egress_spec"].value != DROP:
            self.leave(item, self.standard["egress_spec"].value, queue, sent)

    def leave(self, item, port, queue, sent):
        """Egress, and what follows it."""
        self.standard["egress_spec"].value = 0
        self.standard["egress_port"].value = port
        self.standard["instance_type"].value = item["kind"]
        requests = self.control(2)
        session, number = requests.get("E2E", (None, None))
        if session in self.sessions:
            queue.append(self.clone(item, self.sessions[session], number))
        if self.standard["egress_spec"].value == DROP:
            self.ran.add("pass: dropped in egress")
            return
        again = self.preserved(requests["recirculate"]) if "recirculate" in requests else None
        self.control(3)
        self.emitted = ""
        self.control(4)
        octets = octets_of(self.emitted + self.unparsed)
        if again is None:
            sent.append((port, octets))
        else:
            queue.append({"kind": 4, "octets": octets, "port": item["port"], "kept": again})

    def clone(self, item, port, number):
        """A clone made behind egress, which carries the headers as they are."""
        return {
            "kind": 2, "octets": b"", "port": item["port"], "kept": self.preserved(number), "to": port, "unparsed": self.unparsed,
            "headers": copy_of(self.packet_headers),
            "length": self.standard["packet_length"].value,
        }

    def report(self, packets, ports):
        """The packets that are sent, the report of the run and the line that it prints, where each packet comes in on its port."""
        sent, cut = [], 0
        for octets, port in zip(packets, ports):
            some, more = self.serve(octets, port)
            sent += some
            cut += more
        lines = ["sent %d %d" % (port, len(octets)) for port, octets in sent]
        lines += ["in %d" % len(packets), "out %d" % len(sent), "cut %d" % cut]
        for made in sorted(self.program["objects"], key=lambda made: made["plane"].encode()):
            lines += self.cells_of(made)
        return sent, "".join(line + "\n" for line in lines + ["work %d" % self.work]), "ran %d %d %d\n" % (len(packets), len(sent), cut)

    def cells_of(self, made):
        """The lines of the cells that aren't 0."""
        if made["kind"] == "meter":
            return []
        words = {"counter": "counter", "direct_counter": "direct", "register": "register"}
        if made["kind"] == "direct_counter":
            cells = self.entry_cells(made)
        else:
            cells = [cell if isinstance(cell, list) else [cell] for cell in made["cells"]]
        head = "%s %s" % (words[made["kind"]], made["plane"])
        return ["%s %d %s" % (head, place, " ".join(map(str, cell))) for place, cell in enumerate(cells) if any(cell)]

    def entry_cells(self, made):
        """The cells of the entries that a direct counter counts."""
        tables = [table for table, control in self.tables.values() if control["objects"].get(table["counter"]) is made]
        return [entry["cell"] for table in tables for entry in table["entries"]]
