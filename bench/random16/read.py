# Reads the P4_16 texts of this project's profile (docs/LANGUAGE16.md, "The grammar of a whole text") into trees of tuples, by recursive descent.
# It takes texts that break no rule, and is no judge of others. The first item of a tuple says what it is.
import re

TOKEN = re.compile(
    r"\s+|//[^\n]*|/\*.*?\*/|#include[^\n]*"
    r"|(?P<note>@\w+)|(?P<number>(\d+w)?(0[xX][0-9a-fA-F_]+|0[bB][01_]+|\d[\d_]*))|(?P<name>[A-Za-z_]\w*)|(?P<text>\"[^\"]*\")"
    r"|(?P<mark>&&&|\.\.|\|\+\||\|-\||\+\+|<<|<=|>=|==|!=|&&|\|\||[{}()\[\];:,.=<>!?+\-*&|^~])",
    re.S,
)

# Operators between operands, the loosest first.
LEVELS = [
    ["||"], ["&&"], ["==", "!="], ["<", "<=", ">", ">="], ["|"], ["^"], ["&"], ["<<", ">>"], ["+", "-", "|+|", "|-|", "++"], ["*"],
]
COMPARISONS = 3
SHIFTS = 7


def tokens_of(text):
    """The tokens, each with its kind, its text and the place at which it begins."""
    tokens, place = [], 0
    while place < len(text):
        found = TOKEN.match(text, place)
        if not found:
            raise SyntaxError(text[place:place + 20])
        if found.lastgroup:
            tokens.append((found.lastgroup, found[found.lastgroup], place))
        place = found.end()
    return tokens


def number_of(text):
    """The width of a number, or None, and its value."""
    width, _, digits = text.rpartition("w")
    digits = digits.replace("_", "")
    return (int(width) if width else None), int(digits, 0 if digits[:2].lower() in ("0x", "0b") else 10)


class Reader:
    def __init__(self, text):
        self.tokens = tokens_of(text)
        self.at = 0

    def sees(self, further=0):
        return self.tokens[self.at + further][1] if self.at + further < len(self.tokens) else None

    def kind(self, further=0):
        return self.tokens[self.at + further][0] if self.at + further < len(self.tokens) else None

    def touches(self):
        """Whether the token and the next one are two `>` that touch."""
        return self.sees() == ">" and self.sees(1) == ">" and self.tokens[self.at + 1][2] == self.tokens[self.at][2] + 1

    def take(self):
        self.at += 1
        return self.tokens[self.at - 1][1]

    def want(self, *words):
        for word in words:
            if self.take() != word:
                raise SyntaxError("%s is wanted behind %s" % (word, [token[1] for token in self.tokens[self.at - 9:self.at]]))

    def takes(self, word):
        if self.sees() != word:
            return False
        self.at += 1
        return True

    def many(self, end, one, between=None):
        """What stands up to a token, which is taken."""
        found = []
        while not self.takes(end):
            found.append(one())
            if between:
                self.takes(between)
        return found

    def number(self):
        return number_of(self.take())[1]

    # Declarations

    def program(self):
        program = {"headers": {}, "structs": {}, "parsers": {}, "controls": {}, "objects": []}
        while self.sees() != "V1Switch":
            notes = self.notes()
            word = self.sees()
            if word in ("header", "struct"):
                self.take()
                name = self.take()
                self.want("{")
                fields = self.many("}", self.field)
                if word == "header":
                    program["headers"][name] = [(field, kind[1]) for field, kind, _ in fields]
                else:
                    program["structs"][name] = fields
            elif word == "parser":
                self.take()
                name = self.take()
                program["parsers"][name] = self.parser()
            elif word == "control":
                self.take()
                name = self.take()
                program["controls"][name] = self.control(program["objects"])
            else:
                program["objects"].append(self.instance(notes))
                self.want(";")
        self.want("V1Switch", "(")
        program["blocks"] = self.many(")", self.block_of_main, ",")
        return program

    def block_of_main(self):
        name = self.take()
        self.want("(", ")")
        return name

    def notes(self):
        """The annotations in front of something: its control-plane name and the numbers of its field lists."""
        notes = {"name": None, "lists": []}
        while self.kind() == "note":
            note = self.take()
            self.want("(")
            if note == "@name":
                notes["name"] = self.take()[1:-1]
                self.want(")")
            else:
                notes["lists"] = self.many(")", self.number, ",")
        return notes

    def kind_of_type(self):
        if self.takes("bit"):
            self.want("<")
            width = self.number()
            self.want(">")
            return ("bit", width)
        if self.takes("bool"):
            return ("bool",)
        name = self.take()
        if self.takes("["):
            size = self.number()
            self.want("]")
            return ("stack", name, size)
        return ("named", name)

    def field(self):
        notes = self.notes()
        kind = self.kind_of_type()
        name = self.take()
        self.want(";")
        return name, kind, notes["lists"]

    def parameters(self):
        self.want("(")
        return self.many(")", self.parameter, ",")

    def parameter(self):
        direction = self.take() if self.sees() in ("in", "out", "inout") else ""
        kind = self.kind_of_type()
        return direction, kind, self.take()

    def parser(self):
        parameters = self.parameters()
        self.want("{")
        variables, states = [], {}
        while self.sees() != "state":
            variables.append(self.variable())
        while not self.takes("}"):
            self.want("state")
            name = self.take()
            self.want("{")
            statements = []
            while self.sees() != "transition":
                statements.append(self.statement())
            states[name] = (statements, self.transition())
            self.want("}")
        return parameters, variables, states

    def transition(self):
        self.want("transition")
        if not self.takes("select"):
            state = self.take()
            self.want(";")
            return ("go", state)
        self.want("(")
        keys = self.many(")", self.expression, ",")
        self.want("{")
        return ("select", keys, self.many("}", self.case))

    def case(self):
        keyset = self.many(")", self.simple, ",") if self.takes("(") else [self.simple()]
        self.want(":")
        state = self.take()
        self.want(";")
        return keyset, state

    def simple(self):
        if self.sees() in ("default", "_"):
            self.take()
            return ("any",)
        value = self.expression()
        if self.takes("&&&"):
            return ("mask", value, self.expression())
        if self.takes(".."):
            return ("range", value, self.expression())
        return ("equal", value)

    def control(self, objects):
        control = {"parameters": self.parameters(), "variables": [], "actions": {}, "tables": {}, "objects": {}}
        self.want("{")
        while self.sees() != "apply":
            notes = self.notes()
            word = self.sees()
            if word == "action":
                self.take()
                name = self.take()
                control["actions"][name] = {"plane": notes["name"] or name, "parameters": self.parameters(), "body": self.block()}
            elif word == "table":
                self.take()
                name = self.take()
                control["tables"][name] = self.table(notes["name"] or name)
            elif word in ("counter", "direct_counter", "register", "meter"):
                made = self.instance(notes)
                control["objects"][made["name"]] = made
                objects.append(made)
                self.want(";")
            else:
                control["variables"].append(self.variable())
        self.want("apply")
        control["apply"] = self.block()
        self.want("}")
        return control

    def instance(self, notes):
        made = {"kind": self.take(), "size": 0}
        if made["kind"] == "register":
            self.want("<", "bit", "<")
            made["width"] = self.number()
            self.want(">", ">")
        self.want("(")
        if made["kind"] != "direct_counter":
            made["size"] = self.number()
        if made["kind"] in ("counter", "meter"):
            self.want(",")
        if made["kind"] != "register":
            self.take()
            self.want(".")
            made["counts"] = self.take()
        self.want(")")
        made["name"] = self.take()
        made["plane"] = notes["name"] or made["name"]
        return made

    def table(self, plane):
        table = {"plane": plane, "keys": [], "actions": [], "default": None, "counter": None}
        self.want("{")
        while not self.takes("}"):
            word = self.take()
            self.want("=")
            if word == "key":
                self.want("{")
                table["keys"] = self.many("}", self.key)
            elif word == "actions":
                self.want("{")
                table["actions"] = self.many("}", self.take, ";")
            elif word == "default_action":
                name = self.take()
                self.want("(")
                table["default"] = (name, self.many(")", self.expression, ","))
                self.want(";")
            else:
                value = self.take()
                self.want(";")
                if word == "counters":
                    table["counter"] = value
        return table

    def key(self):
        value = self.expression()
        self.want(":")
        kind = self.take()
        self.notes()
        self.want(";")
        return value, kind

    # Statements

    def variable(self):
        kind = self.kind_of_type()
        name = self.take()
        value = self.expression() if self.takes("=") else None
        self.want(";")
        return ("variable", kind, name, value)

    def block(self):
        self.want("{")
        return ("block", self.many("}", self.statement))

    def declares(self):
        """Whether a statement begins with a type and a name."""
        if self.sees() in ("bit", "bool"):
            return True
        stack = self.sees(1) == "[" and self.sees(3) == "]" and self.kind(4) == "name"
        return self.kind() == "name" and (self.kind(1) == "name" or stack)

    def statement(self):
        word = self.sees()
        if word == "{":
            return self.block()
        if self.takes(";"):
            return ("empty",)
        if self.takes("if"):
            self.want("(")
            condition = self.expression()
            self.want(")")
            yes = self.statement()
            return ("if", condition, yes, self.statement() if self.takes("else") else ("empty",))
        if self.takes("switch"):
            self.want("(")
            table = self.take()
            self.want(".", "apply", "(", ")", ".", "action_run", ")", "{")
            return ("switch", table, self.many("}", self.labelled))
        if self.declares():
            return self.variable()
        target = self.expression()
        if self.takes("="):
            value = self.expression()
            self.want(";")
            return ("assign", target, value)
        self.want(";")
        return ("call", target)

    def labelled(self):
        label = self.take()
        self.want(":")
        return label, self.block()

    # Expressions

    def expression(self):
        condition = self.between(0)
        if not self.takes("?"):
            return condition
        yes = self.expression()
        self.want(":")
        return ("choice", condition, yes, self.expression())

    def operator(self, level):
        """The operator of this level that stands here, which is taken."""
        if self.touches():
            if level != SHIFTS:
                return None
            self.take()
            self.take()
            return ">>"
        return self.take() if self.kind() == "mark" and self.sees() in LEVELS[level] else None

    def between(self, level):
        if level == len(LEVELS):
            return self.before()
        left = self.between(level + 1)
        while operator := self.operator(level):
            left = ("operator", operator, left, self.between(level + 1))
        return left

    def before(self):
        if self.sees() in ("!", "~", "-"):
            return ("before", self.take(), self.before())
        if self.sees() == "(" and self.sees(1) in ("bit", "bool"):
            self.take()
            kind = self.kind_of_type()
            self.want(")")
            return ("cast", kind, self.before())
        return self.behind(self.operand())

    def operand(self):
        if self.takes("("):
            inner = self.expression()
            self.want(")")
            return inner
        if self.kind() == "number":
            return ("number", *number_of(self.take()))
        name = self.take()
        return ("truth", name == "true") if name in ("true", "false") else ("name", name)

    def behind(self, found):
        while True:
            if self.takes("."):
                member = self.take()
                if member == "lookahead" and self.takes("<"):
                    kind = self.kind_of_type()
                    self.want(">", "(", ")")
                    found = ("lookahead", kind[1])
                else:
                    found = ("member", found, member)
            elif self.takes("["):
                high = self.number()
                if self.takes(":"):
                    found = ("slice", found, high, self.number())
                else:
                    found = ("element", found, high)
                self.want("]")
            elif self.takes("("):
                found = ("called", found, self.many(")", self.argument, ","))
            else:
                return found

    def argument(self):
        return ("list", self.many("}", self.expression, ",")) if self.takes("{") else self.expression()


def program_of(text):
    """The program of a text."""
    return Reader(text).program()
