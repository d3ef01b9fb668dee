# Spells the expressions of P4_16 that generate.py makes, which are trees as read.py reads them: with no more parentheses than are needed, but for
# a few, and with numbers in all forms.
from read import LEVELS

LEVEL = {operator: level for level, operators in enumerate(LEVELS, 1) for operator in operators}
BEFORE = len(LEVELS) + 1
BEHIND = BEFORE + 1
BLANKS = [" ", "\n", "\t", "\r\n", "\f", "\v", " /* c */ ", " /***/ ", " // c\n"]


class Speller:
    """What is drawn at random, and how it is spelt. What it makes of the features (features.py) stands in `made`."""

    def __init__(self, random):
        self.random = random
        self.made = set()

    def pick(self, of):
        return self.random.choice(of)

    def upto(self, least, most):
        return self.random.randint(least, most)

    def chance(self, share):
        return self.random.random() < share

    def number(self, value, width=None):
        text = self.pick([str, str, hex, bin])(value)
        if self.chance(0.1):
            text = text[:-1] + "_" + text[-1] if text[0] != "0" and len(text) > 1 else text.replace("0x", "0X").replace("0b", "0B")
        if not text.isdigit():
            self.made.add("spelling: number that isn't decimal digits alone")
        if width is None:
            self.made.add("spelling: number without a width")
            return text
        return "%dw%s" % (width, text)

    def kind(self, kind):
        if kind[0] == "bit":
            return "bit<%d>" % kind[1]
        if kind[0] == "stack":
            return "%s[%d]" % kind[1:]
        return kind[0] if kind[0] == "bool" else kind[1]

    def level(self, expression):
        kind = expression[0]
        if kind == "choice":
            return 0
        if kind == "operator":
            return LEVEL[expression[1]]
        return BEFORE if kind in ("before", "cast") else BEHIND

    def spell(self, expression, least=0):
        """An expression where one of this level at least may stand without parentheses."""
        text = self.bare(expression)
        return "(%s)" % text if self.level(expression) < least or self.chance(0.04) else text

    def bare(self, expression):
        kind, *parts = expression
        if kind in ("name", "number", "truth", "lookahead"):
            return self.word(kind, *parts)
        if kind == "cast":
            return "(%s) %s" % (self.kind(parts[0]), self.spell(parts[1], BEFORE))
        if kind == "before":
            return parts[0] + self.spell(parts[1], BEFORE)
        if kind == "operator":
            return self.operator(*parts)
        if kind == "choice":
            return "%s ? %s : %s" % (self.spell(parts[0], 1), self.spell(parts[1]), self.spell(parts[2]))
        of = self.spell(parts[0], BEHIND)
        if kind == "member":
            return "%s.%s" % (of, parts[1])
        if kind == "called":
            return "%s(%s)" % (of, ", ".join(map(self.argument, parts[1])))
        return "%s[%s]" % (of, ":".join(map(str, parts[1:])))

    def word(self, kind, *parts):
        if kind == "number":
            return self.number(parts[1], parts[0])
        if kind == "lookahead":
            return "p.lookahead<bit<%d>>()" % parts[0]
        return str(parts[0]).lower() if kind == "truth" else parts[0]

    def operator(self, operator, left, right):
        level = LEVEL[operator]
        left_text, right_text = self.spell(left, level), self.spell(right, level + 1)
        for side, text in ((left, left_text), (right, right_text)):
            if side[0] == "operator" and text[0] != "(":
                self.made.add("spelling: operators side by side without parentheses")
        return "%s %s %s" % (left_text, operator, right_text)

    def argument(self, argument):
        return "{ %s }" % ", ".join(map(self.spell, argument[1])) if argument[0] == "list" else self.spell(argument)

    def called(self, callee, arguments):
        return self.spell(("called", callee, arguments), BEHIND) + ";"

    def blanks(self, text):
        """The text with other blanks and comments at some of its blanks."""
        self.made.add("spelling: blanks and comments of all sorts")
        return "".join(self.pick(BLANKS) if octet == " " and self.chance(0.1) else octet for octet in text)
