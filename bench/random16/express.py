# Makes places and expressions of P4_16 at random, as trees, among the names of a scope.
from spell import Speller

ERRORS = ("NoError", "PacketTooShort", "StackOutOfBounds", "NoMatch")
WIDTHS = (1, 1, 2, 3, 7, 8, 8, 8, 9, 16, 16, 32, 32, 33, 48, 63, 64, 65, 127, 128)


class Scope:
    """Where something stands: the block of `main`, and what each name there means, in scopes one within the other.

    A name means `("packet",)`, `("variable", kind, whether it can be written)`, `("object", kind, width)`, `("action", parameters, rank)` or
    `("table", actions)`. An action calls those of a lower rank alone. `counter` is the direct counter that may be counted.
    """

    def __init__(self, block, names, in_action=False, rank=None, counter=None):
        self.block, self.names, self.in_action, self.rank, self.counter = block, names, in_action, rank, counter

    def within(self, names, **others):
        return Scope(self.block, self.names + [names], **{"in_action": self.in_action, "rank": self.rank, "counter": self.counter, **others})

    def visible(self):
        found = {}
        for names in self.names:
            found.update(names)
        return found

    def of_sort(self, sort):
        return [(name, *meaning[1:]) for name, meaning in self.visible().items() if meaning[0] == sort]

    def means(self, name, *meaning):
        return self.visible().get(name) == meaning


class Expressions(Speller):
    """`headers` and `structs` are the fields of each type, as pairs of a name and a kind."""

    def __init__(self, random):
        super().__init__(random)
        self.headers, self.structs, self.parts_of = {}, {}, {}

    def width(self):
        return self.pick(WIDTHS) if self.chance(0.8) else self.upto(1, 128)

    def below(self, width):
        return self.pick([0, 1, (1 << width) - 1, 1 << width - 1, self.random.getrandbits(width), self.random.getrandbits(width)])

    def sized(self, width):
        return ("number", width, self.below(width))

    # Places

    def is_header(self, kind):
        return kind[0] == "named" and kind[1] in self.headers

    def parts(self, kind):
        """All that is part of a value of this kind, itself first: the steps to it, and its kind."""
        if kind not in self.parts_of:
            found = [((), kind)]
            if kind[0] == "stack":
                steps = [(("element", number), ("named", kind[1])) for number in range(kind[2])]
            elif kind[0] == "named":
                steps = [(("member", name), of) for name, of in {**self.headers, **self.structs}[kind[1]]]
            else:
                steps = []
            for step, of in steps:
                found += [((step,) + behind, inner) for behind, inner in self.parts(of)]
            self.parts_of[kind] = found
        return self.parts_of[kind]

    def place(self, scope, fits, written=False):
        """A place of a kind that fits, with its kind, or None."""
        roots = {}
        for name, kind, writable in scope.of_sort("variable"):
            found = [part for part in self.parts(kind) if fits(part[1])] if writable or not written else []
            if found:
                roots[name] = found
        if not roots:
            return None
        name = self.pick(list(roots))
        steps, kind = self.pick(roots[name])
        return self.steps_to(("name", name), steps, scope.block == "P" and self.chance(0.3)), kind

    def steps_to(self, whole, steps, moving=False):
        """The part of a value to which the steps go, with `next` and `last` for the elements of stacks where `moving` holds."""
        made = whole
        for step, of in steps:
            made = ("member", made, self.pick(("next", "last"))) if step == "element" and moving else (step, made, of)
        return made

    def bits_place(self, scope, width=None, written=False):
        return self.place(scope, lambda kind: kind[0] == "bit" and width in (None, kind[1]), written)

    def target(self, scope):
        """A place of bits that can be written, or a slice of one, with its width, or None."""
        found = self.bits_place(scope, written=True)
        if not found:
            return None
        made, (_, width) = found
        while width > 1 and self.chance(0.2):
            high = self.upto(0, width - 1)
            low = self.upto(0, high)
            made, width = ("slice", made, high, low), high - low + 1
        return made, width

    def whole(self, scope, fits, depth):
        """A header, stack or struct, or a choice of two, with its kind, or None."""
        found = self.place(scope, fits)
        if found and depth > 0 and self.chance(0.25):
            other, _ = self.place(scope, lambda kind: kind == found[1])
            return ("choice", self.truth(scope, depth - 1), found[0], other), found[1]
        return found

    # Expressions. Where `free` holds, the place gives the width to a number without one.

    def expression(self, scope, kind, depth):
        if kind[0] == "bit":
            return self.bits(scope, kind[1], depth, True)
        if kind[0] == "bool":
            return self.truth(scope, depth)
        if kind[0] == "error":
            return self.error(scope, depth)
        found = self.whole(scope, lambda other: other == kind, depth)
        return found[0] if found else None

    def bits(self, scope, width, depth, free=False):
        if depth <= 0 or self.chance(0.12):
            return self.leaf(scope, width, free)
        makers = [self.sum] * 5 + [self.shift, self.cast] * 2 + [self.sign, self.joined, self.sliced, self.chosen, self.ahead, self.leaf]
        maker = self.pick(makers)
        return maker(scope, width, free) if maker == self.leaf else maker(scope, width, depth - 1, free)

    def sum(self, scope, width, depth, free):
        """At least one operand has a width of its own, but where the place gives one."""
        side = self.upto(0, 4)
        left, right = self.bits(scope, width, depth, side == 1 or free and side == 0), self.bits(scope, width, depth, side == 2 or free and side == 0)
        if not free and self.is_free(left) and self.is_free(right):
            right = self.sized(width)
        return ("operator", self.pick(("+", "-", "*", "|+|", "|-|", "&", "|", "^")), left, right)

    def shift(self, scope, width, depth, free):
        count = self.sized(8) if self.chance(0.2) else ("number", 8, self.pick((0, 1, width - 1, width, width + 1)) % 256)
        if self.chance(0.4):
            count = self.bits(scope, self.pick((1, 3, 8, 32, 128)), depth - 1)
        return ("operator", self.pick(("<<", ">>")), self.bits(scope, width, depth, free), count)

    def cast(self, scope, width, depth, _):
        if width == 1 and self.chance(0.6):
            return ("cast", ("bit", 1), self.truth(scope, depth))
        return ("cast", ("bit", width), self.bits(scope, self.width(), depth))

    def sign(self, scope, width, depth, free):
        return ("before", self.pick("~-"), self.bits(scope, width, depth, free))

    def joined(self, scope, width, depth, free):
        if width == 1:
            return self.leaf(scope, width, free)
        left = self.upto(1, width - 1)
        return ("operator", "++", self.bits(scope, left, depth), self.bits(scope, width - left, depth))

    def sliced(self, scope, width, depth, _):
        whole = min(128, width + self.pick((0, 0, 1, 5, 40)))
        low = self.upto(0, whole - width)
        return ("slice", self.bits(scope, whole, depth), low + width - 1, low)

    def chosen(self, scope, width, depth, free):
        left = self.bits(scope, width, depth, free)
        return ("choice", self.truth(scope, depth), left, self.bits(scope, width, depth, free or not self.is_free(left) and self.chance(0.3)))

    def ahead(self, scope, width, _, free):
        return ("lookahead", width) if scope.block == "P" and scope.means("p", "packet") else self.leaf(scope, width, free)

    def is_free(self, expression):
        """Whether a number takes its width from its place."""
        kind = expression[0]
        if kind == "number":
            return expression[1] is None
        if kind == "before":
            return self.is_free(expression[2])
        if kind == "operator" and expression[1] in ("<<", ">>"):
            return self.is_free(expression[2])
        return kind in ("operator", "choice") and expression[1] != "++" and self.is_free(expression[2]) and self.is_free(expression[3])

    def leaf(self, scope, width, free):
        if free and self.chance(0.5):
            return ("number", None, self.below(width))
        found = self.bits_place(scope, width) if self.chance(0.5) else None
        found = found or (self.bits_place(scope) if self.chance(0.7) else None)
        if not found:
            return self.sized(width)
        made, (_, wide) = found
        if wide > width and self.chance(0.7):
            low = self.upto(0, wide - width)
            return ("slice", made, low + width - 1, low)
        return made if wide == width else ("cast", ("bit", width), made)

    def truth(self, scope, depth):
        makers = [self.valid, self.plain_truth]
        if depth > 0:
            makers = [self.comparison] * 6 + [self.both] * 5 + [self.hit] * 3 + [self.valid] * 2
            makers += [self.denied, self.plain_truth, self.truth_of_bit, self.chosen_truth]
        return self.pick(makers)(scope, depth - 1)

    def comparison(self, scope, depth):
        operator, sort = self.pick(("==", "!=")), self.pick(("bits",) * 5 + ("bool", "error"))
        if sort == "bool":
            return ("operator", operator, self.truth(scope, depth), self.truth(scope, depth))
        if sort == "error":
            return ("operator", operator, self.error(scope, depth), self.error(scope, depth))
        width, side = self.width(), self.upto(0, 4)
        left, right = self.bits(scope, width, depth, side == 1), self.bits(scope, width, depth, side == 2)
        if self.is_free(left) and self.is_free(right):
            right = self.sized(width)
        return ("operator", self.pick(("<", "<=", ">", ">=", "==", "!=", "==")), left, right)

    def both(self, scope, depth):
        return ("operator", self.pick(("&&", "||")), self.truth(scope, depth), self.truth(scope, depth))

    def denied(self, scope, depth):
        return ("before", "!", self.truth(scope, depth))

    def truth_of_bit(self, scope, depth):
        return ("cast", ("bool",), self.bits(scope, 1, depth))

    def chosen_truth(self, scope, depth):
        return ("choice", self.truth(scope, depth), self.truth(scope, depth), self.truth(scope, depth))

    def valid(self, scope, depth):
        found = self.whole(scope, self.is_header, depth)
        return ("called", ("member", found[0], "isValid"), []) if found else self.plain_truth(scope, depth)

    def hit(self, scope, depth):
        tables = [] if scope.in_action else scope.of_sort("table")
        if not tables:
            return self.plain_truth(scope, depth)
        return ("member", ("called", ("member", ("name", self.pick(tables)[0]), "apply"), []), self.pick(("hit", "miss")))

    def plain_truth(self, scope, _):
        found = self.place(scope, lambda kind: kind[0] == "bool") if self.chance(0.7) else None
        return found[0] if found else ("truth", self.chance(0.5))

    def error(self, scope, depth):
        if depth > 0 and self.chance(0.2):
            return ("choice", self.truth(scope, depth - 1), self.error(scope, 0), self.error(scope, 0))
        found = self.place(scope, lambda kind: kind[0] == "error") if self.chance(0.6) else None
        return found[0] if found else ("member", ("name", "error"), self.pick(ERRORS))
