"""Trees of every kind of node, with subjects and lists, made by chance from a seed."""
import grammar
from opcodes import MAXREPEAT

LETTERS = "aaaaabbbbcx1 \n_é\U0001F600"
FEW = "aab"  # of which more matches, and longer
DEPTH = 3


class Maker:
    """Makes one tree. Where it is `tame`, groups have different numbers in the order in which they begin,
    and no back reference to a group and no conditional on it is inside the group."""

    def __init__(self, chance, tame, letters):
        self.chance, self.tame, self.letters = chance, tame, letters
        self.groups, self.open = 0, []

    def body(self, depth=0, least=0):
        most = 3 if depth == 0 else 2
        return [self.node(depth) for _ in range(self.chance.randint(least, most))]

    def node(self, depth):
        leaves = {"lit": 8, "not_lit": 2, "any": 2, "any_all": 1, "set": 3, "at": 2, "ref": 2, "fail": 0.2,
                  "wide_repeat": 4}
        deeper = {"group": 5, "branch": 3, "repeat": 4, "exists": 1, "atomic": 1, "look": 1.5}
        kinds = leaves if depth >= DEPTH else {**leaves, **deeper}
        kind = self.chance.choices(list(kinds), kinds.values())[0]
        return getattr(self, kind)(depth)

    def letter(self):
        return ord(self.chance.choice(self.letters))

    def fail(self, _depth):
        return ("fail",)

    def any(self, _depth):
        return ("any",)

    def any_all(self, _depth):
        return ("any_all",)

    def lit(self, _depth):
        return ("lit", self.letter())

    def not_lit(self, _depth):
        return ("not_lit", self.letter())

    def at(self, _depth):
        return ("at", self.chance.choice(grammar.PLACES))

    def set(self, _depth):
        return ("set", self.chance.random() < 0.3, [self.item() for _ in range(self.chance.randint(0, 3))])

    def item(self):
        kind = self.chance.choice(["lit", "lit", "span", "category", "bits", "blocks"])
        if kind == "lit":
            return ("lit", self.letter())
        if kind == "span":
            return ("span", self.letter(), self.letter())
        if kind == "category":
            return ("category", self.chance.choice(grammar.CATEGORIES))
        if kind == "bits":
            return ("bits", self.bits())
        # The map names blocks that are there: CPython takes no other ones.
        count = self.chance.randint(1, 3)
        table = [sum(self.chance.randrange(count) << 8 * i for i in range(4)) for _ in range(64)]
        return ("blocks", table, [word for _ in range(count) for word in self.bits()])

    def bits(self):
        return [self.chance.getrandbits(32) for _ in range(8)]

    def known(self):
        """The number of a group that may be copied or tested, or None."""
        numbers = [g for g in range(1, self.groups + 1) if not self.tame or g not in self.open]
        return self.chance.choice(numbers) if numbers else None

    def ref(self, depth):
        g = self.known()
        return self.lit(depth) if g is None else ("ref", g)

    def exists(self, depth):
        g = self.known()
        if g is None:
            return self.lit(depth)
        yes = self.body(depth + 1)
        return ("exists", g, yes, self.body(depth + 1) if self.chance.random() < 0.5 else None)

    def group(self, depth):
        self.groups += 1
        g = self.groups
        if not self.tame and self.chance.random() < 0.2:
            g = self.chance.randint(1, self.groups)
        self.open.append(g)
        body = self.body(depth + 1)
        self.open.pop()
        return ("group", g, body)

    def branch(self, depth):
        return ("branch", [self.body(depth + 1) for _ in range(self.chance.randint(1, 3))])

    def counts(self):
        lo = self.chance.choice([0, 0, 0, 1, 1, 2])
        return lo, self.chance.choice([MAXREPEAT, MAXREPEAT, lo, lo + 1, lo + 2])

    def repeat(self, depth):
        kind = self.chance.choice(["greedy", "greedy", "lazy", "possessive"])
        return ("repeat", kind, False, *self.counts(), self.body(depth + 1))

    def wide_repeat(self, depth):
        kind = self.chance.choice(["greedy", "greedy", "lazy", "possessive"])
        one = getattr(self, self.chance.choice(grammar.ONE_WIDE))(depth)
        return ("repeat", kind, True, *self.counts(), [one])

    def atomic(self, depth):
        return ("atomic", self.body(depth + 1))

    def look(self, depth):
        back = self.chance.choice([0, 0, 1, 1, 2])
        return ("look", self.chance.random() < 0.6, back, self.body(depth + 1))


def case(chance, tame):
    """A tree with its number of groups, a list that shows every group, a subject and a limit."""
    letters = chance.choice([LETTERS, LETTERS, FEW])
    maker = Maker(chance, tame, letters)
    body = maker.body(least=1)
    groups = maker.groups
    items = ["<"]
    for g in range(groups + 1):
        items += [g, "|" if g < groups else ">"]
    length = chance.choice([0, 1, 2, 3, 4, 5, 6, 8] if letters is LETTERS else [6, 8, 10, 12, 14])
    subject = "".join(chance.choice(letters) for _ in range(length))
    return body, groups, items, subject, chance.choice([0, 0, 0, 1, 2])
