"""Reads the tree that code words spell, by the tables of docs/FORMATS.md. The trees are those of grammar.py."""
import grammar
import opcodes
from opcodes import (
    ANY, ANY_ALL, ASSERT, ASSERT_NOT, AT, ATOMIC_GROUP, BIGCHARSET, BRANCH, CATEGORY, CHARSET, FAILURE, GROUPREF,
    GROUPREF_EXISTS, IN, INFO, JUMP, LITERAL, MARK, MAX_UNTIL, MIN_REPEAT_ONE, MIN_UNTIL, NEGATE, NOT_LITERAL,
    POSSESSIVE_REPEAT, POSSESSIVE_REPEAT_ONE, RANGE, REPEAT, REPEAT_ONE, SUCCESS,
)

SIMPLE_NODES = {FAILURE: "fail", ANY: "any", ANY_ALL: "any_all"}
WIDE_KINDS = {REPEAT_ONE: "greedy", MIN_REPEAT_ONE: "lazy", POSSESSIVE_REPEAT_ONE: "possessive"}


class NoTree(Exception):
    """Words that spell no tree: at which word, and why."""

    def __init__(self, place, why):
        super().__init__(f"at word {place}: {why}")
        self.place, self.why = place, why


def read(words, groups):
    """The body that the words spell for so many groups; else NoTree."""
    if groups > opcodes.MAXGROUPS:
        raise NoTree(0, f"there are more than {opcodes.MAXGROUPS} groups")
    reader = Reader(words, groups)
    if words[:1] == [INFO]:
        reader.pass_over()
    body = reader.body(0)
    reader.expect(SUCCESS, f"the last word is {SUCCESS}")
    if reader.place != len(words):
        raise NoTree(reader.place, "words follow the end")
    return body


class Reader:
    """Reads nodes one after another. It follows skips only where no word ends a part."""

    def __init__(self, words, groups):
        self.words, self.groups, self.place = words, groups, 0

    def fail(self, why):
        raise NoTree(self.place, why)

    def next(self):
        if self.place == len(self.words):
            self.fail("the words end too soon")
        word = self.words[self.place]
        self.place += 1
        return word

    def expect(self, word, why):
        if self.next() != word:
            self.place -= 1
            self.fail(why)

    def pass_over(self):
        if len(self.words) < 2 or not 1 <= self.words[1] < len(self.words):
            self.fail("the block of information is empty, or longer than the words")
        self.place = 1 + self.words[1]

    def body(self, depth, end=None):
        """Nodes up to a word that begins none, or up to the place `end`."""
        if depth > opcodes.MAXDEPTH:
            self.fail(f"more than {opcodes.MAXDEPTH} bodies are inside one another")
        nodes = []
        while self.place < len(self.words) and self.place != end and self.begins():
            if end is not None and self.place > end:
                self.fail("a part ends in the middle of a node")
            nodes.append(self.node(depth))
        if end is not None and self.place != end:
            self.fail("a part does not end where its skip says")
        return nodes

    def begins(self):
        word = self.words[self.place]
        if word == MARK:
            return self.place + 1 < len(self.words) and self.words[self.place + 1] % 2 == 0
        return word not in (SUCCESS, JUMP, MAX_UNTIL, MIN_UNTIL)

    def node(self, depth):
        word = self.next()
        if word in SIMPLE_NODES:
            return (SIMPLE_NODES[word],)
        if word in (LITERAL, NOT_LITERAL):
            return ("lit" if word == LITERAL else "not_lit", self.next())
        if word == AT:
            return ("at", self.one_of(grammar.PLACES, "there is no anchor of this number"))
        if word == GROUPREF:
            return ("ref", self.group())
        readers = {IN: self.set, MARK: self.marked, GROUPREF_EXISTS: self.exists, BRANCH: self.branch,
                   ATOMIC_GROUP: self.atomic, ASSERT: self.look, ASSERT_NOT: self.look, REPEAT: self.repeat,
                   POSSESSIVE_REPEAT: self.possessive, **dict.fromkeys(WIDE_KINDS, self.wide)}
        if word not in readers:
            self.place -= 1
            self.fail(f"no node begins with {described(word)}")
        return readers[word](depth)

    def one_of(self, numbers, why):
        word = self.next()
        if word not in numbers:
            self.place -= 1
            self.fail(why)
        return word

    def group(self):
        g = self.next() + 1
        if g > self.groups:
            self.place -= 1
            self.fail(f"group {g} is past the {self.groups} of the code")
        return g

    def check(self, held, why):
        if not held:
            self.fail(why)

    def skip_from(self, place):
        """What a skip at a place has to be, now that what it skips was read."""
        self.check(self.words[place] == self.place - place, "a skip leads elsewhere")

    def set(self, _depth):
        at, items = self.place, []
        self.next()
        negated = self.place < len(self.words) and self.words[self.place] == NEGATE
        self.place += negated
        while self.next() != FAILURE:
            self.place -= 1
            items.append(self.item())
        self.skip_from(at)
        return ("set", negated, items)

    def item(self):
        word = self.next()
        if word == LITERAL:
            return ("lit", self.next())
        if word == RANGE:
            return ("span", self.next(), self.next())
        if word == CATEGORY:
            return ("category", self.one_of(grammar.CATEGORIES, "there is no category of this number"))
        if word == CHARSET:
            return ("bits", self.several(8))
        if word == BIGCHARSET:
            count = self.next()
            return ("blocks", self.several(64), self.several(8 * count))
        self.place -= 1
        self.fail(f"no item of a set begins with {described(word)}")

    def several(self, count):
        if len(self.words) - self.place < count:
            self.fail("the words end too soon")
        self.place += count
        return self.words[self.place - count:self.place]

    def marked(self, depth):
        mark = self.next()
        g = mark // 2 + 1
        self.check(mark % 2 == 0, "no group begins with an odd mark")
        self.check(g <= self.groups, f"group {g} is past the {self.groups} of the code")
        body = self.body(depth + 1)
        self.expect(MARK, "the group is not closed")
        self.expect(mark + 1, "another group is closed")
        return ("group", g, body)

    def exists(self, depth):
        g, at = self.group(), self.place
        end = at - 1 + self.next()
        self.check(self.place <= end <= len(self.words), "a skip leads past the words, or back")
        yes = self.first_of_two(end, depth)
        if yes is None:
            return ("exists", g, self.body(depth + 1, end), None)
        self.place = end - 1
        stop = self.place + self.next()
        return ("exists", g, yes, self.body(depth + 1, stop))

    def first_of_two(self, end, depth):
        """The first part where a second follows: before `end` are JUMP and its skip."""
        start = self.place
        if end - 2 < start or self.words[end - 2] != JUMP:
            return None
        try:
            return self.body(depth + 1, end - 2)
        except NoTree:
            self.place = start
            return None

    def branch(self, depth):
        jumps, bodies = [], []
        while True:
            at = self.place
            if self.next() == FAILURE:
                break
            bodies.append(self.body(depth + 1))
            self.expect(JUMP, f"an alternative ends with {JUMP}")
            jumps.append(self.place)
            self.next()
            self.skip_from(at)
        self.check(bodies, "a branch has an alternative")
        for place in jumps:
            self.skip_from(place)
        return ("branch", bodies)

    def counts(self):
        lo, hi = self.next(), self.next()
        self.check(lo <= hi, "the least count is past the greatest")
        return lo, hi

    def repeat(self, depth):
        at = self.place
        self.next()
        lo, hi = self.counts()
        body = self.body(depth + 1)
        self.skip_from(at)
        last = self.one_of((MAX_UNTIL, MIN_UNTIL), f"a repeat ends with {MAX_UNTIL} or {MIN_UNTIL}")
        return ("repeat", "greedy" if last == MAX_UNTIL else "lazy", False, lo, hi, body)

    def possessive(self, depth):
        at = self.place
        self.next()
        lo, hi = self.counts()
        body = self.body(depth + 1)
        self.skip_from(at)
        self.expect(SUCCESS, f"a possessive repeat ends with {SUCCESS}")
        return ("repeat", "possessive", False, lo, hi, body)

    def wide(self, depth):
        kind, at = WIDE_KINDS[self.words[self.place - 1]], self.place
        self.next()
        lo, hi = self.counts()
        body = self.body(depth + 1)
        one = len(body) == 1 and body[0][0] in grammar.ONE_WIDE
        self.check(one, "the body of such a repeat is one node that is one unit wide")
        self.expect(SUCCESS, f"the body of such a repeat ends with {SUCCESS}")
        self.skip_from(at)
        return ("repeat", kind, True, lo, hi, body)

    def atomic(self, depth):
        at = self.place
        self.next()
        body = self.body(depth + 1)
        self.expect(SUCCESS, f"an atomic group ends with {SUCCESS}")
        self.skip_from(at)
        return ("atomic", body)

    def look(self, depth):
        positive, at = self.words[self.place - 1] == ASSERT, self.place
        self.next()
        back = self.next()
        body = self.body(depth + 1)
        self.expect(SUCCESS, f"a lookahead or lookbehind ends with {SUCCESS}")
        self.skip_from(at)
        return ("look", positive, back, body)


def described(word):
    """A word with CPython's name for it."""
    if word in opcodes.IGNORING:
        return f"{word}, which ignores case or uses the locale"
    names = {number: name for name, number in opcodes.OPCODES.items()}
    return f"{word} ({names[word]})" if word in names else str(word)
