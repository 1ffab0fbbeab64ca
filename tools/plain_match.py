"""A plain reading of the matching rules, as docs/DEFINITIONS.md has them: which spans a tree has in a
subject. It is slow, and shares nothing with the program and nothing with CPython's engine.

`attempts` gives in order every way to pass a body, as the place where it ends and the captures on the way,
(group, start, end), the newest last. Trees are those of grammar.py.
"""
import itertools

import grammar
from opcodes import (
    AT_BEGINNING, AT_BEGINNING_LINE, AT_BEGINNING_STRING, AT_BOUNDARY, AT_END, AT_END_LINE, AT_END_STRING,
    AT_NON_BOUNDARY, AT_UNI_BOUNDARY, CATEGORY_DIGIT, CATEGORY_LINEBREAK, CATEGORY_SPACE, CATEGORY_UNI_DIGIT,
    CATEGORY_UNI_LINEBREAK, CATEGORY_UNI_SPACE, CATEGORY_UNI_WORD, CATEGORY_WORD, LINE_FEED, MAXREPEAT,
)


class TooLong(Exception):
    """A search that takes more turns than it was given."""


class Matcher:
    """A subject, and how many turns may still be taken."""

    def __init__(self, subject, turns=200_000):
        self.units, self.turns = [ord(c) for c in subject], turns

    def attempts(self, body, place, marks):
        self.turns -= 1
        if self.turns < 0:
            raise TooLong
        if not body:
            yield place, marks
            return
        for end, closed in self.node(body[0], place, marks):
            yield from self.attempts(body[1:], end, closed)

    def node(self, node, place, marks):
        name, *rest = node
        if name == "fail":
            return iter(())
        if name in grammar.ONE_WIDE:
            passes = place < len(self.units) and holds(node, self.units[place])
            return iter([(place + 1, marks)] if passes else [])
        if name == "at":
            return iter([(place, marks)] if self.is_at(rest[0], place) else [])
        return getattr(self, name)(place, marks, *rest)

    def group(self, place, marks, g, body):
        for end, closed in self.attempts(body, place, marks):
            yield end, (*closed, (g, place, end))

    def ref(self, place, marks, g):
        span = span_of(marks, g)
        if span is not None:
            captured = self.units[span[0]:span[1]]
            if self.units[place:place + len(captured)] == captured:
                yield place + len(captured), marks

    def exists(self, place, marks, g, yes, no):
        chosen = yes if span_of(marks, g) is not None else no or []
        return self.attempts(chosen, place, marks)

    def branch(self, place, marks, bodies):
        for body in bodies:
            yield from self.attempts(body, place, marks)

    def repeat(self, place, marks, kind, _wide, lo, hi, body):
        if kind == "possessive":
            return itertools.islice(self.mandatory(body, "greedy", lo, hi, place, marks), 1)
        return self.mandatory(body, kind, lo, hi, place, marks)

    def mandatory(self, body, kind, lo, hi, place, marks):
        if lo == 0:
            left = len(self.units) + 2 if hi == MAXREPEAT else hi
            yield from self.optional(body, kind, left, None, place, marks)
            return
        top = hi if hi == MAXREPEAT else hi - 1
        for end, closed in self.attempts(body, place, marks):
            yield from self.mandatory(body, kind, lo - 1, top, end, closed)

    def optional(self, body, kind, left, before, place, marks):
        """At most `left` more iterations; each begins past the start `before` of the one before it."""
        if kind == "lazy":
            yield place, marks
        if left > 0 and (before is None or place > before):
            for end, closed in self.attempts(body, place, marks):
                yield from self.optional(body, kind, left - 1, place, end, closed)
        if kind == "greedy":
            yield place, marks

    def atomic(self, place, marks, body):
        return itertools.islice(self.attempts(body, place, marks), 1)

    def look(self, place, marks, positive, back, body):
        first = None if back > place else next(self.attempts(body, place - back, marks), None)
        if positive and first is not None:
            yield place, first[1]
        if not positive and first is None:
            yield place, marks

    def is_at(self, k, place):
        units, count = self.units, len(self.units)
        if k in (AT_BEGINNING, AT_BEGINNING_STRING):
            return place == 0
        if k == AT_BEGINNING_LINE:
            return place == 0 or units[place - 1] == LINE_FEED
        if k == AT_END:
            return place == count or (place == count - 1 and units[place] == LINE_FEED)
        if k == AT_END_LINE:
            return place == count or units[place] == LINE_FEED
        if k == AT_END_STRING:
            return place == count
        category = CATEGORY_WORD if k in (AT_BOUNDARY, AT_NON_BOUNDARY) else CATEGORY_UNI_WORD
        before = place > 0 and in_category(category, units[place - 1])
        after = place < count and in_category(category, units[place])
        return (before != after) == (k in (AT_BOUNDARY, AT_UNI_BOUNDARY))

    def spans(self, body, limit=0):
        """The spans, each as (start, end, captures)."""
        found, begin, after_empty = [], 0, False
        while limit == 0 or len(found) < limit:
            span = self.next_span(body, begin, after_empty)
            if span is None:
                break
            found.append(span)
            begin, after_empty = span[1], span[0] == span[1]
        return found

    def next_span(self, body, begin, after_empty):
        for place in range(begin, len(self.units) + 1):
            for end, marks in self.attempts(body, place, ()):
                if not (after_empty and place == begin and end == place):
                    return place, end, marks
        return None


def span_of(marks, g):
    """The span of a group: that of its last capture."""
    return next(((start, end) for h, start, end in reversed(marks) if h == g), None)


def holds(node, unit):
    name, *rest = node
    if name == "any":
        return unit != LINE_FEED
    if name == "any_all":
        return True
    if name in ("lit", "not_lit"):
        return (unit == rest[0]) == (name == "lit")
    negated, items = rest
    return any(item_holds(item, unit) for item in items) != negated


def item_holds(item, unit):
    name, *rest = item
    if name == "lit":
        return unit == rest[0]
    if name == "span":
        return rest[0] <= unit <= rest[1]
    if name == "category":
        return in_category(rest[0], unit)
    if name == "bits":
        return unit < 256 and bit(rest[0], unit)
    table, blocks = rest
    if unit >= 65_536:
        return False
    high = unit // 256
    block = table[high // 4] >> 8 * (high % 4) & 255
    return block < len(blocks) // 8 and bit(blocks[8 * block:8 * block + 8], unit % 256)


def bit(words, number):
    return words[number // 32] >> number % 32 & 1 == 1


def in_category(k, unit):
    """The categories, by Python's tests of characters; `\\w` is that of CPython, which knows letters
    by their general category."""
    c, ascii_only = chr(unit), unit < 128
    even = {
        CATEGORY_DIGIT: lambda: ascii_only and c.isdigit(),
        CATEGORY_SPACE: lambda: c in " \t\n\v\f\r",
        CATEGORY_WORD: lambda: ascii_only and (c.isalnum() or c == "_"),
        CATEGORY_LINEBREAK: lambda: unit == LINE_FEED,
        CATEGORY_UNI_DIGIT: c.isdecimal,
        CATEGORY_UNI_SPACE: c.isspace,
        CATEGORY_UNI_WORD: lambda: c.isalnum() or c == "_",
        CATEGORY_UNI_LINEBREAK: lambda: len(c.splitlines()[0]) == 0,
    }
    return even[k - k % 2]() != (k % 2 == 1)


def substituted(body, subject, items, limit=0, turns=200_000):
    """What `sub` answers: the subject with its spans replaced by the template, and how many they were."""
    made, done = [], 0
    try:
        spans = Matcher(subject, turns).spans(body, limit)
    except RecursionError:
        raise TooLong from None
    for start, end, marks in spans:
        made.append(subject[done:start])
        for item in items:
            made.append(item if isinstance(item, str) else text_of_group(subject, item, start, end, marks))
        done = end
    return "".join(made) + subject[done:], len(spans)


def text_of_group(subject, g, start, end, marks):
    span = (start, end) if g == 0 else span_of(marks, g)
    return "" if span is None else subject[span[0]:span[1]]
