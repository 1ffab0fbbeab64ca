"""Calls on texts, made by chance, with CPython's answers."""
from table_tokens import b, error, i, optional, t, texts

EDGES = (-(2**127), -(2**63), 2**63 - 1, 2**63, 2**127 - 1)
ALPHABETS = ("ab", "abc", "éa", "\U0001F600a", "aé\U0001F600", "à é", "xyz ")
# Without a separator `split` cuts at ASCII whitespace here; CPython cuts at U+001C and others as well.
WHITESPACE = "ab \t\n\v\f\ré"
LINE_ENDS = "ab\n\r\v\f\x1c\x1d\x1e\x85\u2028\u2029é"
FRENCH = ("L'été dernier", "« C'est parfait », dit-elle", "le cœur zélé", "là-bas, près de la forêt", "ÀÉÎŒ")


def text(chance, alphabet=None, most=12):
    if alphabet is None and chance.random() < 0.2:
        return chance.choice(FRENCH)
    letters = alphabet or chance.choice(ALPHABETS)
    return "".join(chance.choice(letters) for _ in range(chance.choice([0, 1, 2, 3, 5, 8, most])))


def part_of(chance, subject):
    """A text to be searched for: mostly a part of the subject, else another one, or empty."""
    kind = chance.random()
    if kind < 0.1:
        return ""
    if kind < 0.2:
        return text(chance, most=3)
    start = chance.randint(0, len(subject))
    return subject[start:start + chance.choice([1, 1, 2, 2, 3])]


def place(chance, subject):
    """A bound of a window or a slice: None, near the subject on either side, or at an edge."""
    kind = chance.random()
    if kind < 0.25:
        return None
    if kind < 0.9:
        return chance.randint(-len(subject) - 3, len(subject) + 3)
    return chance.choice(EDGES)


def searched(name, answer):
    """A call with a text, a part and a window."""
    def make(chance):
        subject = text(chance)
        part, start, end = part_of(chance, subject), place(chance, subject), place(chance, subject)
        arguments = [t(subject), t(part), optional(start), optional(end)]
        try:
            return arguments, [answer(getattr(subject, name)(part, start, end))]
        except ValueError:
            return arguments, error("substring_not_found")
    return make


def affix(name):
    def make(chance):
        subject = text(chance)
        part = chance.choice([subject[:2], subject[-2:], subject, part_of(chance, subject)])
        return [t(subject), t(part)], [t(getattr(subject, name)(part))]
    return make


def contains(chance):
    subject = text(chance)
    part = part_of(chance, subject)
    return [t(subject), t(part)], [i(part in subject)]


def compare(chance):
    one = text(chance)
    other = chance.choice([one, one + text(chance, most=2), one[:-1] + text(chance, most=1), text(chance)])
    return [t(one), t(other)], [i((one > other) - (one < other))]


def lengths(chance):
    one = text(chance)
    return [t(one)], [i(len(one)), i(len(one.encode("utf-8"))), i(one.isascii())]


def some_bytes(chance, most=6):
    return bytes(chance.choice([0, 1, 127, 128, 255, chance.randrange(256)]) for _ in range(chance.randint(0, most)))


def compare_bytes(chance):
    one = some_bytes(chance)
    other = chance.choice([one, one + some_bytes(chance, 2), one[:-1] + some_bytes(chance, 1), some_bytes(chance)])
    return [b(one), b(other)], [i((one > other) - (one < other))]


def bytes_len(chance):
    one = some_bytes(chance)
    return [b(one)], [i(len(one))]


SEARCHES = {
    "find": searched("find", i), "rfind": searched("rfind", i), "index": searched("index", i),
    "rindex": searched("rindex", i), "count": searched("count", i),
    "startswith": searched("startswith", i), "endswith": searched("endswith", i),
    "contains": contains, "compare": compare, "lengths": lengths,
    "compare_bytes": compare_bytes, "bytes_len": bytes_len,
}


def cut_at(name):
    """`split` and `rsplit`: by a separator, or at whitespace."""
    def make(chance):
        most = chance.choice([-1, -1, -1, -2, 0, 1, 2, 3, 2**63 - 1, -(2**63)])
        if chance.random() < 0.4:
            subject, separator = text(chance, WHITESPACE), None
        else:
            subject = text(chance)
            separator = part_of(chance, subject)
        arguments = [t(subject), "-" if separator is None else t(separator), i(most)]
        if separator == "":
            return arguments, error("empty_separator")
        return arguments, texts(getattr(subject, name)(separator, most))
    return make


def split_lines(chance):
    subject, keep = text(chance, chance.choice([LINE_ENDS, "a\r\n"])), chance.random() < 0.5
    return [t(subject), i(keep)], texts(subject.splitlines(keep))


def parted(name):
    def make(chance):
        subject = text(chance)
        separator = part_of(chance, subject)
        if separator == "":
            return [t(subject), t("")], error("empty_separator")
        return [t(subject), t(separator)], [t(piece) for piece in getattr(subject, name)(separator)]
    return make


def join(chance):
    items = [text(chance, most=4) for _ in range(chance.choice([0, 1, 1, 2, 3, 5]))]
    between = text(chance, most=3)
    return [t(between), *texts(items)], [t(between.join(items))]


def replace(chance):
    subject = text(chance)
    old, new = part_of(chance, subject), text(chance, most=3)
    count = chance.choice([None, None, -1, 0, 1, 2, 3, 100, -(2**63), 2**63 - 1])
    made = subject.replace(old, new, -1 if count is None else count)
    return [t(subject), t(old), t(new), optional(count)], [t(made)]


PIECES = {
    "split": cut_at("split"), "rsplit": cut_at("rsplit"), "splitlines": split_lines,
    "partition": parted("partition"), "rpartition": parted("rpartition"), "join": join,
    "replace": replace, "removeprefix": affix("removeprefix"), "removesuffix": affix("removesuffix"),
}


def by_index(chance):
    subject = text(chance)
    at = chance.choice([*EDGES, *range(-len(subject) - 2, len(subject) + 3)])
    try:
        return [t(subject), i(at)], [t(subject[at])]
    except IndexError:
        return [t(subject), i(at)], error("index_out_of_range")


def by_slice(chance):
    subject = text(chance)
    start, stop = place(chance, subject), place(chance, subject)
    step = chance.choice([None, None, 1, -1, 2, -2, 3, -3, 0, *EDGES])
    arguments = [t(subject), optional(start), optional(stop), optional(step)]
    if step == 0:
        return arguments, error("step_zero")
    return arguments, [t(subject[start:stop:step])]


def range_of(chance, subject):
    start = chance.randint(0, len(subject))
    return start, chance.randint(start, len(subject))


def sliced(backward, stepped):
    """The slices by a range that lies in the text, with a step of at least 1."""
    def make(chance):
        subject = text(chance)
        start, end = range_of(chance, subject)
        piece, step = subject[start:end], chance.choice([1, 2, 3, 5, 2**63, 2**64 - 1])
        arguments = [t(subject), i(start), i(end)] + [i(step)] * stepped
        return arguments, [t(piece[::-1] if backward else piece) if not stepped
                           else t((piece[::-1] if backward else piece)[::step])]
    return make


def add(chance):
    one, other = text(chance), text(chance)
    return [t(one), t(other)], [t(one + other)]


def multiply(chance):
    one = text(chance, most=4)
    times = chance.choice([-(2**63), -2, -1, 0, 1, 2, 3, 7])
    return [t(one), i(times)], [t(one * times)]


def iterate(chance):
    """An iterator goes on (`n`), tells what is left (`h`), or is put at a place (`i..`)."""
    subject = text(chance, most=5)
    walker, asked, answers = iter(subject), [], []
    for _ in range(chance.randint(1, 8)):
        kind = chance.choice(["n", "n", "n", "h", "set"])
        if kind == "n":
            letter = next(walker, None)
            answers.append("-" if letter is None else t(letter))
        elif kind == "h":
            answers.append(i(walker.__length_hint__()))
        else:
            state = chance.choice([-1, 0, 1, 2, len(subject), len(subject) + 2, 2**40])
            walker.__setstate__(state)
            kind = i(state)
        asked.append(kind)
    return [t(subject), f"l{len(asked)}", *asked], [f"l{len(answers)}", *answers]


def inside(chance):
    """An index that lies in the text."""
    subject = text(chance) or "a"
    at = chance.randrange(len(subject))
    return [t(subject), i(at)], [t(subject[at])]


def reduced(chance):
    """Where an iterator is after some steps: its text and its place, or nothing where it is exhausted."""
    subject = text(chance, most=5)
    walker, steps = iter(subject), chance.randint(0, len(subject) + 2)
    for _ in range(steps):
        next(walker, None)
    _, arguments, *place = walker.__reduce__()
    return [t(subject), i(steps)], [t(arguments[0]), i(place[0])] if place else ["-"]


SLICES = {
    "getitem_by_index": by_index, "getitem_by_slice": by_slice,
    "do_slice": sliced(False, False), "do_slice_reverse": sliced(True, False),
    "do_stepped_slice": sliced(False, True), "do_stepped_slice_reverse": sliced(True, True),
    "add": add, "mul": multiply, "iterate": iterate,
    "append": add, "concat_in_place": add, "do_get": inside, "get_chars": sliced(False, False), "reduce": reduced,
}
