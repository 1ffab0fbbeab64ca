#!/usr/bin/env python3
"""Writes crates/rows_printing/src/nested.rt: nested values made by chance, and what CPython's `repr`
and `ascii` make of them. `str` makes of each what `repr` does, since each is a tuple, a list or a dict.

    python3 tools/printed_values.py [--check] [--file FILE]

Examples:

    python3 tools/printed_values.py             # writes the file, laid out as `rt fmt` does
    python3 tools/printed_values.py --check     # whether the stored file is as this would write it

Ends with 0; with 1 where --check finds a file that is otherwise; with 2 where this is not CPython 3.11.
"""
import argparse
import pathlib
import random
import sys

import python_regex

FILE = pathlib.Path(__file__).resolve().parent.parent / "crates" / "rows_printing" / "src" / "nested.rt"
TEXTS = ["", "a", "'", '"', "'\"", "é", "\n", "\t\\", "\x7f", "🎅", "\u200b", "\ue000", "日本", "x y"]
BYTES = [b"", b"a", b"'", b"'\"", b"\xff\x00", b"\r\n\t\\", b"~\x7f"]
INTS = [0, 1, -1, 10, -200, 2**127 - 1, -(2**127)]
STEPS = 14
ROWS = 13
COLUMNS = 100

HEAD = """//! Nested values made by chance, and what CPython's `repr` and `ascii` make of them. The file is
//! written by tools/printed_values.py.

use crate::made::Step;

/// The steps that make a value, its repr, and its ascii.
pub(crate) const ROWS: [([Step; %d], &str, &str); %d] = [
"""


def rust_text(text):
    return '"' + "".join(
        {"\\": "\\\\", '"': '\\"', "\n": "\\n", "\r": "\\r", "\t": "\\t"}.get(
            c, c if 32 <= ord(c) < 127 else "\\u{%x}" % ord(c)
        )
        for c in text
    ) + '"'


def leaf(chance):
    kind = chance.randrange(5)
    if kind == 0:
        return None
    if kind == 1:
        return chance.random() < 0.5
    if kind == 2:
        return chance.choice(INTS)
    if kind == 3:
        return chance.choice(TEXTS)
    return chance.choice(BYTES)


def key(chance):
    return chance.choice([chance.choice(INTS), chance.choice(TEXTS), chance.choice(BYTES)])


def value(chance, depth):
    kind = chance.randrange(8) if depth else 9
    size = chance.randrange(4)
    if kind < 2:
        return tuple(value(chance, depth - 1) for _ in range(size))
    if kind < 4:
        return [value(chance, depth - 1) for _ in range(size)]
    if kind < 6:
        return {key(chance): value(chance, depth - 1) for _ in range(size)}
    return leaf(chance)


def steps(v):
    """The steps that make the value: what it holds, last first, and then the value."""
    if v is None:
        return ["Step::None"]
    if isinstance(v, bool):
        return ["Step::Bool(%s)" % str(v).lower()]
    if isinstance(v, int):
        return ["Step::Int(%d)" % v if v > -(2**127) else "Step::Int(i128::MIN)"]
    if isinstance(v, str):
        return ["Step::Str(%s)" % rust_text(v)]
    if isinstance(v, bytes):
        return ["Step::Bytes(%s)" % rust_text("".join(map(chr, v)))]
    made = []
    if isinstance(v, dict):
        for k, w in reversed(list(v.items())):
            made += steps(w) + steps(k)
        return made + ["Step::Dict(%d)" % len(v)]
    for w in reversed(v):
        made += steps(w)
    return made + ["Step::%s(%d)" % ("Tuple" if isinstance(v, tuple) else "List", len(v))]


def row(v):
    """The lines of a value, laid out; none where it has too many or too few steps, or a long line."""
    made = steps(v)
    if not 9 <= len(made) <= STEPS or str(v) != repr(v):
        return None
    made = ["Step::None"] * (STEPS - len(made)) + made
    lines = ["    (", "        [", *(f"            {step}," for step in made), "        ],",
             f"        {rust_text(repr(v))},", f"        {rust_text(ascii(v))},", "    ),"]
    return None if any(len(line) > COLUMNS for line in lines) else "".join(line + "\n" for line in lines)


def table():
    chance = random.Random(7)
    rows = []
    while len(rows) < ROWS:
        made = row(value(chance, 3))
        if made is not None:
            rows.append(made)
    return (HEAD % (STEPS, ROWS) + "".join(rows) + "];\n").encode("utf-8")


def main(words=None):
    raw = argparse.RawDescriptionHelpFormatter
    parser = argparse.ArgumentParser(prog="printed_values.py", description=__doc__, formatter_class=raw)
    parser.add_argument("--check", action="store_true", help="compare what is stored, and write nothing")
    parser.add_argument("--file", type=pathlib.Path, default=FILE, metavar="FILE", help="of the table")
    asked = parser.parse_args(words)
    missing = python_regex.what_is_missing()
    if missing:
        print(f"printed_values.py: this Python cannot be used: {missing}", file=sys.stderr)
        return 2
    made = table()
    if not asked.check:
        asked.file.write_bytes(made)
    elif not asked.file.exists() or asked.file.read_bytes() != made:
        print(f"printed_values.py: {asked.file} is not what this Python gives", file=sys.stderr)
        return 1
    return 0


if __name__ == "__main__":
    sys.exit(main())
