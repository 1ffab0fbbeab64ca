#!/usr/bin/env python3
r"""Writes tables of calls on texts and integers, with the answers that CPython gives.

    python3 tools/conformance_tables.py [--check] [--calls N] [--seed N] [--folder FOLDER]

Each call of the crates py_text and py_int that Python has too is made by chance, from a seed, some hundred
times: on texts in ASCII, in French and past U+FFFF, empty ones and overlapping needles, windows of every
sign, and numbers at the edges of 128 bits. The answer is CPython's; where CPython raises, it is the error of
the same cause. Some answers are not CPython's own, as `int_too_wide` where its integer leaves 128 bits: how
many of which call, and what CPython gives there, is written to not_cpythons.txt beside the tables. The program
of crates/conformance reads the tables. Their form is in docs/FORMATS.md.

Examples:

    python3 tools/conformance_tables.py                     # writes crates/conformance/data/*.table
    python3 tools/conformance_tables.py --check             # whether they are as this would write them
    python3 tools/conformance_tables.py --calls 2000 --seed 5 --folder /tmp/tables

Ends with 0; with 1 where --check finds a table that is otherwise; with 2 where this is not CPython 3.11.
"""
import argparse
import collections
import pathlib
import random
import sys

import number_calls
import python_regex
import text_calls
from table_tokens import Instead

FOLDER = pathlib.Path(__file__).resolve().parent.parent / "crates" / "conformance" / "data"
TABLES = {"texts": text_calls.SEARCHES, "pieces": text_calls.PIECES, "slices": text_calls.SLICES,
          "numbers": number_calls.ARITHMETIC, "forms": number_calls.FORMS, "values": number_calls.VALUES}
REPLACED = "not_cpythons.txt"


def made_calls(calls, seed, number):
    """So many calls of each name, in the order of the names: the name, its arguments and the answer."""
    for name, make in calls.items():
        chance = random.Random(f"{seed}/{name}")
        for _ in range(number):
            yield name, *make(chance)


def table(calls, seed, number):
    lines = (" ".join([name, *arguments, "=", *answer]) for name, arguments, answer in made_calls(calls, seed, number))
    return "".join(line + "\n" for line in lines).encode("ascii")


def replaced(seed, number):
    """The answers that are not CPython's own: table, call, answer, what CPython gives, and how many."""
    counts = collections.Counter(
        (f"{table}.table", name, " ".join(answer), answer.given)
        for table, calls in TABLES.items()
        for name, _, answer in made_calls(calls, seed, number) if isinstance(answer, Instead)
    )
    lines = (f"{table} {name}: {answer} where CPython gives {given}: {n}"
             for (table, name, answer, given), n in counts.items())
    return "".join(line + "\n" for line in lines).encode("ascii")


def main(words=None):
    raw = argparse.RawDescriptionHelpFormatter
    parser = argparse.ArgumentParser(prog="conformance_tables.py", description=__doc__, formatter_class=raw)
    parser.add_argument("--check", action="store_true", help="compare what is stored, and write nothing")
    parser.add_argument("--calls", type=int, default=150, metavar="N", help="lines of each call (150)")
    parser.add_argument("--seed", type=int, default=1, metavar="N", help="what they are made from (1)")
    parser.add_argument("--folder", type=pathlib.Path, default=FOLDER, metavar="FOLDER", help="of the tables")
    asked = parser.parse_args(words)
    missing = python_regex.what_is_missing()
    if missing:
        print(f"conformance_tables.py: this Python cannot be used: {missing}", file=sys.stderr)
        return 2
    apart = 0
    files = {f"{name}.table": table(calls, asked.seed, asked.calls) for name, calls in TABLES.items()}
    files[REPLACED] = replaced(asked.seed, asked.calls)
    for name, made in files.items():
        path = asked.folder / name
        if not asked.check:
            asked.folder.mkdir(parents=True, exist_ok=True)
            path.write_bytes(made)
        elif not path.exists() or path.read_bytes() != made:
            print(f"conformance_tables.py: {path} is not what this Python gives", file=sys.stderr)
            apart += 1
    return 1 if apart else 0


if __name__ == "__main__":
    sys.exit(main())
