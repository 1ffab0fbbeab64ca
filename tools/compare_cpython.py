#!/usr/bin/env python3
r"""Compares the built program with CPython 3.11: on the patterns of CPython's own tests, on code words and
patterns made by chance, and on every character by three categories.

    python3 tools/compare_cpython.py [--program PATH] [--codes N] [--seed N] [--jobs N] [--show N] [--or-skip]

The patterns are those of the module `test.re_tests` as it is installed; nothing of it is copied. Their
words are made by CPython's compiler, and both engines get the same words. Where the two differ, the reason
has to be one that docs/DIFFERENCES.md lists by name, and the program has to agree with the plain reading
of the rules in plain_match.py. Words that were damaged by chance are compared with grammar.py and
plain_match.py alone.

Examples:

    python3 tools/compare_cpython.py --or-skip             # as the gate does
    python3 tools/compare_cpython.py --codes 30000 --seed 7
    python3 tools/compare_cpython.py --program crates/sre_program/out/sre_program --show 20

Ends with 0 where all agrees or differs for a listed reason, with 1 where something else differs, and with 2
where this is not CPython 3.11 or the program is not built; with --or-skip these two end with 0.
"""
import argparse
import collections
import concurrent.futures
import os
import pathlib
import random
import sys
import unicodedata
import warnings

import code_reader
import comparison
import differences
import grammar
import opcodes
import python_regex
import random_codes
import random_patterns
from comparison import LONG, SAME, Case

TOP = pathlib.Path(__file__).resolve().parent.parent
PROGRAM = TOP / "crates" / "sre_program" / "out" / "sre_program"
PIECE = 50  # cases that a process takes at a time
NOT_COMPARED = (comparison.UNKNOWN, "not compiled by CPython")


def random_case(seed, number):
    """Every second case is tame: of its kind nothing but a possessive repeat and \\B is listed."""
    chance = random.Random(f"{seed}/{number}")
    body, groups, items, subject, limit = random_codes.case(chance, number % 2 == 0)
    return Case(f"code {number}", body, grammar.spell(body), groups, items, subject, limit)


def compare_random(program, seed, number):
    return comparison.compared(program, random_case(seed, number))


def pattern_case(seed, number):
    """A pattern as CPython compiles it."""
    pattern, subject = random_patterns.case(random.Random(f"{seed}/{number}/pattern"))
    return case_of_pattern(python_regex.Compiled(pattern), subject)


def compare_pattern(program, seed, number):
    try:
        return comparison.compared(program, pattern_case(seed, number))
    except python_regex.NotInGrammar as fault:
        return f"NOT IN THE GRAMMAR ({fault})".upper(), None, None
    except python_regex.PatternError:
        return NOT_COMPARED[1], None, None


def damaged_case(seed, number):
    """The words of a random case with one word changed, left out or added."""
    case, chance = random_case(seed, number), random.Random(f"{seed}/{number}/damaged")
    words, place = list(case.words), chance.randrange(len(case.words))
    beside = min(max(0, words[place] + chance.choice((-1, 1))), opcodes.MAXREPEAT)
    near = [chance.randrange(opcodes.IGNORING.start), beside, opcodes.MAXREPEAT]
    words[place:place + chance.randint(0, 1)] = [chance.choice(near)] * chance.randint(0, 1)
    try:
        body = code_reader.read(words, case.groups)
    except code_reader.NoTree:
        body = None
    return Case(f"damaged {number}", body, words, case.groups, case.items, case.subject, case.limit)


def compare_damaged(program, seed, number):
    case = damaged_case(seed, number)
    ours, wanted = comparison.by_program(program, case), comparison.by_rules(case)
    if LONG in (ours, wanted):  # as a huge least count of an empty body
        return comparison.UNKNOWN, ours, wanted
    return SAME if ours == wanted else "AGAINST THE RULES", ours, wanted


def compare_piece(compare_one, program, seed, numbers):
    return [(number, *compare_one(program, seed, number)) for number in numbers]


def compare_by_chance(asked, report, title, make, compare_one):
    report.begin(f"{title} (seed {asked.seed})")
    pieces = [range(i, min(i + PIECE, asked.codes)) for i in range(0, asked.codes, PIECE)]
    with concurrent.futures.ProcessPoolExecutor(asked.jobs) as pool:
        todo = [pool.submit(compare_piece, compare_one, asked.program, asked.seed, piece) for piece in pieces]
        for done in todo:
            for number, verdict, ours, theirs in done.result():
                report.add(verdict, lambda: make(asked.seed, number), ours, theirs)


def table_of_tests():
    """CPython's own list, or None where it is not installed."""
    try:
        with warnings.catch_warnings():
            warnings.simplefilter("ignore")
            from test import re_tests
    except ImportError:
        return None
    return re_tests


def compare_tests(asked, report):
    report.begin("test.re_tests")
    module = table_of_tests()
    if module is None:
        print("  not installed here")
        return
    outside = 0
    for entry in module.tests:
        pattern, subject, outcome = entry[:3]
        with warnings.catch_warnings():
            warnings.simplefilter("ignore")
            try:
                compiled = python_regex.Compiled(pattern)
            except python_regex.PatternError:
                outside += 1
                continue
        case = case_of_pattern(compiled, subject)
        verdict, ours, theirs = comparison.compared(asked.program, case)
        wanted = outcome == module.SUCCEED
        if verdict == SAME and (ours[1] > 0) != wanted:
            verdict = "AGAINST THE TABLE"
        report.add(verdict, lambda: case, ours, theirs)
    print(f"  {outside} of {len(module.tests)} entries do not compile, or use what the grammar leaves out")


def case_of_pattern(compiled, subject):
    items = ["<"]
    for g in range(compiled.groups + 1):
        items += [g, "|" if g < compiled.groups else ">"]
    return Case(repr(compiled.pattern), compiled.body, compiled.words, compiled.groups, items, subject)


def compare_characters(asked, report):
    """Every character that UTF-8 has, by `\\d`, `\\s` and `\\w`."""
    report.begin("characters")
    every = "".join(chr(c) for c in range(0x110000) if not 0xD800 <= c <= 0xDFFF)
    for half in (every[:len(every) // 2], every[len(every) // 2:]):
        for pattern in (r"\d", r"\s", r"\w"):
            compiled = python_regex.Compiled(pattern)
            case = Case(pattern, compiled.body, compiled.words, 0, [""], half)
            ours, theirs = comparison.by_program(asked.program, case), comparison.by_cpython(case)
            if isinstance(ours, str) or isinstance(theirs, str):
                report.add("NOT LISTED", lambda: pattern, ours, theirs)
                continue
            apart = set(ours[0]) ^ set(theirs[0])
            report.count(SAME, len(half) - len(apart))
            for c in sorted(apart):
                name = differences.reason_of_character(pattern, c) or "NOT LISTED"
                text = f"{pattern} on U+{ord(c):04X} ({unicodedata.category(c)})"
                report.add(name, lambda text=text: text, c not in ours[0], c not in theirs[0])


def what_is_missing(program):
    missing = python_regex.what_is_missing()
    if missing:
        return f"this Python cannot be used: {missing}"
    if not os.access(program, os.X_OK):
        return f"{program} is not built: cd crates/sre_program && rt run -- sub < stdin"
    return None


class Report:
    """Counts of verdicts, and what there is to show."""

    def __init__(self, show):
        self.show, self.faults = show, 0
        self.counts, self.shown = collections.Counter(), collections.Counter()

    def begin(self, title):
        self.end()
        print(f"{title}:", flush=True)

    def count(self, verdict, number):
        self.counts[verdict] += number

    def add(self, verdict, case, ours, theirs):
        self.counts[verdict] += 1
        fault = verdict.isupper()
        self.faults += fault
        most = max(self.show, 10) if fault else self.show
        if verdict != SAME and theirs is not None and self.shown[verdict] < most:
            self.shown[verdict] += 1
            print(f"  {verdict}: {case()}\n    here {ours!r}\n    wanted {theirs!r}")

    def end(self):
        if SAME in self.counts:
            print(f"  {self.counts.pop(SAME):8} agree")
        for verdict, number in sorted(self.counts.items()):
            print(f"  {number:8} {'differ: ' * (verdict not in NOT_COMPARED)}{verdict}")
        self.counts.clear()


def main(words=None):
    raw = argparse.RawDescriptionHelpFormatter
    parser = argparse.ArgumentParser(prog="compare_cpython.py", description=__doc__, formatter_class=raw)
    parser.add_argument("--program", default=str(PROGRAM), metavar="PATH", help="the built program")
    parser.add_argument("--codes", type=int, default=2000, metavar="N",
                        help="how many codes and how many patterns are made by chance, and damaged codes (2000)")
    parser.add_argument("--seed", type=int, default=1, metavar="N", help="what they are made from (1)")
    parser.add_argument("--jobs", type=int, default=os.cpu_count(), metavar="N", help="processes side by side")
    parser.add_argument("--show", type=int, default=3, metavar="N",
                        help="how many differences of each kind are shown (3; of unlisted ones at least 10)")
    parser.add_argument("--or-skip", action="store_true", help="end with 0 where it cannot be compared here")
    asked = parser.parse_args(words)
    missing = what_is_missing(asked.program)
    if missing:
        print(f"compare_cpython.py: {'left out: ' if asked.or_skip else ''}{missing}", file=sys.stderr)
        return 0 if asked.or_skip else 2
    report = Report(asked.show)
    compare_tests(asked, report)
    compare_by_chance(asked, report, "random codes", random_case, compare_random)
    compare_by_chance(asked, report, "random patterns", pattern_case, compare_pattern)
    compare_by_chance(asked, report, "damaged codes", damaged_case, compare_damaged)
    compare_characters(asked, report)
    report.end()
    print("every difference is a listed one" if report.faults == 0 else f"{report.faults} differences are not listed")
    return 1 if report.faults else 0


if __name__ == "__main__":
    sys.exit(main())
