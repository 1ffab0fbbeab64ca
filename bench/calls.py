#!/usr/bin/env python3
"""Times calls on texts, integers and pools of the program `bench_driver` beside the same calls of CPython.

    python3 bench/calls.py [CASE ..] [--sizes N ..] [--seconds S | --calls N] [--runs N] [--program PATH]
    python3 bench/calls.py --instructions [CASE ..] [--sizes N ..] [--jobs N] [--program PATH]

Build the program first: `cd crates/bench_driver && rt run -- modpow 0 1000`.

Each case is one call, made so often that ours take about S seconds of processor time (0.3). From that the
time of the same process with no call is taken off: its start, and making the text or the pool. CPython makes the same
calls as often, on the same texts and integers. At least five calls are made, of both. Both times are those of the whole loop, which adds what the
calls give to a sum, and both sums have to be the same. Of a few runs the shortest counts.

With --calls as many calls are made as it says, whatever they take: the sums are compared, and the times tell
little where they are few.

With --instructions both are counted in instructions, by valgrind: those of a process with a few calls less
those of a process with none.

Examples:

    python3 bench/calls.py
    python3 bench/calls.py find_ascii find_french --sizes 1000 100000
    python3 bench/calls.py modpow divmod literal repr --runs 5
    python3 bench/calls.py --instructions --sizes 10000

Ends with 0 where all sums agreed, with 1 where some did not, and with 2 where it could not run.
"""
import argparse
import collections
import concurrent.futures
import os
import pathlib
import resource
import subprocess
import sys
import tempfile
import time

import callgrind
from callgrind import Fault

PROGRAM = pathlib.Path(__file__).resolve().parent.parent / "crates" / "bench_driver" / "out" / "bench_driver"

# Of each language: the block of a hundred characters, its word, what the word is replaced by, and the word
# that occurs only at the end. They are the program's own, in crates/timed_calls/src/sample_texts.rt.
WORDS = {
    "ascii": (
        "the quiet river runs past seven old houses while the marker of the town stands in the rain and then ",
        "marker", "signpost", "finally",
    ),
    "french": (
        "le garçon a mangé à la cantine, près de la façade où l'on a placé des fenêtres déjà très âgées, ici ",
        "façade", "devanture", "dernière",
    ),
}
TEXT_CALLS = ("find", "count", "startswith", "order", "equality", "replace", "split", "slice", "stepped", "join",
              "iterate", "strip", "center", "zfill", "expandtabs", "repr", "encode", "isalpha")
NUMBER_CALLS = ("modpow", "divmod", "literal", "repr")
POOL_SIZES = {"intern": 100_000, "interned": 100_000, "intern_new": 1_000_000}  # how many identifiers a pool has
CASES = (*(f"{call}_{language}" for call in TEXT_CALLS for language in WORDS), *NUMBER_CALLS, *POOL_SIZES)
FEWEST = 5  # calls of a run

# A base, a dividend and an integer to be written, each one more at each call.
FIRST = 12345678901234567890123456789012345678
LAST_DIGITS = 0xFFFF  # 16 binary digits
COUNTED = 8  # calls that are counted in instructions
EXPONENT = 98765432109876543210987654321
MODULUS = 2**127 - 1
DIVISOR = 1234567890123456789
STRIDE = 7919  # places from the identifier of a call to that of the next one
LITERALS = [str(FIRST)[:-1] + str(digit) for digit in range(10)]


def filled(block, size):
    """The first `size` characters of the block over and over."""
    return (block * (size // len(block) + 1))[:size]


def text_calls(call, language, size):
    """A function that makes so many calls on a text, and gives the sum."""
    block, word, other, last = WORDS[language]
    text = filled(block, size)
    ended = (filled(block, max(size - len(last), 0)) + last)[:size]
    makers = {
        "find": lambda: (sum_of_places, ended, last),
        "count": lambda: (sum_of_counts, text, word),
        "startswith": lambda: (sum_of_beginnings, text, filled(block, size // 2)),
        "order": lambda: (sum_of_lesser, text, ended),
        "equality": lambda: (sum_of_equal, text, copied(text), ended),
        "replace": lambda: (sum_of_replaced, text, word, other),
        "split": lambda: (sum_of_pieces, text, word),
        "slice": lambda: (sum_of_sliced, text, size // 4, size - size // 4),
        "stepped": lambda: (sum_of_stepped, text),
        "join": lambda: (sum_of_joined, text.split(), other),
        "iterate": lambda: (sum_of_walks, text),
        "strip": lambda: (sum_of_stripped, f" {text} "),
        "center": lambda: (sum_of_centered, text),
        "zfill": lambda: (sum_of_zero_filled, text),
        "expandtabs": lambda: (sum_of_expanded, text.replace(" ", "\t")),
        "repr": lambda: (sum_of_quoted, text),
        "encode": lambda: (sum_of_encoded, text),
        "isalpha": lambda: (sum_of_tested, text.replace(" ", "a").replace(",", "b").replace("'", "c")),
    }
    make_sum, *made = makers[call]()
    return lambda times: make_sum(*made, times)


def copied(text):
    """An equal text in another place of memory."""
    return (text + " ")[:-1]


def sum_of_places(text, word, times):
    total = 0
    for i in range(times):
        total += text.find(word, i % 2)
    return total


def sum_of_counts(text, word, times):
    total = 0
    for i in range(times):
        total += text.count(word, i % 2)
    return total


def sum_of_beginnings(text, beginning, times):
    total = 0
    for i in range(times):
        total += text.startswith(beginning, i % 2)
    return total


def sum_of_lesser(text, ended, times):
    total = 0
    for i in range(times):
        total += text < ended if i % 2 == 0 else ended < text
    return total


def sum_of_equal(text, copy, ended, times):
    total = 0
    for i in range(times):
        total += text == (copy if i % 2 == 0 else ended)
    return total


def sum_of_replaced(text, word, other, times):
    total = 0
    for _ in range(times):
        total += len(text.replace(word, other))
    return total


def sum_of_pieces(text, word, times):
    total = 0
    for _ in range(times):
        total += len(text.split(word))
    return total


def sum_of_sliced(text, start, stop, times):
    total = 0
    for _ in range(times):
        total += len(text[start:stop])
    return total


def sum_of_stepped(text, times):
    total = 0
    for i in range(times):
        total += len(text[i % 2::3])
    return total


def sum_of_joined(pieces, between, times):
    total = 0
    for _ in range(times):
        total += len(between.join(pieces))
    return total


def sum_of_walks(text, times):
    """Each walk goes through the whole text in C, and keeps its last character."""
    total = 0
    for _ in range(times):
        for letter in collections.deque(text, maxlen=1):
            total += ord(letter)
    return total


def sum_of_stripped(text, times):
    total = 0
    for _ in range(times):
        total += len(text.strip())
    return total


def sum_of_centered(text, times):
    total = 0
    for i in range(times):
        total += len(text.center(len(text) + 100 + i % 2))
    return total


def sum_of_zero_filled(text, times):
    total = 0
    for i in range(times):
        total += len(text.zfill(len(text) + 100 + i % 2))
    return total


def sum_of_expanded(text, times):
    total = 0
    for i in range(times):
        total += len(text.expandtabs(8 + i % 2))
    return total


def sum_of_quoted(text, times):
    total = 0
    for _ in range(times):
        total += len(repr(text))
    return total


def sum_of_encoded(text, times):
    total = 0
    for _ in range(times):
        total += len(text.encode("utf-8"))
    return total


def sum_of_tested(letters, times):
    spaced, total = letters + " ", 0
    for i in range(times):
        total += letters.isalpha() if i % 2 == 0 else spaced.isalpha()
    return total


def sum_of_powers(times):
    total = 0
    for i in range(times):
        total += pow(FIRST + i, EXPONENT, MODULUS) & LAST_DIGITS
    return total


def sum_of_quotients(times):
    """The dividend and the divisor of a call come from the call before it."""
    total = last = 0
    for _ in range(times):
        quotient, remainder = divmod(FIRST + last, DIVISOR + last)
        last = (quotient & LAST_DIGITS) + (remainder & LAST_DIGITS)
        total += last
    return total


def sum_of_literals(times):
    total = 0
    for i in range(times):
        total += int(LITERALS[i % 10]) & LAST_DIGITS
    return total


def sum_of_lengths(times):
    total = 0
    for i in range(times):
        total += len(repr(FIRST + i))
    return total


def identifiers(size):
    return [f"name_{number}" for number in range(size)]


def pool_calls(case, size):
    """A function that makes so many calls on a pool, and gives the sum. The texts equal those of the pool, and are
    others."""
    if case == "intern_new":
        return lambda times: sum_of_new(size, times)
    names, known = identifiers(size), identifiers(size)
    if case == "intern":
        pool = [sys.intern(name) for name in known]
        return lambda times: sum_of_kept(pool, names, times)
    places = {name: place for place, name in enumerate(known)}
    return lambda times: sum_of_found(places, names, times)


def sum_of_kept(pool, names, times):
    """Python forgets an interned text that nothing else has, so the pool is a list of them."""
    total = 0
    for i in range(times if pool else 0):
        total += len(sys.intern(names[i * STRIDE % len(names)]))
    return total


def sum_of_found(places, names, times):
    total = 0
    for i in range(times if names else 0):
        total += places[names[i * STRIDE % len(names)]]
    return total


def sum_of_new(size, times):
    total = 0
    for _ in range(times):
        places = {}
        for number in range(size):
            places.setdefault(f"name_{number}", number)
        total += len(places)
    return total


def cpython(case, size):
    """A function that makes so many calls of the case in CPython, and gives the sum."""
    numbers = dict(zip(NUMBER_CALLS, (sum_of_powers, sum_of_quotients, sum_of_literals, sum_of_lengths)))
    if case in numbers:
        return numbers[case]
    return pool_calls(case, size) if case in POOL_SIZES else text_calls(*case.split("_"), size)


def run_ours(program, case, size, times):
    """The processor time of the program, in seconds, and the sum that it prints."""
    before = resource.getrusage(resource.RUSAGE_CHILDREN)
    done = subprocess.run([program, case, str(size), str(times)], capture_output=True)
    after = resource.getrusage(resource.RUSAGE_CHILDREN)
    words = done.stdout.decode("ascii", "replace").split()
    if done.returncode != 0 or words[:2] != [case, str(times)] or len(words) != 3:
        raise Fault(f"{case} {size} {times}: status {done.returncode}, {done.stdout!r}, {done.stderr!r}")
    return after.ru_utime + after.ru_stime - before.ru_utime - before.ru_stime, int(words[2])


def run_cpython(calls, times):
    begin = time.process_time()
    total = calls(times)
    return time.process_time() - begin, total


def calibrated(program, case, size, seconds):
    """How many calls take about so many seconds, and how long one takes."""
    frame, times = run_ours(program, case, size, 0)[0], 1
    while True:
        taken = run_ours(program, case, size, times)[0] - frame
        if taken >= seconds / 4 or times >= 2**28:
            taken = max(taken, 1e-9)
            return max(FEWEST, min(int(times * seconds / taken), 2**30)), taken / times
        times *= 4


def measured(asked, case, size):
    """The line of a case: size, calls, nanoseconds a call of both, and whether the sums agree."""
    times, one = (asked.calls, 0) if asked.calls else calibrated(asked.program, case, size, asked.seconds)
    if one > 1 and size > 1_000_000:
        return measured(asked, case, 1_000_000)
    calls, runs = cpython(case, size), range(asked.runs)
    frame = min(run_ours(asked.program, case, size, 0)[0] for _ in runs)
    ours = [run_ours(asked.program, case, size, times) for _ in runs]
    theirs = [run_cpython(calls, times) for _ in runs]
    agree = {total for _, total in ours} == {total for _, total in theirs}
    ours_ns = max(min(seconds for seconds, _ in ours) - frame, 0.0) / times * 1e9
    return size, times, ours_ns, min(seconds for seconds, _ in theirs) / times * 1e9, agree


def print_table(asked):
    print(f"{'case':17} {'size':>10} {'calls':>10} {'ours':>15} {'CPython':>15} {'ratio':>7}")
    right = True
    for case in asked.cases or CASES:
        for wanted in sizes_of(asked, case):
            size, times, ours, theirs, agree = measured(asked, case, wanted)
            right = right and agree
            print(
                f"{case:17} {size or '':>10} {times:>10} {ours:>12,.0f} ns {theirs:>12,.0f} ns"
                f" {ours / max(theirs, 1e-9):>7.2f}{'' if agree else '   THE SUMS DIFFER'}",
                flush=True,
            )
    return 0 if right else 1


# What CPython does under valgrind: so many calls, on what was made before.
CPYTHON = """
import sys
sys.path.insert(0, sys.argv[1])
import calls
calls.cpython(sys.argv[2], int(sys.argv[3]))(int(sys.argv[4]))
"""


def count_case(asked, case, size):
    """Ours and CPython's, in instructions a call."""
    here = str(pathlib.Path(__file__).resolve().parent)
    with tempfile.TemporaryDirectory() as name:
        folder = pathlib.Path(name)
        both = []
        for words in ([asked.program], [sys.executable, "-c", CPYTHON, here]):
            few, more = (callgrind.counted([*words, case, str(size), str(n)], b"", folder) for n in (2, 2 + COUNTED))
            both.append((more - few) / COUNTED)
        return both


def print_instructions(asked):
    callgrind.check_installed()
    print(f"{'case':17} {'size':>10} {'ours':>12} {'CPython':>12} {'ratio':>7}")
    todo = [(case, size) for case in asked.cases or CASES for size in sizes_of(asked, case)]
    with concurrent.futures.ThreadPoolExecutor(asked.jobs) as pool:
        for (case, size), done in zip(todo, pool.map(lambda one: count_case(asked, *one), todo)):
            ours, theirs = done
            print(f"{case:17} {size or '':>10} {ours:>12,.0f} {theirs:>12,.0f} {ours / theirs:>7.2f}", flush=True)
    return 0


def sizes_of(asked, case):
    if case in NUMBER_CALLS:
        return [0]
    if asked.sizes is not None:
        return asked.sizes
    if asked.instructions:
        return [1_000]
    return [POOL_SIZES[case]] if case in POOL_SIZES else [1_000, 10_000_000]


def main(words=None):
    raw = argparse.RawDescriptionHelpFormatter
    parser = argparse.ArgumentParser(prog="calls.py", description=__doc__, formatter_class=raw)
    parser.add_argument("cases", nargs="*", metavar="CASE", help=f"of {', '.join(CASES)} (all)")
    parser.add_argument("--sizes", type=int, nargs="+", metavar="N",
                        help="of the texts, in characters (1000 10000000), and of the pools, in texts (100000; "
                        "1000000 new ones); 1000 for instructions")
    parser.add_argument("--seconds", type=float, default=0.3, metavar="S", help="that a run takes about (0.3)")
    parser.add_argument("--calls", type=int, metavar="N", help="that a run makes, in place of --seconds")
    parser.add_argument("--runs", type=int, default=3, metavar="N", help="of which the shortest time counts (3)")
    parser.add_argument("--instructions", action="store_true", help="count instructions by valgrind")
    parser.add_argument("--jobs", type=int, default=os.cpu_count(), metavar="N", help="of --instructions, side by side")
    parser.add_argument("--program", default=str(PROGRAM), metavar="PATH", help="the built program")
    asked = parser.parse_args(words)
    for case in asked.cases:
        if case not in CASES:
            parser.error(f"no such case: {case}")
    if not os.access(asked.program, os.X_OK):
        print(f"{asked.program} is not built: cd crates/bench_driver && rt run -- modpow 0 1000", file=sys.stderr)
        return 2
    try:
        return print_instructions(asked) if asked.instructions else print_table(asked)
    except Fault as fault:
        print(f"calls.py: {fault}", file=sys.stderr)
        return 2


if __name__ == "__main__":
    sys.exit(main())
