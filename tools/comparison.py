"""One case of a comparison: what the program, CPython's engine and the plain reading of the rules make of
it, and how these compare."""
import signal
import subprocess

import differences
import formats
import plain_match
import python_regex

SECONDS = 10  # for one search, here or there
SAME, UNKNOWN, LONG = "agree", "not compared", "takes too long"
INVALID = "status 1: error invalid_code"


class Case:
    """Code words with their tree, a list, a subject and a limit."""

    def __init__(self, name, body, words, groups, items, subject, limit=0):
        self.name, self.body, self.words, self.groups = name, body, words, groups
        self.items, self.subject, self.limit = items, subject, limit

    def request(self):
        return formats.sub_request("", self.words, self.groups, self.items, self.subject, self.limit)

    def __str__(self):
        words = " ".join(map(str, self.words))
        return f"{self.name}: code {words}; groups {self.groups}; subject {self.subject!r}; limit {self.limit}"


def by_program(program, case):
    """What the program answers: the text and the count, or why there is neither."""
    try:
        run = subprocess.run([program, "sub"], input=case.request(), stdout=subprocess.PIPE, timeout=SECONDS)
    except subprocess.TimeoutExpired:
        return LONG
    if run.returncode != 0:
        return f"status {run.returncode}: {run.stdout.decode('ascii', 'replace').rstrip()}"
    try:
        return formats.read_answer(run.stdout)[1:]
    except formats.FormatError as fault:
        return f"no answer: {fault}"


class Late(Exception):
    pass


def ring(_signal, _frame):
    raise Late


def by_cpython(case):
    """The same of CPython's engine."""
    def filled(match):
        return "".join(item if isinstance(item, str) else match[item] or "" for item in case.items)

    signal.signal(signal.SIGALRM, ring)
    signal.alarm(SECONDS)
    try:
        return python_regex.engine(case.words, case.groups).subn(filled, case.subject, case.limit)
    except Late:
        return LONG
    except (RuntimeError, SystemError) as fault:
        return type(fault).__name__
    finally:
        signal.alarm(0)


def by_rules(case):
    """The same of the plain reading."""
    if case.body is None:
        return INVALID
    try:
        return plain_match.substituted(case.body, case.subject, case.items, case.limit)
    except plain_match.TooLong:
        return LONG


def compared(program, case):
    """How the two compare: a name, and what each answers."""
    ours, theirs = by_program(program, case), by_cpython(case)
    if ours == theirs:
        return UNKNOWN if ours == LONG else SAME, ours, theirs
    if by_rules(case) != ours:
        return "AGAINST THE RULES", ours, theirs
    return differences.reason(case.body, case.subject) or "NOT LISTED", ours, theirs
