#!/usr/bin/env python3
r"""Prints an answer of sre_program for a reader.

    python3 tools/answer.py [--text | --count] [FILE]

Without a FILE the answer is read from standard input. An answer is printed as its text, a line feed, and
a line that says how many spans were replaced; with --text as its text alone, byte for byte; with --count
as the number alone. An error is a line on standard error that says in words what its name means.

Examples:

    crates/sre_program/out/sre_program sub < examples/star.request | python3 tools/answer.py
    python3 tools/answer.py --text examples/digits.answer
    printf 'error invalid_code\n' | python3 tools/answer.py

Ends with 0, with 1 where the answer is an error, and with 2 where the bytes are no answer or
the output cannot be written. Where the reader has closed the pipe it ends with 2 and no line.
"""
import argparse
import sys

import formats
import output

# What each name of an error means that the program can answer.
ERRORS = {
    "invalid_code": "the code words, with the number of groups, spell no tree",
}


NOTHING = ("nothing came: the program ended without an answer; its status says why "
           "(README.md, 'Requests, statuses and limits')")


def answer_of(given):
    """The answer that bytes are; of no bytes, and of an error that the program cannot answer, a fault."""
    if not given:
        raise formats.FormatError(NOTHING)
    try:
        answer = formats.read_answer(given)
    except formats.FormatError as fault:
        raise formats.FormatError(f"no answer: {fault}") from fault
    if answer[0] == "error" and answer[1] not in ERRORS:
        raise formats.FormatError(f"no answer: {answer[1]} is no error of the program")
    return answer


def printed(answer, form):
    """The bytes that an answer is printed as."""
    _, text, count = answer
    spans = "1 span was replaced" if count == 1 else f"{count} spans were replaced"
    forms = {"text": text, "count": f"{count}\n", "both": f"{text}\n{spans}\n"}
    return forms[form].encode("utf-8")


def main(words=None):
    raw = argparse.RawDescriptionHelpFormatter
    parser = argparse.ArgumentParser(prog="answer.py", description=__doc__, formatter_class=raw)
    either = parser.add_mutually_exclusive_group()
    either.add_argument("--text", dest="form", action="store_const", const="text", help="the text alone")
    either.add_argument("--count", dest="form", action="store_const", const="count", help="the number alone")
    parser.add_argument("file", nargs="?", metavar="FILE", help="the answer; standard input where it is left out")
    asked = parser.parse_args(words)
    try:
        answer = answer_of(bytes_of(asked.file))
    except formats.FormatError as fault:
        print(f"answer.py: {fault}", file=sys.stderr)
        return 2
    except OSError as fault:
        print(f"answer.py: {fault.filename}: {fault.strerror}", file=sys.stderr)
        return 2
    if answer[0] == "error":
        print(f"error {answer[1]}: {ERRORS[answer[1]]}", file=sys.stderr)
        return 1
    return output.write("answer.py", printed(answer, asked.form or "both"))


def bytes_of(path):
    if path is None:
        return sys.stdin.buffer.read()
    with open(path, "rb") as source:
        return source.read()


if __name__ == "__main__":
    sys.exit(main())
