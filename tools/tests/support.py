"""What the tests share: where the repository and its tools are, and how a tool is run."""
import os
import pathlib
import subprocess
import sys
import unittest

TOOLS = pathlib.Path(__file__).resolve().parent.parent
TOP = TOOLS.parent
EXAMPLES = TOP / "examples"
sys.path.insert(0, str(TOOLS))

import python_regex  # noqa: E402

MISSING = python_regex.what_is_missing()
needs_cpython = unittest.skipIf(MISSING, f"this Python cannot be used: {MISSING}")


def run(tool, *words, stdin=b""):
    """The status, the output and the errors of a tool."""
    done = subprocess.run([sys.executable, str(TOOLS / tool), *words], input=stdin, capture_output=True, timeout=60)
    return done.returncode, done.stdout, done.stderr.decode("utf-8")


def run_into(tool, words, stdin, out):
    done = subprocess.run([sys.executable, str(TOOLS / tool), *words], input=stdin, stdout=out,
                          stderr=subprocess.PIPE, timeout=60)
    return done.returncode, done.stderr.decode("utf-8")


def run_full(tool, *words, stdin=b""):
    """The status and the errors of a tool whose output goes to a full disk."""
    with open("/dev/full", "wb") as full:
        return run_into(tool, words, stdin, full)


def run_closed(tool, *words, stdin=b""):
    """The status and the errors of a tool whose output is a pipe that nobody reads."""
    reader, writer = os.pipe()
    os.close(reader)
    try:
        return run_into(tool, words, stdin, writer)
    finally:
        os.close(writer)
