"""How many instructions a process takes, counted by valgrind."""
import os
import re
import shutil
import subprocess


class Fault(Exception):
    """What is to be run could not be run as the bench needs it."""


def check_installed():
    if shutil.which("valgrind") is None:
        raise Fault("valgrind is not installed")


def counted(words, stdin, folder):
    """The instructions of a process with these words of the command line."""
    out = folder / "callgrind.out"
    tool = ["valgrind", "--tool=callgrind", f"--callgrind-out-file={out}"]
    env = {**os.environ, "PYTHONHASHSEED": "0"}
    run = subprocess.run([*tool, *words], input=stdin, capture_output=True, env=env)
    found = re.search(rb"Collected : (\d+)", run.stderr)
    if run.returncode != 0 or not found:
        raise Fault(f"valgrind: {run.stderr.decode('utf-8', 'replace')[-300:]}")
    return int(found[1])
