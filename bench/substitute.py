#!/usr/bin/env python3
"""Times `sre_program sub` on large requests beside CPython's engine on the same code words.

    python3 bench/substitute.py [--characters N] [--runs N] [--more] [--program PATH]
    python3 bench/substitute.py --instructions [--characters N] [--jobs N] [--program PATH]

Build the program first: `cd crates/sre_program && rt run -- sub < stdin`.

`ours` is the whole process: start, reading the request, taking it apart, searching, joining, and writing
the answer. `frame` is the same process on a request with the same subject in which one empty span is found
at the front and no other is asked for: it is what reading, hexadecimal, copying and writing take.
`CPython` is the call of `subn` alone, on a subject that lies in memory already. `search` is ours without
the frame by CPython's, and `whole` is ours by CPython's.

With --instructions the same is counted in instructions, by valgrind, on a smaller subject. CPython's are
those of a process with the call less those of a process without it.

Examples:

    python3 bench/substitute.py
    python3 bench/substitute.py --more --runs 5
    python3 bench/substitute.py --instructions --characters 20000

Ends with 0 where all results agreed, with 1 where some did not, and with 2 where it could not run.
"""
import argparse
import concurrent.futures
import json
import os
import pathlib
import subprocess
import sys
import tempfile
import time

import callgrind
import workloads
from callgrind import Fault, counted

PROGRAM = workloads.TOP / "crates" / "sre_program" / "out" / "sre_program"

# A process of its own starts the program, so that the peak of memory is the program's and not that
# of this script.
STARTER = """
import json, os, subprocess, sys, time
program, request, answer = sys.argv[1:]
with open(request, "rb") as source, open(answer, "wb") as sink:
    begin = time.perf_counter()
    run = subprocess.Popen([program, "sub"], stdin=source, stdout=sink)
    _, status, used = os.wait4(run.pid, 0)
    end = time.perf_counter()
print(json.dumps([os.waitstatus_to_exitcode(status), end - begin, used.ru_maxrss]))
"""

# What CPython does under valgrind; with "idle" all but the call.
CPYTHON = """
import sys
sys.path.insert(0, sys.argv[1])
import workloads
case = next(c for c in workloads.ten_workloads(int(sys.argv[2])) if c.name == sys.argv[3])
engine, template = case.engine(), case.template()
engine.subn(template, "")
if sys.argv[4] == "call":
    engine.subn(template, case.subject, case.limit)
"""


def run_ours(program, request, answer):
    words = [sys.executable, "-c", STARTER, program, str(request), str(answer)]
    status, seconds, kilobytes = json.loads(subprocess.run(words, stdout=subprocess.PIPE, check=True).stdout)
    if status != 0:
        raise Fault(f"the program ended with status {status}")
    return seconds, kilobytes


def time_ours(program, made, folder, runs):
    """The shortest time of so many runs, the peak of memory in kilobytes, and the answer."""
    request, answer = folder / "request", folder / "answer"
    request.write_bytes(made)
    timed = [run_ours(program, request, answer) for _ in range(runs)]
    return min(t for t, _ in timed), max(k for _, k in timed), answer.read_bytes()


def time_cpython(case, runs):
    engine, template, times = case.engine(), case.template(), []
    for _ in range(runs):
        begin = time.perf_counter()
        text, number = engine.subn(template, case.subject, case.limit)
        times.append(time.perf_counter() - begin)
    return min(times), f"{workloads.formats.text_token(text)} {number}\n".encode("ascii")


def print_times(asked):
    print(f"{'case':18} {'request':>8} {'ours':>8} {'frame':>8} {'CPython':>8} {'search':>7} {'whole':>7}"
          f" {'a char':>8} {'peak':>7}")
    right, all_cases = True, list(workloads.ten_workloads(asked.characters))
    if asked.more:
        all_cases += workloads.more_workloads(asked.characters)
    with tempfile.TemporaryDirectory() as name:
        folder = pathlib.Path(name)
        for case in all_cases:
            made = case.request()
            ours, peak, answer = time_ours(asked.program, made, folder, asked.runs)
            frame, _, _ = time_ours(asked.program, case.frame(), folder, asked.runs)
            theirs, wanted = time_cpython(case, asked.runs)
            right = right and answer == wanted
            print(
                f"{case.name:18} {len(made) / 1e6:5.1f} MB {ours * 1e3:5.0f} ms {frame * 1e3:5.0f} ms"
                f" {theirs * 1e3:5.0f} ms {(ours - frame) / theirs:7.2f} {ours / theirs:7.2f}"
                f" {(ours - frame) / len(case.subject) * 1e9:5.0f} ns {peak / 1024:4.0f} MB"
                f"{'' if answer == wanted else '   THE RESULTS DIFFER'}",
                flush=True,
            )
    return 0 if right else 1


def count_case(program, characters, case):
    """Ours, the frame and CPython's, in instructions."""
    with tempfile.TemporaryDirectory() as name:
        folder = pathlib.Path(name)
        here = str(pathlib.Path(__file__).resolve().parent)
        ours = counted([program, "sub"], case.request(), folder)
        frame = counted([program, "sub"], case.frame(), folder)
        python = [sys.executable, "-c", CPYTHON, here, str(characters), case.name]
        call, idle = (counted([*python, what], b"", folder) for what in ("call", "idle"))
        return ours, frame, call - idle


def print_instructions(asked):
    callgrind.check_installed()
    print(f"{'case':18} {'ours':>10} {'frame':>10} {'CPython':>10} {'search':>7} {'whole':>7} {'a char':>8}")
    with concurrent.futures.ThreadPoolExecutor(asked.jobs) as pool:
        listed = list(workloads.ten_workloads(asked.characters))
        todo = [pool.submit(count_case, asked.program, asked.characters, case) for case in listed]
        for case, done in zip(listed, todo):
            ours, frame, theirs = done.result()
            print(
                f"{case.name:18} {ours / 1e6:8.2f} M {frame / 1e6:8.2f} M {theirs / 1e6:8.2f} M"
                f" {(ours - frame) / theirs:7.2f} {ours / theirs:7.2f} {(ours - frame) / len(case.subject):8.0f}",
                flush=True,
            )
    return 0


def main(words=None):
    raw = argparse.RawDescriptionHelpFormatter
    parser = argparse.ArgumentParser(prog="substitute.py", description=__doc__, formatter_class=raw)
    parser.add_argument("--characters", type=int, metavar="N",
                        help="of the longest subject (5000000; 20000 for instructions)")
    parser.add_argument("--runs", type=int, default=3, metavar="N", help="of which the shortest time counts (3)")
    parser.add_argument("--more", action="store_true", help="also the cases of literal characters")
    parser.add_argument("--instructions", action="store_true", help="count instructions by valgrind")
    parser.add_argument("--jobs", type=int, default=os.cpu_count(), metavar="N", help="of --instructions, side by side")
    parser.add_argument("--program", default=str(PROGRAM), metavar="PATH", help="the built program")
    asked = parser.parse_args(words)
    if not os.access(asked.program, os.X_OK):
        print(f"{asked.program} is not built: cd crates/sre_program && rt run -- sub < stdin", file=sys.stderr)
        return 2
    if asked.characters is None:
        asked.characters = 20_000 if asked.instructions else 5_000_000
    try:
        return print_instructions(asked) if asked.instructions else print_times(asked)
    except (Fault, workloads.formats.FormatError) as fault:
        print(f"substitute.py: {fault}", file=sys.stderr)
        return 2


if __name__ == "__main__":
    sys.exit(main())
