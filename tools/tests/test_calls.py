"""The bench of calls: its texts, its sums, and a small run of it where the program is built."""
import os
import subprocess
import sys
import unittest

from support import TOP

BENCH = TOP / "bench"
sys.path.insert(0, str(BENCH))

import calls  # noqa: E402

needs_program = unittest.skipUnless(os.access(calls.PROGRAM, os.X_OK), "crates/bench_driver is not built")


def run(*words):
    """The status and the output of the bench, with so few calls that no clock matters."""
    tool = [sys.executable, str(BENCH / "calls.py"), "--calls", "5", "--runs", "1"]
    done = subprocess.run([*tool, *words], capture_output=True, text=True, timeout=120)
    return done.returncode, done.stdout


class Texts(unittest.TestCase):
    def test_a_block_has_a_hundred_characters_and_its_word_once(self):
        for block, word, other, last in calls.WORDS.values():
            self.assertEqual([len(block), block.count(word), block.count(other), block.count(last)], [100, 1, 0, 0])

    def test_the_stored_run_prints_the_sum_of_cpython(self):
        crate = TOP / "crates" / "bench_driver"
        case, size, times = (crate / "args").read_text("ascii").split()
        total = calls.cpython(case, int(size))(int(times))
        self.assertEqual((crate / "stdout").read_text("ascii"), f"{case} {times} {total}\n")


@needs_program
class Runs(unittest.TestCase):
    def test_all_sums_agree_on_small_texts_on_numbers_and_on_small_pools(self):
        for sizes in (["0", "3"], ["120", "1000"]):
            status, table = run("--sizes", *sizes)
            self.assertEqual(status, 0, table)
            self.assertEqual(len(table.splitlines()), 1 + 36 * 2 + 4 + 3 * 2)

    def test_words_that_are_no_request_are_refused(self):
        for words in ([], ["modpow"], ["find", "1", "1"], ["find_ascii", "-1", "1"], ["repr", "0", "1", "2"],
                      ["repr", b"\xff", "1"]):
            done = subprocess.run([calls.PROGRAM, *words], capture_output=True)
            self.assertEqual([done.returncode, done.stdout, done.stderr.count(b"\n")], [2, b"", 1], words)


if __name__ == "__main__":
    unittest.main()
