"""The cases of the bench: that their words are code, and say what their regular expressions say."""
import re
import sys
import unittest

from support import TOP, needs_cpython

sys.path.insert(0, str(TOP / "bench"))

import code_reader  # noqa: E402
import formats  # noqa: E402
import workloads  # noqa: E402


def cases():
    return [*workloads.ten_workloads(300), *workloads.more_workloads(300)]


class Cases(unittest.TestCase):
    def test_there_are_ten(self):
        self.assertEqual(len(list(workloads.ten_workloads(300))), 10)

    def test_their_words_spell_trees(self):
        for case in cases():
            with self.subTest(case=case.name):
                code_reader.read(case.words, case.groups)

    @needs_cpython
    def test_their_words_find_what_their_regular_expressions_find(self):
        for case in cases():
            with self.subTest(case=case.name):
                asked = case.template(), case.subject, case.limit
                self.assertEqual(case.engine().subn(*asked), re.compile(case.regex, re.DOTALL).subn(*asked))

    def test_the_frame_has_the_subject(self):
        for case in cases():
            subject = case.frame().decode("ascii").splitlines()[-1]
            self.assertEqual(subject, f"subject {formats.text_token(case.subject)}")


if __name__ == "__main__":
    unittest.main()
