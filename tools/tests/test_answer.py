"""tools/answer.py as it is called."""
import unittest

from support import EXAMPLES, run, run_closed, run_full


class Answer(unittest.TestCase):
    def test_an_answer_is_printed(self):
        self.assertEqual(run("answer.py", stdin=b"t3c613e3c3e 2\n"), (0, b"<a><>\n2 spans were replaced\n", ""))
        self.assertEqual(run("answer.py", stdin=b"t 1\n"), (0, b"\n1 span was replaced\n", ""))
        self.assertEqual(run("answer.py", "--text", stdin=b"tc3a9 0\n"), (0, "é".encode(), ""))
        self.assertEqual(run("answer.py", "--count", str(EXAMPLES / "star.answer")), (0, b"5\n", ""))

    def test_an_error_is_told_in_words(self):
        told = "error invalid_code: the code words, with the number of groups, spell no tree\n"
        self.assertEqual(run("answer.py", stdin=b"error invalid_code\n"), (1, b"", told))

    def test_what_is_no_answer_is_refused(self):
        status, out, errors = run("answer.py", stdin=b"t6\n")
        self.assertEqual((status, out), (2, b""))
        self.assertTrue(errors.startswith("answer.py: no answer:"))
        self.assertEqual(run("answer.py", "there-is-none")[0], 2)
        unknown = "answer.py: no answer: foo is no error of the program\n"
        self.assertEqual(run("answer.py", stdin=b"error foo\n"), (2, b"", unknown))

    def test_nothing_is_told_as_nothing(self):
        status, out, errors = run("answer.py")
        self.assertEqual((status, out), (2, b""))
        self.assertTrue(errors.startswith("answer.py: nothing came: "))

    def test_a_failed_write_is_one_line(self):
        self.assertEqual(run_full("answer.py", stdin=b"t61 1\n"), (2, "answer.py: cannot write: No space left on device\n"))
        self.assertEqual(run_closed("answer.py", stdin=b"t61 1\n"), (2, ""))

    def test_help_has_examples(self):
        status, out, _ = run("answer.py", "--help")
        self.assertEqual(status, 0)
        self.assertIn(b"Examples:", out)


if __name__ == "__main__":
    unittest.main()
