"""tools/request.py as it is called."""
import unittest

from support import EXAMPLES, needs_cpython, run, run_closed, run_full

import formats


@needs_cpython
class Request(unittest.TestCase):
    def request(self, *words, stdin=b""):
        status, out, errors = run("request.py", "sub", *words, stdin=stdin)
        self.assertEqual((status, errors), (0, ""))
        return dict(line.split(" ", 1) for line in out.decode("ascii").splitlines())

    def error_of(self, *words, stdin=b""):
        status, out, errors = run("request.py", "sub", *words, stdin=stdin)
        self.assertEqual((status, out), (2, b""))
        return errors

    def test_an_example_of_the_repository_comes_out(self):
        status, out, _ = run("request.py", "sub", "ab", "", "--text", "abcabc")
        self.assertEqual((status, out), (0, (EXAMPLES / "info_block.request").read_bytes()))

    def test_a_failed_write_is_one_line(self):
        words = ("request.py", "sub", "a", "", "--text", "a")
        self.assertEqual(run_full(*words), (2, "request.py: cannot write: No space left on device\n"))
        self.assertEqual(run_closed(*words), (2, ""))

    def test_a_replacement_becomes_a_list(self):
        rows = {r"<\1>": "t3c i1 t3e", r"\g<0>": "t i0 t", r"\g<x>\1": "t i1 t i1 t", r"a\n": "t610a", "": "t"}
        for replacement, items in rows.items():
            self.assertEqual(self.request("(?P<x>a)", replacement, "--text", "a")["list"], items)

    def test_flags_change_the_words(self):
        self.assertTrue(self.request(".", "", "--text", "", "--flags", "s")["code"].endswith(" 3 1"))
        self.assertTrue(self.request("^", "", "--text", "", "--flags", "m")["code"].endswith(" 6 1 1"))

    def test_a_file_is_read_as_it_is(self):
        given = "é\r\n".encode()
        self.assertEqual(self.request("a", "", "--file", "-", stdin=given)["subject"], formats.text_token("é\r\n"))

    def test_what_the_grammar_leaves_out_has_no_request(self):
        self.assertIn("IGNORECASE", self.error_of("(?i)a", "", "--text", ""))
        self.assertIn("IGNORECASE", self.error_of("a", "", "--text", "", "--flags", "i"))
        self.assertIn("ignores case", self.error_of("(?i:a)b", "", "--text", ""))
        self.assertIn("LOCALE", self.error_of("a", "", "--text", "", "--flags", "L"))

    def test_other_faults_are_told(self):
        self.assertIn("does not compile the pattern: missing )", self.error_of("(", "", "--text", ""))
        self.assertIn("invalid group reference 1", self.error_of("a", r"\1", "--text", ""))
        self.assertIn("unknown group name 'x'", self.error_of("a", r"\g<x>", "--text", ""))
        self.assertIn("the limit is", self.error_of("a", "", "--text", "", "--limit", "-1"))
        self.assertIn("is not UTF-8", self.error_of("a", "", "--file", "-", stdin=b"a\xff"))
        self.assertIn("No such file", self.error_of("a", "", "--file", "there-is-none"))
        self.assertIn("no flag 'q'", self.error_of("a", "", "--text", "", "--flags", "q"))

    def test_help_has_examples(self):
        for words in (["--help"], ["sub", "--help"]):
            status, out, _ = run("request.py", *words)
            self.assertEqual(status, 0)
            self.assertIn(b"Examples:", out)


if __name__ == "__main__":
    unittest.main()
