"""The plain reading, against answers that CPython's own documents and the examples give."""
import unittest

from support import EXAMPLES, needs_cpython

import code_reader
import formats
import plain_match
import python_regex


def fields_of(path):
    return dict(line.partition(" ")[::2] for line in path.read_text("ascii").splitlines())


class Examples(unittest.TestCase):
    def test_each_example_has_the_stored_answer(self):
        for path in sorted(EXAMPLES.glob("*.request")):
            status = path.with_suffix(".status")
            if status.exists() or path.stem == "many_attempts":  # no answer, or too many attempts for a list
                continue
            with self.subTest(example=path.stem):
                fields = fields_of(path)
                words = [int(word) for word in fields["code"].split()]
                items = [formats.text_of(t) if t[0] == "t" else int(t[1:]) for t in fields["list"].split(" ")]
                body = code_reader.read(words, int(fields["groups"]))
                subject, limit = formats.text_of(fields["subject"]), int(fields["limit"])
                made = plain_match.substituted(body, subject, items, limit)
                self.assertEqual(("text", *made), formats.read_answer(path.with_suffix(".answer").read_bytes()))


@needs_cpython
class Patterns(unittest.TestCase):
    def test_patterns_as_cpython_finds_them(self):
        rows = [("(a)?(?(1)b|c)", "ab c"), ("a{2,3}?", "aaaaa"), ("(?<!a)b", "abb"), ("x*", "axx"),
                ("(?>a|ab)c", "acabc"), ("a*+a", "aaa"), (r"\b", "ab cd"), ("$", "a\n"), ("(?:(a)|b)*", "ab")]
        for pattern, subject in rows:
            with self.subTest(pattern=pattern):
                compiled = python_regex.Compiled(pattern)
                made = plain_match.substituted(compiled.body, subject, ["[", 0, "]"])
                self.assertEqual(made, compiled.engine().subn(r"[\g<0>]", subject))


if __name__ == "__main__":
    unittest.main()
