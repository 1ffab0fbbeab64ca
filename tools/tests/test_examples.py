"""The stored answers of the examples, against CPython's engine on the same words."""
import re
import unittest

from support import EXAMPLES, needs_cpython

import formats
import python_regex


def answered():
    """The requests of the examples that have an answer."""
    return [path for path in sorted(EXAMPLES.glob("*.request")) if not path.with_suffix(".status").exists()]


def fields_of(path):
    return dict(line.partition(" ")[::2] for line in path.read_text("ascii").splitlines())


class Examples(unittest.TestCase):
    def test_there_are_enough(self):
        self.assertGreaterEqual(len(answered()), 8)

    def test_the_table_names_each(self):
        page = (EXAMPLES / "README.md").read_text(encoding="utf-8")
        named = set(re.findall(r"^\| `([a-z_]+)` \|", page, re.MULTILINE))
        self.assertEqual(named, {path.stem for path in EXAMPLES.glob("*.request")})

    @needs_cpython
    def test_cpython_gives_the_same_answers(self):
        for path in answered():
            with self.subTest(example=path.stem):
                fields = fields_of(path)
                words = [int(word) for word in fields["code"].split(" ")]
                engine = python_regex.engine(words, int(fields["groups"]))
                items = [formats.text_of(t) if t[0] == "t" else int(t[1:]) for t in fields["list"].split(" ")]

                def filled(match):
                    return "".join(item if isinstance(item, str) else match[item] or "" for item in items)

                made = engine.subn(filled, formats.text_of(fields["subject"]), int(fields["limit"]))
                self.assertEqual(("text", *made), formats.read_answer(path.with_suffix(".answer").read_bytes()))


if __name__ == "__main__":
    unittest.main()
