"""The grammar of code words, against the tables of docs/FORMATS.md and against CPython's compiler."""
import random
import re
import unittest

from support import TOP, needs_cpython

import code_reader
import grammar
import python_regex
import random_codes

# The last table of the page: words, and the pattern that they are or why they spell no tree.
ROW = re.compile(r"^\| (?:`([0-9 ]+)`|\(no words\)) \| (.+) \|$")

# Of these CPython makes a set of two characters, or takes out what the alternatives begin with.
SHORTENED = ("a|ab", "(?:a|b)*", r"(a|b)\1")


def rows_of_the_page():
    page = (TOP / "docs" / "FORMATS.md").read_text(encoding="utf-8")
    table = page.split("### Some lists of words")[1].split("\n\nThe nodes, items")[0]
    for line in table.splitlines():
        row = ROW.match(line)
        if row:
            yield [int(word) for word in (row[1] or "").split()], row[2].replace(r"\|", "|")


class Page(unittest.TestCase):
    def test_there_are_rows(self):
        self.assertGreater(len(list(rows_of_the_page())), 20)

    def test_its_words_spell_a_tree_or_none_as_it_says(self):
        for words, what in rows_of_the_page():
            with self.subTest(words=words):
                if what.startswith("no tree"):
                    with self.assertRaises(code_reader.NoTree):
                        code_reader.read(words, 1)
                else:
                    body = code_reader.read(words, 1)
                    block = 1 + words[1] if words[0] == 14 else 0
                    self.assertEqual(grammar.spell(body), words[block:])

    @needs_cpython
    def test_cpython_compiles_its_patterns_to_the_same_trees(self):
        for words, what in rows_of_the_page():
            pattern = re.match(r"^`([^`]+)`(, for one group)?$", what)
            if pattern and pattern[1] not in SHORTENED:
                with self.subTest(pattern=pattern[1]):
                    self.assertEqual(python_regex.Compiled(pattern[1]).body, code_reader.read(words, 1))


class Reading(unittest.TestCase):
    def test_the_words_of_a_tree_are_read_as_that_tree(self):
        for number in range(500):
            body, groups, *_ = random_codes.case(random.Random(number), number % 2 == 0)
            self.assertEqual(code_reader.read(grammar.spell(body), groups), body)

    def test_no_word_can_be_left_out_or_added(self):
        chance = random.Random(5)
        for number in range(200):
            body, groups, *_ = random_codes.case(random.Random(number), True)
            words = grammar.spell(body)
            with self.assertRaises(code_reader.NoTree):
                code_reader.read([*words, chance.choice((0, 1, 2, 16))], groups)
            with self.assertRaises(code_reader.NoTree):
                code_reader.read(words[:-1], groups)

    def test_the_depth_is_bounded(self):
        for depth, good in ((200, True), (201, False)):
            body = [("any",)]
            for _ in range(depth):
                body = [("atomic", body)]
            if good:
                code_reader.read(grammar.spell(body), 0)
            else:
                self.assertRaises(code_reader.NoTree, code_reader.read, grammar.spell(body), 0)

    def test_a_fault_names_its_word(self):
        with self.assertRaisesRegex(code_reader.NoTree, "at word 2: no node begins with 40, which ignores case"):
            code_reader.read([16, 97, 40, 97, 1], 0)


if __name__ == "__main__":
    unittest.main()
