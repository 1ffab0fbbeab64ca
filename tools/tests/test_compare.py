"""What tools/compare_cpython.py makes of an answer, with answers in the place of the program's."""
import unittest
from unittest import mock

from support import TOP, needs_cpython, run

import code_reader
import comparison
import differences
import opcodes


def case_of(words, subject, groups=0, items=("<", 0, ">")):
    body = code_reader.read(words, groups)
    return comparison.Case("test", body, words, groups, list(items), subject)


def verdict(case, answer):
    with mock.patch.object(comparison, "by_program", lambda program, case: answer):
        return comparison.compared("", case)[0]


@needs_cpython
class Compared(unittest.TestCase):
    def test_the_same_answer_agrees(self):
        self.assertEqual(verdict(case_of([16, 97, 1], "aa"), ("<a><a>", 2)), "agree")

    def test_a_wrong_answer_is_against_the_rules(self):
        for answer in (("<a>a", 1), ("<a><a>", 1), "status 6: ", "status -11: ", "takes too long"):
            self.assertEqual(verdict(case_of([16, 97, 1], "aa"), answer), "AGAINST THE RULES")

    def test_a_listed_difference_has_its_name(self):
        rows = [
            ("empty_boundary", case_of([6, 4, 1], ""), ("<>", 1)),
            ("possessive_iterations", case_of([28, 10, 2, 9, 24, 6, 1, 2, 16, 97, 1, 1, 1], "aa"), ("<aa>", 1)),
            ("group_twice", case_of([17, 0, 16, 97, 17, 0, 16, 98, 17, 1, 17, 1, 1], "ab", 1, ("", 1, "")), ("ab", 1)),
        ]
        for name, case, answer in rows:
            with self.subTest(name=name):
                self.assertEqual(verdict(case, answer), name)

    def test_groups_are_looked_at(self):
        test = ("exists", 1, [("lit", 97)], [("lit", 98)])
        inside = [("repeat", "greedy", False, 0, opcodes.MAXREPEAT, [("group", 1, [test]), ("lit", 120)])]
        self.assertEqual(differences.reason(inside, "bxax"), "group_in_itself")
        self.assertIsNone(differences.reason([("group", 1, []), test], "bxax"))
        self.assertEqual(differences.reason([("group", 2, []), ("group", 1, [])], "a"), "group_order")

    def test_a_difference_that_is_not_listed_is_told(self):
        case = case_of([16, 97, 1], "a")
        with mock.patch.object(comparison, "by_cpython", lambda case: ("a", 0)):
            self.assertEqual(verdict(case, ("<a>", 1)), "NOT LISTED")

    def test_words_that_spell_no_tree_have_no_answer(self):
        case = comparison.Case("test", None, [16, 97], 0, [""], "")
        self.assertEqual(comparison.by_rules(case), "status 1: error invalid_code")


class Page(unittest.TestCase):
    def test_each_name_is_in_the_documents(self):
        page = (TOP / "docs" / "DIFFERENCES.md").read_text(encoding="utf-8")
        for name in (*differences.REASONS, *differences.REASONS_OF_CHARACTERS):
            self.assertIn(f"`{name}`", page)


class Command(unittest.TestCase):
    def test_without_a_program_it_is_left_out_or_cannot_run(self):
        self.assertEqual(run("compare_cpython.py", "--program", "there-is-none")[:2], (2, b""))
        status, out, errors = run("compare_cpython.py", "--program", "there-is-none", "--or-skip")
        self.assertEqual((status, out), (0, b""))
        self.assertIn("left out: ", errors)

    def test_help_has_examples(self):
        status, out, _ = run("compare_cpython.py", "--help")
        self.assertEqual(status, 0)
        self.assertIn(b"Examples:", out)


if __name__ == "__main__":
    unittest.main()
