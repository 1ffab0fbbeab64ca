"""The tables of calls: their form, what is in them, and that the stored ones are as they are made."""
import collections
import re
import unittest

from support import TOP, needs_cpython, run

import conformance_tables
import number_calls

DATA = TOP / "crates" / "conformance" / "data"
TOKEN = re.compile(r"t([0-9a-f]{2})*|b([0-9a-f]{2})*|i-?(0|[1-9][0-9]*)|l[0-9]+|[nh-]|big|little")


def stored():
    for path in sorted(DATA.glob("*.table")):
        for line in path.read_text("ascii").splitlines():
            call, _, answer = line.partition(" = ")
            yield call.split(" "), answer.split(" ")


class Tables(unittest.TestCase):
    def test_each_line_is_of_the_form(self):
        for (_, *arguments), answer in stored():
            tokens = arguments if answer[0] == "error" else [*arguments, *answer]
            for token in tokens:
                self.assertRegex(token, f"^(?:{TOKEN.pattern})$")
            self.assertEqual(len(answer) == 2 and answer[0] == "error", answer[0] == "error")

    def test_each_call_has_both_endings_where_it_can_fail(self):
        endings = collections.defaultdict(set)
        for (name, *_), answer in stored():
            endings[name].add(answer[1] if answer[0] == "error" else "answered")
        self.assertEqual(len(endings), len({name for calls in conformance_tables.TABLES.values() for name in calls}))
        wanted = {
            "index": {"substring_not_found"}, "split": {"empty_separator"}, "rpartition": {"empty_separator"},
            "getitem_by_index": {"index_out_of_range"}, "getitem_by_slice": {"step_zero"},
            "floordiv": {"zero_division", "int_too_wide"}, "lshift": {"negative_shift", "int_too_wide"},
            "pow": {"modulus_zero", "not_invertible", "not_carried", "int_too_wide"},
            "round": {"int_too_wide"}, "rdivmod": {"zero_division", "int_too_wide"}, "neg": {"int_too_wide"},
            "abs": {"int_too_wide"}, "mod_": {"zero_division"}, "from_bytes": {"int_too_wide"}, "invert": set(),
            "to_bytes": {"negative_to_unsigned", "int_too_big"},
            "try_int_radix": {"bad_base", "invalid_literal", "int_too_wide"},
            "modpow": {"modulus_zero", "not_invertible"}, "bool": set(), "concat_in_place": set(),
        }
        for name, errors in wanted.items():
            self.assertEqual(endings[name], errors | {"answered"}, name)

    def test_each_is_small(self):
        for path in DATA.glob("*.table"):
            self.assertLess(path.stat().st_size, 300_000)

    @needs_cpython
    def test_the_stored_tables_are_as_they_are_made(self):
        self.assertEqual(run("conformance_tables.py", "--check"), (0, b"", ""))

    @needs_cpython
    def test_the_stored_values_are_as_they_are_printed(self):
        self.assertEqual(run("printed_values.py", "--check"), (0, b"", ""))

    def test_no_answer_is_past_128_bits(self):
        for _, answer in stored():
            for token in answer:
                if re.fullmatch(r"i-?[0-9]+", token):
                    self.assertTrue(number_calls.LEAST <= int(token[1:]) <= number_calls.MOST)

    def test_answers_that_are_not_cpythons_are_listed(self):
        lines = (DATA / "not_cpythons.txt").read_text("ascii").splitlines()
        listed = {tuple(line.split(":")[0].split(" ")) for line in lines}
        found = set()
        for path in DATA.glob("*.table"):
            for line in path.read_text("ascii").splitlines():
                if line.endswith((" = error int_too_wide", " = error not_carried")):
                    found.add((path.name, line.split(" ")[0]))
        self.assertEqual(listed, found)

    def test_the_stored_output_says_that_all_agree(self):
        path = DATA.parent / "stdout"
        if not path.exists():
            self.skipTest("the program conformance is not there")
        wanted, total = [], 0
        for table in conformance_tables.TABLES:
            lines = (DATA / f"{table}.table").read_text("ascii").splitlines()
            counts = collections.Counter(line.partition(" ")[0] for line in lines)
            wanted += [f"{table}.table", *(f"  {name} {n} of {n}" for name, n in counts.items())]
            total += len(lines)
        self.assertEqual(path.read_text("ascii").splitlines(), [*wanted, f"{total} of {total} calls agree"])

    @needs_cpython
    def test_powers_by_parity_are_those_of_small_exponents(self):
        for base in (-1, 0, 1):
            for exponent in range(0, 9):
                self.assertEqual(number_calls.raised(base, exponent), number_calls.kept(base**exponent))


if __name__ == "__main__":
    unittest.main()
