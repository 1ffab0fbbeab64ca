"""Tokens, requests and answers."""
import unittest

from support import EXAMPLES

import formats


class Tokens(unittest.TestCase):
    def test_a_text_goes_to_its_token_and_back(self):
        for text in ("", "née", "a\nb", "\U0001F600"):
            self.assertEqual(formats.text_of(formats.text_token(text)), text)

    def test_other_words_are_no_token(self):
        for word in ("", "6e", "t6", "t6E", "tff", "i1", "t 6e"):
            with self.assertRaises(formats.FormatError, msg=word):
                formats.text_of(word)

    def test_a_lone_surrogate_has_no_token(self):
        with self.assertRaises(formats.FormatError):
            formats.text_token("\ud800")

    def test_numbers(self):
        self.assertEqual(formats.number_of("0"), 0)
        self.assertEqual(formats.number_of("120"), 120)
        for word in ("", "01", "+1", "-1", "1 ", "٣"):
            with self.assertRaises(formats.FormatError, msg=word):
                formats.number_of(word)


class Requests(unittest.TestCase):
    def test_an_example_is_made(self):
        words = [7, 9, 17, 0, 16, 97, 17, 1, 15, 7, 5, 16, 98, 15, 2, 0, 1]
        made = formats.sub_request("(a)|b", words, 1, ["<", 1, ">"], "ab")
        self.assertEqual(made, (EXAMPLES / "alternatives.request").read_bytes())

    def test_a_list_that_is_none_is_refused(self):
        for items in ([], ["a", 1], [1], ["a", "b", "c"], [1, "a", 2]):
            with self.assertRaises(formats.FormatError, msg=items):
                formats.sub_request("", [1], 2, items, "")

    def test_a_limit_below_0_and_a_long_request_are_refused(self):
        for limit, subject in ((-1, ""), (2**64, ""), (0, "a" * (8 << 20))):
            with self.assertRaises(formats.FormatError, msg=limit):
                formats.sub_request("", [1], 0, [""], subject, limit)


class Answers(unittest.TestCase):
    def test_answers_are_read(self):
        self.assertEqual(formats.read_answer(b"t3c613e3c3e 2\n"), ("text", "<a><>", 2))
        self.assertEqual(formats.read_answer(b"error invalid_code\n"), ("error", "invalid_code"))

    def test_other_bytes_are_no_answer(self):
        for line in (b"", b"t61 1", b"t61\n", b"t61 1\n\n", b"t61 01\n", b"error\n", b"\xff 1\n", b"t61  1\n"):
            with self.assertRaises(formats.FormatError, msg=line):
                formats.read_answer(line)


if __name__ == "__main__":
    unittest.main()
