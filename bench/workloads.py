"""What the bench runs: code words, a replacement list and a subject for each case, and CPython's engine on
the same words."""
import pathlib
import re
import sys

TOP = pathlib.Path(__file__).resolve().parent.parent
sys.path.insert(0, str(TOP / "tools"))

import formats  # noqa: E402
import python_regex  # noqa: E402
from opcodes import (  # noqa: E402
    ANY_ALL, ASSERT, BRANCH, CATEGORY, CATEGORY_UNI_DIGIT, CATEGORY_UNI_WORD, FAILURE, GROUPREF, IN, INFO, JUMP,
    LITERAL, MARK, MAX_UNTIL, MAXREPEAT, MIN_REPEAT_ONE, REPEAT, REPEAT_ONE, SUCCESS,
)

# A set with one category, whole.
DIGIT = [IN, 4, CATEGORY, CATEGORY_UNI_DIGIT, FAILURE]
WORD = [IN, 4, CATEGORY, CATEGORY_UNI_WORD, FAILURE]
A_OR_B = [BRANCH, 5, LITERAL, ord("a"), JUMP, 7, 5, LITERAL, ord("b"), JUMP, 2, FAILURE]
SOME_WORDS = [REPEAT_ONE, 9, 1, MAXREPEAT, *WORD, SUCCESS]

FRENCH = (
    "Le cœur a été pressé à l'été dernier, où l'élève zélé répétait déjà ses leçons, là-bas, près de la forêt. "
    "« C'est parfait », dit-elle à sa mère, et l'âne têtu s'arrêta.\n"
)
LOG = "GET /a/17?x=203 HTTP/1.1\n"


class Case:
    """A regular expression, the words for it, a replacement list, a subject, a limit and how many groups
    there are. A list is one literal, or literals with numbers of groups between them."""

    def __init__(self, name, regex, words, items, subject, limit=0, groups=0):
        self.name, self.regex, self.words = name, regex, words
        self.items = [items] if isinstance(items, str) else items
        self.subject, self.limit, self.groups = subject, limit, groups

    def request(self):
        return formats.sub_request(self.regex, self.words, self.groups, self.items, self.subject, self.limit)

    def frame(self):
        """A request with the same subject, in which there is next to nothing to search: the empty pattern
        is found once, at the start. What is left is reading, hexadecimal, copying and writing."""
        return formats.sub_request("", [SUCCESS], 0, [""], self.subject, 1)

    def template(self):
        """The list as CPython writes it; no literal here has a backslash."""
        return "".join(item if isinstance(item, str) else rf"\g<{item}>" for item in self.items)

    def engine(self):
        """CPython's engine: on the same words where it knows them, and else on its own."""
        if python_regex.what_is_missing() is None:
            return python_regex.engine(self.words, self.groups)
        return re.compile(self.regex, re.DOTALL)


def filled(piece, count):
    """The piece over and over, up to so many characters."""
    return (piece * (count // len(piece) + 1))[:count]


def ten_workloads(count):
    """One case for each kind of work, on subjects of at most `count` characters."""
    a, b, x, e = ([LITERAL, ord(c)] for c in "abxé")
    a_or_ab = [BRANCH, 5, *a, JUMP, 9, 7, *a, *b, JUMP, 2, FAILURE, SUCCESS]
    doubled = [MARK, 0, *A_OR_B, MARK, 1, GROUPREF, 0, SUCCESS]
    swapped = [MARK, 0, *SOME_WORDS, MARK, 1, LITERAL, ord(" "), MARK, 2, *SOME_WORDS, MARK, 3, SUCCESS]
    tag = [LITERAL, ord("<"), MIN_REPEAT_ONE, 5, 0, MAXREPEAT, ANY_ALL, SUCCESS, LITERAL, ord(">"), SUCCESS]
    long = [REPEAT, 15, 0, MAXREPEAT, *A_OR_B, MAX_UNTIL, SUCCESS]
    star = [REPEAT_ONE, 6, 0, MAXREPEAT, *x, SUCCESS, SUCCESS]
    digits = [REPEAT_ONE, 9, 1, MAXREPEAT, *DIGIT, SUCCESS, SUCCESS]
    yield Case("literal", "a", [*a, SUCCESS], "b", filled("ba", count))
    yield Case("alternatives", "a|ab", a_or_ab, "X", filled("ab", count))
    yield Case("backreference", r"(a|b)\1", doubled, ["<", 1, ">"], filled("abba", count), groups=1)
    yield Case("star", "x*", star, "-", filled("abxd", count // 2))
    yield Case("digits", r"\d+", digits, "#", filled(LOG, count))
    yield Case("one long repeat", "(?:a|b)*", long, "-", filled("ab", min(count, 1_000_000)))
    yield Case("lookbehind", "(?<=a)b", [ASSERT, 5, 1, *a, SUCCESS, *b, SUCCESS], "X", filled("abbb", count))
    yield Case("lazy repeat", "<.*?>", tag, "", filled("<b>bold</b> ", count))
    yield Case("French", "é", [*e, SUCCESS], "e", filled(FRENCH, count * 4 // 5))
    yield Case("two groups", r"(\w+) (\w+)", swapped, ["", 2, " ", 1, ""], filled("two words, ", count), groups=2)


def more_workloads(count):
    """Literal characters and "any character": how often they match, and what is beside them."""
    a, z = ([LITERAL, ord(c), SUCCESS] for c in "az")
    several = [LITERAL, ord("a"), LITERAL, ord("b"), ANY_ALL, LITERAL, ord("c"), SUCCESS]
    with_info = [INFO, 8, 3, 1, 1, 1, 1, ord("a"), 0, *a]
    yield Case("start", "a", a, "b", "aaa", 2)
    yield Case("no match", "z", z, "b", filled("ba", count))
    yield Case("all match", "a", a, "b", filled("a", count))
    yield Case("with info", "a", with_info, "b", filled("ba", count))
    yield Case("four nodes", "ab.c", several, "<>", filled("abxcab", count))
    yield Case("four, near misses", "ab.c", several, "<>", filled("abxabx", count))
    yield Case("any unit", ".", [ANY_ALL, SUCCESS], "x", filled("ab", count))
    yield Case("empty tree", "", [SUCCESS], "-", filled("ab", count // 2))
