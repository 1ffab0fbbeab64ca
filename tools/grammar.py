"""The grammar of code words, written after the tables of docs/FORMATS.md: the words that spell a tree. The other way, from words to their tree, is in code_reader.py.

A body is a list of nodes, and a node a tuple with its name first:

    ("fail",)  ("any",)  ("any_all",)  ("lit", c)  ("not_lit", c)  ("at", k)  ("ref", g)
    ("set", negated, items)            ("group", g, body)          ("exists", g, yes, no or None)
    ("branch", [body, ..])             ("repeat", kind, wide, lo, hi, body)
    ("atomic", body)                   ("look", positive, back, body)

A kind is "greedy", "lazy" or "possessive", and `wide` is true for the form of a repeat whose body is
one unit wide. An item is ("lit", c), ("span", lo, hi), ("category", k), ("bits", words) or
("blocks", map, blocks), with lists of words.
"""

import opcodes
from opcodes import (
    ANY, ANY_ALL, ASSERT, ASSERT_NOT, AT, ATOMIC_GROUP, BIGCHARSET, BRANCH, CATEGORY, CHARSET, FAILURE, GROUPREF,
    GROUPREF_EXISTS, IN, JUMP, LITERAL, MARK, MAX_UNTIL, MIN_REPEAT_ONE, MIN_UNTIL, NEGATE, NOT_LITERAL,
    POSSESSIVE_REPEAT, POSSESSIVE_REPEAT_ONE, RANGE, REPEAT, REPEAT_ONE, SUCCESS,
)

CATEGORIES = tuple(opcodes.CATEGORIES.values())
PLACES = tuple(opcodes.ANCHORS.values())
ONE_WIDE = ("any", "any_all", "lit", "not_lit", "set")

# The word that begins a repeat, and the word after its body.
BODY_WORDS = {("greedy", False): (REPEAT, MAX_UNTIL), ("lazy", False): (REPEAT, MIN_UNTIL),
              ("possessive", False): (POSSESSIVE_REPEAT, SUCCESS), ("greedy", True): (REPEAT_ONE, SUCCESS),
              ("lazy", True): (MIN_REPEAT_ONE, SUCCESS), ("possessive", True): (POSSESSIVE_REPEAT_ONE, SUCCESS)}


def spell(body):
    """The words of a whole code: those of the nodes, and the last word."""
    return [*body_words(body), SUCCESS]


def body_words(body):
    return [word for node in body for word in node_words(node)]


def node_words(node):
    name, *rest = node
    simple = {"fail": FAILURE, "any": ANY, "any_all": ANY_ALL, "lit": LITERAL, "not_lit": NOT_LITERAL, "at": AT}
    if name in simple:
        return [simple[name], *rest]
    return {"set": set_words, "group": group_words, "ref": lambda g: [GROUPREF, g - 1],
            "exists": exists_words, "branch": branch_words, "repeat": repeat_words,
            "atomic": atomic_words, "look": look_words}[name](*rest)


def set_words(negated, items):
    inner = [NEGATE] * negated + [word for item in items for word in item_words(item)]
    return [IN, len(inner) + 2, *inner, FAILURE]


def item_words(item):
    name, *rest = item
    if name == "blocks":
        table, blocks = rest
        return [BIGCHARSET, len(blocks) // 8, *table, *blocks]
    if name == "bits":
        return [CHARSET, *rest[0]]
    return [{"lit": LITERAL, "span": RANGE, "category": CATEGORY}[name], *rest]


def group_words(g, body):
    return [MARK, 2 * (g - 1), *body_words(body), MARK, 2 * (g - 1) + 1]


def exists_words(g, yes, no):
    first = body_words(yes)
    if no is None:
        return [GROUPREF_EXISTS, g - 1, len(first) + 2, *first]
    second = body_words(no)
    return [GROUPREF_EXISTS, g - 1, len(first) + 4, *first, JUMP, len(second) + 1, *second]


def branch_words(bodies):
    spelled = [body_words(body) for body in bodies]
    words, left = [BRANCH], sum(len(body) + 3 for body in spelled) + 1
    for body in spelled:
        left -= len(body) + 3
        words += [len(body) + 3, *body, JUMP, left + 1]
    return [*words, FAILURE]


def repeat_words(kind, wide, lo, hi, body):
    first, last = BODY_WORDS[kind, wide]
    inner = body_words(body)
    return [first, len(inner) + (4 if wide else 3), lo, hi, *inner, last]


def atomic_words(body):
    inner = body_words(body)
    return [ATOMIC_GROUP, len(inner) + 2, *inner, SUCCESS]


def look_words(positive, back, body):
    inner = body_words(body)
    return [ASSERT if positive else ASSERT_NOT, len(inner) + 3, back, *inner, SUCCESS]
