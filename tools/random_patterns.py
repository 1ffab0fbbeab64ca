"""Patterns of Python made by chance. Some CPython does not compile, as a lookbehind without a fixed width."""

LETTERS = "aaabbc"
DEPTH = 3
PLAIN = ["a", "b", "ab", "ba", "aab", ".", r"\w", r"\d", r"\s", "[ab]", "[^a]", "[a-c]", r"[^\w]", "[éa]", "é", r"\n"]
PLACES = ["^", "$", r"\b", r"\B", r"\A", r"\Z", "(?m:^)", "(?m:$)"]
COUNTS = ["*", "+", "?", "{2}", "{1,2}", "{0,3}", "{2,}"]


def alternatives(chance, depth, groups):
    return "|".join(sequence(chance, depth, groups) for _ in range(chance.choice([1, 1, 1, 2, 2, 3])))


def sequence(chance, depth, groups):
    return "".join(part(chance, depth, groups) for _ in range(chance.choice([0, 1, 1, 2, 2, 3])))


def part(chance, depth, groups):
    made = atom(chance, depth, groups)
    if made in PLACES or chance.random() < 0.55:
        return made
    if len(made) > 1 and made[0] not in "([\\.":
        made = f"(?:{made})"
    return made + chance.choice(COUNTS) + chance.choice(["", "", "", "?", "+"])


def atom(chance, depth, groups):
    """`groups` holds how many groups began, and how many of these are closed, by number."""
    kind = chance.random()
    if depth >= DEPTH or kind < 0.5:
        return chance.choice(PLAIN)
    if kind < 0.6:
        return chance.choice(PLACES)
    if kind < 0.75:
        groups["begun"] += 1
        number = groups["begun"]
        inner = alternatives(chance, depth + 1, groups)
        groups["closed"].append(number)
        return f"({inner})"
    if kind < 0.8 and groups["closed"]:
        return f"(?:\\{chance.choice(groups['closed'])})"
    if kind < 0.84 and groups["closed"]:
        number = chance.choice(groups["closed"])
        return f"(?({number}){sequence(chance, depth + 1, groups)}|{sequence(chance, depth + 1, groups)})"
    begin = chance.choice(["(?:", "(?:", "(?>", "(?=", "(?!", "(?<=", "(?<!", "(?s:"])
    return f"{begin}{alternatives(chance, depth + 1, groups)})"


def case(chance):
    """A pattern, and a subject of letters that it speaks of."""
    pattern = alternatives(chance, 0, {"begun": 0, "closed": []})
    letters = chance.choice([LETTERS, LETTERS, "ab", "aé1 \n_b"])
    subject = "".join(chance.choice(letters) for _ in range(chance.choice([0, 1, 2, 4, 6, 8, 10, 12])))
    return pattern, subject
