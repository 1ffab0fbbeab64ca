"""Tokens, requests and answers of sre_program, as docs/FORMATS.md has them."""

MOST_BYTES = 16_777_216
MOST_COUNT = 2**64 - 1


class FormatError(Exception):
    """Bytes that are not of the form, or a value that has no form."""


def text_token(text):
    """The token of a text: `t` and its UTF-8 bytes in hexadecimal.

    >>> text_token("né")
    't6ec3a9'
    """
    try:
        return "t" + text.encode("utf-8").hex()
    except UnicodeEncodeError:
        raise FormatError("a text of a request has no lone surrogates") from None


def text_of(token):
    """The text that a token is of.

    >>> text_of("t6ec3a9")
    'né'
    """
    digits = token[1:]
    if token[:1] != "t" or len(digits) % 2 or not set(digits) <= set("0123456789abcdef"):
        raise FormatError(f"no token of a text: {shortened(token)}")
    try:
        return bytes.fromhex(digits).decode("utf-8")
    except UnicodeDecodeError:
        raise FormatError(f"the bytes of the token are not UTF-8: {shortened(token)}") from None


def number_of(word):
    """A number of a request: decimal, without a sign, and without a leading zero."""
    if not word.isascii() or not word.isdigit() or (word[0] == "0" and word != "0"):
        raise FormatError(f"no number: {shortened(word)}")
    return int(word)


def shortened(text, most=60):
    return repr(text if len(text) <= most else text[:most] + "..")


def item_token(item):
    """The token of an item of a list: a text, or the number of a group."""
    return text_token(item) if isinstance(item, str) else f"i{item}"


def sub_request(pattern, words, groups, items, subject, limit=0):
    """The bytes of a request of the command `sub`. `items` are texts and numbers of groups in turn,
    with a text first and last; `limit` 0 is none."""
    if len(items) % 2 == 0 or any(isinstance(item, str) != (i % 2 == 0) for i, item in enumerate(items)):
        raise FormatError("a list has a text first and last, and texts and numbers in turn")
    if not 0 <= limit <= MOST_COUNT:
        raise FormatError(f"the limit is a number from 0 to {MOST_COUNT}")
    return lines(
        ["pattern", text_token(pattern)],
        ["code", *map(str, words)],
        ["groups", str(groups)],
        ["limit", str(limit)],
        ["list", *map(item_token, items)],
        ["subject", text_token(subject)],
    )


def lines(*rows):
    """The bytes of lines of words."""
    made = "".join(" ".join(row) + "\n" for row in rows).encode("ascii")
    if len(made) > MOST_BYTES:
        raise FormatError(f"the request has {len(made)} bytes, and at most {MOST_BYTES} are read")
    return made


def read_answer(line):
    """What an answer's line says: `("text", TEXT, COUNT)` or `("error", NAME)`."""
    if not line.endswith(b"\n") or line.count(b"\n") != 1:
        raise FormatError("an answer is one line that ends with a line feed")
    try:
        words = line[:-1].decode("ascii").split(" ")
    except UnicodeDecodeError:
        raise FormatError("an answer is written in ASCII") from None
    if words[0] == "error":
        if len(words) != 2 or not words[1]:
            raise FormatError("one name follows `error`")
        return "error", words[1]
    if len(words) != 2:
        raise FormatError("an answer is a text's token and a number")
    return "text", text_of(words[0]), number_of(words[1])
