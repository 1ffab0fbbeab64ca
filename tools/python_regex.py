"""CPython 3.11's own regular expression compiler and engine: the words that it makes of a pattern, and
what it finds by words.

Only CPython 3.11 will do: its words have the numbers and the layout of docs/FORMATS.md.
"""
import re
import sys

import code_reader
import formats
import opcodes

MAGIC = 20220615  # of CPython 3.11's engine
FLAGS = {"a": re.ASCII, "m": re.MULTILINE, "s": re.DOTALL, "x": re.VERBOSE, "u": re.UNICODE}
LEFT_OUT = {"i": "IGNORECASE", "L": "LOCALE", "t": "TEMPLATE"}


class PatternError(Exception):
    """A pattern or a replacement that has no request, and why."""


class NotInGrammar(PatternError):
    """A pattern whose code words spell no tree, as those of one that ignores case in a part."""


def what_is_missing():
    """Why this Python cannot be used; None where it can."""
    if sys.implementation.name == "cpython" and sys.version_info[:2] == (3, 11):
        import _sre
        from re import _constants

        if _sre.MAGIC != MAGIC or _sre.CODESIZE != 4:
            return "its engine has other words than CPython 3.11's"
        for name, number in {**opcodes.OPCODES, **opcodes.ANCHORS, **opcodes.CATEGORIES}.items():
            if int(getattr(_constants, name, -1)) != number:
                return f"its number of {name} is not {number}, as in docs/FORMATS.md"
        return None
    version = ".".join(map(str, sys.version_info[:2]))
    return f"it is {sys.implementation.name} {version}, and CPython 3.11 is needed"


def flags_of(letters):
    """The flags that letters name, as those of `(?ms)`."""
    flags = 0
    for letter in letters:
        if letter in LEFT_OUT:
            raise PatternError(f"the flag {letter} ({LEFT_OUT[letter]}) is not in the grammar of code words")
        if letter not in FLAGS:
            raise PatternError(f"there is no flag {letter!r}; the flags are {' '.join(FLAGS)}")
        flags |= FLAGS[letter]
    return flags


class Compiled:
    """A pattern with its words, its number of groups and their names."""

    def __init__(self, pattern, flags=0):
        from re import _compiler, _parser

        self.pattern = pattern
        try:
            parsed = _parser.parse(pattern, int(flags))
            self.words = [int(word) for word in _compiler._code(parsed, int(flags))]
        except (re.error, ValueError, OverflowError, RecursionError) as fault:
            raise PatternError(f"CPython does not compile the pattern: {fault}") from None
        self.flags = int(flags) | parsed.state.flags
        self.groups = parsed.state.groups - 1
        self.groupindex = dict(parsed.state.groupdict)
        check_flags(self.flags)
        try:
            self.body = code_reader.read(self.words, self.groups)
        except code_reader.NoTree as fault:
            raise NotInGrammar(f"its code words are not in the grammar: {fault}") from None

    def items(self, replacement):
        """The list of a replacement with references as `\\1` and `\\g<name>`."""
        from re import _parser

        try:
            places, literals = _parser.parse_template(replacement, self)
        except (re.error, IndexError) as fault:
            raise PatternError(f"CPython does not take the replacement: {fault}") from None
        items = [""]
        numbers = dict(places)
        for place, literal in enumerate(literals):
            if place in numbers:
                items += [numbers[place], ""]
            else:
                items[-1] += literal
        return items

    def engine(self):
        return engine(self.words, self.groups)


def check_flags(flags):
    for letter, name in LEFT_OUT.items():
        if flags & getattr(re, name):
            raise PatternError(f"the flag {letter} ({name}) is not in the grammar of code words")


def engine(words, groups):
    """CPython's engine on these words, as a pattern object."""
    import _sre

    return _sre.compile("", re.UNICODE, list(words), groups, {}, (None,) * (groups + 1))


def request_of_sub(compiled, replacement, subject, limit=0):
    return formats.sub_request(
        compiled.pattern, compiled.words, compiled.groups, compiled.items(replacement), subject, limit
    )
