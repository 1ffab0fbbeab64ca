"""Where CPython's engine is known to answer otherwise, by the names of docs/DIFFERENCES.md."""
import unicodedata

from opcodes import AT_NON_BOUNDARY, AT_UNI_NON_BOUNDARY


def nodes_of(body, inside=()):
    """Every node of a body, with the nodes that it is inside."""
    for node in body:
        yield node, inside
        for part in parts_of(node):
            yield from nodes_of(part, (*inside, node))


def parts_of(node):
    """The bodies of a node."""
    name = node[0]
    if name == "exists":
        return [part for part in node[2:] if part is not None]
    if name == "branch":
        return node[1]
    return [node[-1]] if name in ("group", "repeat", "atomic", "look") else []


def is_empty_boundary(nodes, subject):
    return subject == "" and any(node[0] == "at" and node[1] in (AT_NON_BOUNDARY, AT_UNI_NON_BOUNDARY) for node, _ in nodes)


def is_possessive_iterations(nodes, _subject):
    return any(node[:2] == ("repeat", "possessive") and not node[2] for node, _ in nodes)


def is_group_in_itself(nodes, _subject):
    """A back reference to a group, or a conditional on it, inside the group."""
    return any(
        node[0] in ("ref", "exists") and any(outer[:2] == ("group", node[1]) for outer in inside)
        for node, inside in nodes
    )


def is_group_twice(nodes, _subject):
    numbers = [node[1] for node, _ in nodes if node[0] == "group"]
    return len(numbers) != len(set(numbers))


def is_group_order(nodes, _subject):
    numbers = [node[1] for node, _ in nodes if node[0] == "group"]
    return numbers != sorted(numbers)


REASONS = {
    "empty_boundary": is_empty_boundary,
    "possessive_iterations": is_possessive_iterations,
    "group_in_itself": is_group_in_itself,
    "group_twice": is_group_twice,
    "group_order": is_group_order,
}


def reason(body, subject):
    """The name of a listed reason for which CPython may answer otherwise, or None."""
    nodes = list(nodes_of(body))
    return next((name for name, holds in REASONS.items() if holds(nodes, subject)), None)


def is_unicode_version(_pattern, c):
    """CPython's tables do not know the character yet."""
    return unicodedata.category(c) == "Cn"


def is_alphabetic(pattern, c):
    """A sign that is alphabetic, and no letter by its general category."""
    return pattern == r"\w" and unicodedata.category(c) in ("Mn", "Mc", "So")


REASONS_OF_CHARACTERS = {"unicode_version": is_unicode_version, "alphabetic": is_alphabetic}


def reason_of_character(pattern, c):
    """The same for a character and a category."""
    return next((name for name, holds in REASONS_OF_CHARACTERS.items() if holds(pattern, c)), None)
