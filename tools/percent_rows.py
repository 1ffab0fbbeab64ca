#!/usr/bin/env python3
"""Writes crates/rows_format/src/by_chance.rt: percent templates and values made by chance, and what
CPython's `%` makes of them, or the class of its exception. Run it at the top of the repository, and
then `rt fmt` in that crate. With --rows it writes more rows, for a comparison with `rt try --test`
there that is not kept; with another --seed other ones.

Left out are the rows where CPython differs by docs/DIFFERENCES.md: floats, keys on some specifiers
only, a `*` in a specifier with a key, `%5%`, a fault of the template after an error of the values,
and a value alone that serves as a mapping in one of the two only."""

import argparse
import random

TEXTS = ["", "a", "b", "'", "é", "日本語", "x y", "🎅z", "\n"]
BYTES = [b"", b"a", b"'", b"\xff\x00", b"xyz"]
INTS = [0, 1, -1, 7, -42, 255, 65, 233, 0x1F385, 0x110000, 2**31, 2**127 - 1, -(2**127)]
SMALL = [0, 1, 3, 6, -1, -4, True]
LITERALS = ["", "|", "ab", "%%", "é", " "]
KEYS = ["a", "b", "a(b)", "é", ""]


def rust_text(text):
    return '"' + "".join(
        {"\\": "\\\\", '"': '\\"', "\n": "\\n"}.get(c, c if 32 <= ord(c) < 127 else "\\u{%x}" % ord(c))
        for c in text
    ) + '"'


def rust_bytes(data):
    return 'b"' + "".join(
        {92: "\\\\", 34: '\\"'}.get(b, chr(b) if 32 <= b < 127 else "\\x%02x" % b) for b in data
    ) + '"'


def leaf(chance):
    return chance.choice([None, True, chance.choice(INTS), chance.choice(TEXTS),
                          chance.choice(BYTES), []])


def item(v):
    if v is None:
        return "Item::Nothing"
    if v is True:
        return "Item::Yes"
    if v == [] and isinstance(v, list):
        return "Item::Empty"
    if isinstance(v, int):
        return "Item::Int(%d)" % v if v > -(2**127) else "Item::Int(i128::MIN)"
    if isinstance(v, str):
        return "Item::Str(%s)" % rust_text(v)
    return "Item::Bytes(%s)" % rust_bytes(v)


def values(v):
    if isinstance(v, tuple):
        return "Values::Tuple(&[%s])" % ", ".join(item(w) for w in v)
    if isinstance(v, list) and v:
        return "Values::List(&[%s])" % ", ".join(item(w) for w in v)
    if isinstance(v, dict):
        if v and isinstance(next(iter(v)), bytes):
            return "Values::ByteMap(&[%s])" % ", ".join("(%s, %s)" % (rust_bytes(k), item(w)) for k, w in v.items())
        return "Values::Map(&[%s])" % ", ".join("(%s, %s)" % (rust_text(k), item(w)) for k, w in v.items())
    return "Values::One(%s)" % item(v)


def fitting(chance, kind, binary):
    if chance.random() < 0.1:
        return leaf(chance)
    if kind in "diuoxX":
        return chance.choice(INTS + [True])
    if kind == "c":
        return chance.choice([65, 233, True, b"a" if binary else "é", 200 if binary else 0x1F385])
    if kind in "sb" and binary:
        return chance.choice(BYTES)
    return leaf(chance)


def specifier(chance, keyed, binary):
    """The text of a specifier, its key, and the values that it takes."""
    kind = chance.choice("diuoxXcsra" + ("b" if binary else ""))
    text, taken, key = "%", [], None
    if keyed:
        key = chance.choice(KEYS)
        text += "(%s)" % key
    text += "".join(chance.choice("#0- +") for _ in range(chance.randrange(3)))
    for dot in "", ".":
        if dot and chance.random() < 0.5:
            continue
        text += dot
        way = chance.randrange(4)
        if way == 0 and not keyed:
            text += "*"
            taken.append(chance.choice(SMALL) if chance.random() < 0.95 else leaf(chance))
        elif way < 3:
            text += str(chance.choice([1, 2, 5, 9, 12])) if way == 1 else ""
    text += chance.choice(["", "", "", "h", "l", "L"]) + kind
    taken.append(fitting(chance, kind, binary))
    return text, key, taken


def case(chance, binary):
    keyed = chance.random() < 0.25
    template, taken, keys = "", [], {}
    for _ in range(chance.randrange(4)):
        text, key, more = specifier(chance, keyed, binary)
        template += chance.choice(LITERALS) + text
        taken += more
        if key is not None and chance.random() < 0.95:
            keys[key] = more[-1]
    template += chance.choice(LITERALS)
    if keyed and chance.random() < 0.9:
        return template, keys
    if chance.random() < 0.08:
        taken = taken[:-1] if chance.random() < 0.5 else taken + [leaf(chance)]
    if len(taken) == 1 and chance.random() < 0.5:
        return template, taken[0]
    return template, tuple(taken)


def answer(template, v):
    try:
        return template % v, None
    except (TypeError, ValueError, OverflowError, KeyError) as error:
        return None, type(error).__name__


def differs(template, v, binary):
    """Whether the two may differ by docs/DIFFERENCES.md."""
    starred = [w for w in v if isinstance(w, int) and abs(w) >= 2**31] if isinstance(v, tuple) else []
    if "*" in template and starred:
        return True
    if isinstance(v, str) and binary or "%(" in template and not isinstance(v, dict):
        return True
    return False


def write_rows(seed, count, path):
    chance = random.Random(seed)
    rows = {False: [], True: []}
    for binary in False, True:
        while len(rows[binary]) < count:
            template, v = case(chance, binary)
            if binary:
                template = template.encode("latin-1", "ignore")
                if isinstance(v, dict):
                    v = {k.encode("latin-1"): w for k, w in v.items()}
            if differs(template.decode("latin-1") if binary else template, v, binary):
                continue
            made, kind = answer(template, v)
            if made is not None and len(made) > 200:
                continue
            quoted = rust_bytes if binary else rust_text
            rows[binary].append("    (\n        %s,\n        %s,\n        %s,\n    ),\n" % (
                quoted(template), values(v),
                "Err(ErrorKind::%s)" % kind if kind else "Ok(%s)" % quoted(made)))
    with open(path, "w") as out:
        out.write(HEAD)
        out.write(TEXT_ROWS % count)
        out.writelines(rows[False])
        out.write("];\n\n" + BYTE_ROWS % count)
        out.writelines(rows[True])
        out.write("];\n" + TAIL)


HEAD = """//! Templates and values made by chance, and what CPython's `%` makes of them. The file is written
//! by tools/percent_rows.py.

use crate::made::{Item, Values, filled, filled_bytes};
use py_base::{ErrorKind, PyResult};
"""

TEXT_ROWS = """
const TEXTS: [(&str, Values<'static>, Result<&str, ErrorKind>); %d] = [
"""

BYTE_ROWS = """const BINARY: [(&[u8], Values<'static>, Result<&[u8], ErrorKind>); %d] = [
"""

TAIL = """
#[test]
fn texts(rt: HostRuntime) -> PyResult<()> {
    for (template, values, is) in &TEXTS {
        let made = filled(rt.alloc(), template, *values);
        match (made, is) {
            (Ok(made), Ok(is)) => assert_eq!(rt; made.as_str(), *is),
            (Err(error), Err(kind)) => assert_eq!(rt; error.kind(), *kind),
            (made, is) => assert_eq!(rt; made.is_ok(), is.is_ok(), "{template}"),
        }
    }
    Ok(())
}

#[test]
fn bytes(rt: HostRuntime) -> PyResult<()> {
    for (template, values, is) in &BINARY {
        let made = filled_bytes(rt.alloc(), template, *values);
        match (made, is) {
            (Ok(made), Ok(is)) => assert_eq!(rt; made.as_bytes(), *is),
            (Err(error), Err(kind)) => assert_eq!(rt; error.kind(), *kind),
            (made, is) => assert_eq!(rt; made.is_ok(), is.is_ok(), "{template:?}"),
        }
    }
    Ok(())
}
"""

if __name__ == "__main__":
    parser = argparse.ArgumentParser(description=__doc__)
    parser.add_argument("--seed", type=int, default=5)
    parser.add_argument("--rows", type=int, default=24)
    parser.add_argument("--out", default="crates/rows_format/src/by_chance.rt")
    given = parser.parse_args()
    write_rows(given.seed, given.rows, given.out)
