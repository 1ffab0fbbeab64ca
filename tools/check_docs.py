#!/usr/bin/env python3
"""Checks what no proof sees: the examples, the documents, and HANDLES.

Prints nothing and ends with 0 where all is well. Each fault is a line on standard error, and then
it ends with 1. Checked are:

- each request of examples/ against its stored answer, where the program is built and is not older
  than its sources (`rt run -- sub < stdin` in crates/sre_program builds it);
- each link between documents, and the length of README.md;
- docs/PROVED.md: each call is one of its crate and has just the clauses that the page names, and
  each public call of these crates is on the page;
- docs/ARCHITECTURE.md: each crate is on the page, each module is a file, and each file of the
  crates on the page is a module;
- docs/DEFINITIONS.md: each name is defined in the files that its section names, and each row that
  is marked as computed is a row of the crate;
- the sentences of the documents: below 25 words in the mean.
"""
import os
import pathlib
import re
import subprocess
import sys

TOP = pathlib.Path(__file__).resolve().parent.parent
CRATES = TOP / "crates"
PROGRAM = CRATES / "sre_program" / "out" / "sre_program"
HANDLES = b"Handles allowed: none.\n"
LINK = re.compile(r"\[[^\]]*\]\(([^)\s]+)\)")
CODE = re.compile(r"```.*?```|`[^`\n]*`", re.DOTALL)
NAME = re.compile(r"`([^`]+)`")
README_BYTES = 16_000
MEAN_WORDS = 25


# Examples and HANDLES

def is_built():
    if not os.access(PROGRAM, os.X_OK):
        return False
    built = PROGRAM.stat().st_mtime
    return all(source.stat().st_mtime <= built for source in TOP.glob("crates/*/src/**/*.rt"))


def example_faults():
    built = is_built()
    requests = sorted((TOP / "examples").glob("*.request"))
    if not requests:
        yield "examples/: there is no request"
    for request in requests:
        answer = request.with_suffix(".answer")
        if not answer.exists():
            yield f"examples/{answer.name}: is missing"
        elif built:
            yield from run_faults(request, answer)


def run_faults(request, answer):
    status_file = request.with_suffix(".status")
    status = int(status_file.read_text()) if status_file.exists() else 0
    with open(request, "rb") as source:
        run = subprocess.run([str(PROGRAM), "sub"], stdin=source, stdout=subprocess.PIPE, timeout=60)
    if run.returncode != status:
        yield f"examples/{request.name}: status {run.returncode}, not {status}"
    if run.stdout != answer.read_bytes():
        yield f"examples/{request.name}: the answer is not {answer.name}"


def handles_faults():
    path = TOP / "HANDLES"
    if not path.exists() or path.read_bytes() != HANDLES:
        yield "HANDLES: is not the one line that was given"


# Documents

def pages():
    for page in sorted(TOP.rglob("*.md")):
        where = page.relative_to(TOP)
        if "out" not in where.parts and ".git" not in where.parts:
            yield where, page.read_text(encoding="utf-8")


def link_faults():
    for where, text in pages():
        for target in LINK.findall(CODE.sub("", text)):
            path = target.split("#")[0]
            if path and "://" not in path and not path.startswith("mailto:"):
                if not (TOP / where.parent / path).exists():
                    yield f"{where}: the link {target} leads nowhere"


def sentences(text):
    """The sentences of a page's prose: no code blocks, tables, headings or lists of rows."""
    text = re.sub(r"```.*?```", "", text, flags=re.DOTALL)
    lines = ["" if re.match(r"\||#|    ", line) else line for line in text.split("\n")]
    prose = LINK.sub("Word", NAME.sub("Word", "\n".join(lines))).replace("**", "")
    for part in re.split(r"(?<=[.!?])\s+(?=[A-Z\[(-])|\n\s*\n|\n(?=- |\d+\. )", prose):
        words = re.findall(r"[\w'-]+", part)
        if len(words) > 2:
            yield words


def length_faults():
    if (TOP / "README.md").stat().st_size >= README_BYTES:
        yield f"README.md: has {README_BYTES} bytes or more"
    for where, text in pages():
        if where.parts[0] in ("bench", "tools"):
            continue
        lengths = [len(words) for words in sentences(text)]
        mean = sum(lengths) / len(lengths) if lengths else 0
        if mean >= MEAN_WORDS:
            yield f"{where}: its sentences have {mean:.1f} words in the mean"


def sections(page):
    """Each crate's part of a page: its name, and the lines up to the next heading of that level."""
    name, lines = None, []
    for line in (TOP / "docs" / page).read_text(encoding="utf-8").split("\n"):
        if re.match(r"##? |### ", line):
            if name:
                yield name, lines
            found = re.match(r"### `?(\w+)`?\b", line)
            name, lines = (found.group(1) if found else None), []
        else:
            lines.append(line)
    if name:
        yield name, lines


def rows(lines):
    """The cells of each row of the tables, and the head of its table."""
    head = None
    for line in lines:
        if not line.startswith("|"):
            head = None
            continue
        cells = [cell.strip() for cell in re.split(r"(?<!\\)\|", line)[1:-1]]
        if head is None:
            head = cells
        elif not set(line) <= set("|- :"):
            yield head, cells


# The calls of a crate

class Call:
    """A function of a crate: the type that it belongs to, its name, and the names of its clauses."""

    def __init__(self, owner, name, is_public, clauses):
        self.owner, self.name, self.is_public, self.clauses = owner, name, is_public, clauses

    def full_name(self):
        return f"{self.owner}::{self.name}" if self.owner else self.name


def owner_of(line):
    found = re.match(r"(?:pub )?(impl|trait)\b(.*)", line)
    if not found:
        return None
    rest = re.sub(r"<[^<>]*>", "", re.sub(r"<[^<>]*(<[^<>]*>[^<>]*)*>", "", found.group(2)))
    return re.search(r"\w+", rest.split(" for ")[-1]).group()


def calls_of(file):
    owner, call, in_trait = None, None, False
    for line in file.read_text(encoding="utf-8").split("\n"):
        if re.match(r"(pub )?(impl|trait)\b", line):
            owner, in_trait = owner_of(line), not re.match(r"impl\b", line) or " for " in line
        found = re.match(r"\s*(pub(?:\([^)]*\))? )?(?:const )?fn (\w+)", line)
        if found:
            if call:
                yield call
            is_free = not line.startswith(" ")
            is_public = found.group(1) == "pub " or (in_trait and not is_free)
            call = Call(None if is_free else owner, found.group(2), is_public, [])
        clause = re.match(r"\s*ensures\s+(\w*)\s*\{", line)
        if clause and call:
            call.clauses.append(clause.group(1))
    if call:
        yield call


def all_calls(crate):
    return [call for file in sorted((CRATES / crate / "src").rglob("*.rt")) for call in calls_of(file)]


def exports(file):
    """The names that a module hands out: those of `pub use`, and the functions of its public modules."""
    text = file.read_text(encoding="utf-8")
    names = {name for use in re.findall(r"pub use ([^;]*);", text) for name in re.findall(r"\w+", use.split("::")[-1])}
    folder = file.parent if file.stem in ("lib", "main") else file.with_suffix("")
    for module in re.findall(r"^pub mod (\w+);", text, re.MULTILINE):
        inner = folder / f"{module}.rt"
        names |= exports(inner) | {call.name for call in calls_of(inner) if not call.owner}
    return names


def is_exported(call, names):
    return call.is_public and (call.owner or call.name) in names


# The pages that name them

def proved_faults():
    for crate, lines in sections("PROVED.md"):
        if not (CRATES / crate / "src").is_dir():
            yield f"docs/PROVED.md: there is no crate {crate}"
            continue
        calls, named = all_calls(crate), set()
        for head, cells in rows(lines):
            if not head[0].startswith("Call"):
                continue
            owner = next(iter(NAME.findall(head[0])), None)
            clauses = set(NAME.findall(cells[1]))
            for name in NAME.findall(cells[0]):
                full = f"{owner}::{name}" if owner else name
                named.add(full)
                yield from call_faults(crate, full, clauses, calls)
        yield from missing_calls(crate, calls, named)


def call_faults(crate, full, clauses, calls):
    found = [call for call in calls if call.full_name() == full]
    if not found:
        yield f"docs/PROVED.md: {crate} has no {full}"
    elif not any(clauses == {name for name in call.clauses if name} for call in found):
        listed = ", ".join(name or "(without a name)" for name in found[0].clauses)
        yield f"docs/PROVED.md: {crate}: {full} has the clauses: {listed or 'none of its own'}"


def missing_calls(crate, calls, named):
    root = CRATES / crate / "src" / "lib.rt"
    names = exports(root) if root.exists() else set()
    for call in calls:
        if is_exported(call, names) and call.clauses and call.full_name() not in named:
            yield f"docs/PROVED.md: {crate}: {call.full_name()} is missing"


def crate_faults():
    text = (TOP / "docs" / "ARCHITECTURE.md").read_text(encoding="utf-8")
    for name in re.findall(r"^(\w+)(?: staticlib)?:", (TOP / "crates.txt").read_text(encoding="utf-8"), re.MULTILINE):
        if f"`{name}`" not in text:
            yield f"docs/ARCHITECTURE.md: the crate {name} is missing"


def module_faults():
    for crate, lines in sections("ARCHITECTURE.md"):
        source = CRATES / crate / "src"
        if not source.is_dir():
            yield f"docs/ARCHITECTURE.md: there is no crate {crate}"
            continue
        files = {str(file.relative_to(source).with_suffix("")) for file in source.rglob("*.rt")}
        named = {name for head, cells in rows(lines) if head[0] == "Module" for name in NAME.findall(cells[0])}
        for name in sorted(named - files):
            yield f"docs/ARCHITECTURE.md: {crate} has no module {name}"
        for name in sorted(files - named - {"lib"}):
            yield f"docs/ARCHITECTURE.md: {crate}: the module {name} is missing"


def definition_faults():
    text = (TOP / "docs" / "DEFINITIONS.md").read_text(encoding="utf-8")
    for part in re.split(r"\n## ", text)[1:]:
        title = part.split("\n")[0]
        files = [TOP / "docs" / target for target in LINK.findall(part) if target.endswith(".antt")]
        words = "\n".join(file.read_text(encoding="utf-8") for file in files if file.exists())
        for head, cells in rows(part.split("\n")):
            if head[0] != "Word":
                continue
            for name in NAME.findall(cells[0]):
                if not re.search(rf"\b{re.escape(name)}\b", words):
                    yield f"docs/DEFINITIONS.md: {title}: its files define no {name}"
        for name in re.findall(r"`(\w+)`", " ".join(re.findall(r"computed as ((?:(?:, | and )?`\w+`)+)", part))):
            if not any(re.search(rf"\b{name} :", row.read_text(encoding="utf-8"))
                       for row in CRATES.glob("*/specs/**/*Rows.antt")):
                yield f"docs/DEFINITIONS.md: {title}: there is no row {name}"


def main():
    faults = [*example_faults(), *handles_faults(), *link_faults(), *length_faults(), *proved_faults(),
              *crate_faults(), *module_faults(), *definition_faults()]
    for fault in faults:
        print(fault, file=sys.stderr)
    return 1 if faults else 0


if __name__ == "__main__":
    sys.exit(main())
