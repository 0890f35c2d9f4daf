#!/usr/bin/env python3
"""Prints a page of the public definitions of crates/*/specs, each with its comment.

    tools/definitions.py             writes dist/DEFINITIONS.md
    tools/definitions.py --check     writes nothing

A crate is a section, in the order of crates.txt, and a module a part of it, in the order of the
crate's specs/Lib.antt. A definition without a comment is printed, with status 1.
"""

from __future__ import annotations

import re
import sys
from collections.abc import Iterator
from pathlib import Path

TOP = Path(__file__).resolve().parent.parent
PAGE = TOP / "dist" / "DEFINITIONS.md"
# A unit is what unfolds where another definition names it, and says nothing itself.
DEFINITION = re.compile(
    r"(?:(?:abbrev|unfoldable) )*pub (?:record |data )?(?!mod )(\S+)(?!\S| : Unit)"
)
PREFACE = """\
# The definitions

The contracts of the public calls cite these definitions. `tools/definitions.py` prints this page of their comments: a section for each crate, a part for each file of its `specs/`, and the public definitions as they stand there. What the rules say to a user is in [RULES.md](../docs/RULES.md), what a script says and a report tells in [SCRIPT.md](../docs/SCRIPT.md), what the pool, its laws and the program promise by them in [CONTRACTS.md](../docs/inside/CONTRACTS.md), and where each rule is code in [ARCHITECTURE.md](../docs/inside/ARCHITECTURE.md#each-rule-twice).

A law is a statement that is proved: those that [CONTRACTS.md](../docs/inside/CONTRACTS.md) lists are contracts of calls, the others are lemmas. A text is a list of bytes. A declaration is a file, or what in it has a full name: a message, a field, a oneof, an enum, a value of an enum, a service, a method or an extension. A test is *exact* if it holds only for equal values; the lines that end so are proved lemmas, which stand among the definitions because the law of an implementation may cite these alone.

Modules whose names end with `Code`, and `Walking`, `Totals`, `Seen` and `Cursor`, tie what the code holds to the definitions. `State` and `Steps` of a pass say what `after`, `kept`, `borrows` and `ready` of its visitor mean; the contract of `build_files` cites none of them.
"""


def crates() -> Iterator[tuple[str, str]]:
    """Each crate of crates.txt with its comment."""
    for said, name in re.findall(r"# (.*)\n(\w+)(?: staticlib)?:", (TOP / "crates.txt").read_text()):
        yield name, said


def modules(folder: Path, listing: Path) -> Iterator[Path]:
    """The files that a listing names, each before those that it names itself. Those of `formers`
    say how a type stores what it contains, and define nothing."""
    for name in re.findall(r"^pub mod (?!formers)(\w+)$", listing.read_text(), re.MULTILINE):
        yield folder / f"{name}.antt"
        yield from modules(folder / name, folder / f"{name}.antt")


def first_comment(path: Path) -> str:
    lines = re.match(r"(?:--.*\n)*", path.read_text()).group().splitlines()
    return " ".join(line[3:] for line in lines)


def definitions(path: Path) -> Iterator[tuple[str, str]]:
    """The public definitions of a file, each with the comment above it."""
    comment, in_block = [], False
    for line in path.read_text().splitlines():
        if line[:1].strip():
            in_block = line.startswith(("abbrev mutual", "module "))
        if line.startswith("abbrev mutual"):
            continue
        if line.lstrip().startswith("--"):
            comment.append(line.strip()[3:])
            continue
        found = DEFINITION.match(line[2:] if in_block else line)
        if found:
            yield found[1], " ".join(comment)
        comment = []


def page() -> str:
    parts = [PREFACE]
    for crate, said in crates():
        specs = TOP / "crates" / crate / "specs"
        if not (specs / "Lib.antt").exists():
            continue
        parts.append(f"## `{crate}`\n\n{said}\n")
        for path in modules(specs, specs / "Lib.antt"):
            lines = [f"- `{name}`: {said}\n" for name, said in definitions(path)]
            if lines:
                heading = f"### {path.relative_to(specs).with_suffix('')}\n\n{first_comment(path)}\n"
                parts.append(heading + "\n" + "".join(lines))
    return "\n".join(parts)


def uncommented() -> list[str]:
    """The definitions that have no comment."""
    return re.findall(r"^- `(.*)`: $", page(), re.MULTILINE)


def main() -> None:
    if sys.argv[1:] not in ([], ["--check"]):
        sys.exit((__doc__ or "").strip())
    if not sys.argv[1:]:
        PAGE.parent.mkdir(exist_ok=True)
        PAGE.write_text(page())
        print(PAGE.relative_to(TOP))
    bare = uncommented()
    if bare:
        sys.exit("no comment: " + ", ".join(bare))


if __name__ == "__main__":
    main()
