#!/usr/bin/env python3
"""Checks crates.txt and the tables of docs/inside/ARCHITECTURE.md: whether what they name is there.

    python3 architecture.py
    python3 architecture.py --storeys     puts crates.txt and the layers in the order of the storeys

A crate of storey 1 names none, and each other one is a storey above the highest that it names.
In crates.txt a line `# storey N` is before those of a storey, from the lowest on.

The table of the layers has each crate of crates.txt, in that order. Each rule of the table "Each
rule twice" has all five columns. Each file that this table and the one of a new rule name is there,
in the crate of the row or in the one before a colon; a word in brackets after a file is in
that file, and any other word in backquotes in some file of src/ or specs/. The counts of files that
a new rule touches add up to the one above them. What is amiss is printed, with status 1.
"""

from __future__ import annotations

import re
import sys
from collections.abc import Iterator
from pathlib import Path
from typing import NamedTuple

CRATES = Path(__file__).resolve().parent.parent / "crates"
TOP = CRATES.parent
PAGE = TOP / "docs/inside/ARCHITECTURE.md"
FILE = re.compile(r"([\w*/.-]+\.(?:antt|rt|edit)|(?:src|data)/[\w/]+/)(?: \(([^)]*)\))?")


def section(title: str) -> list[list[str]]:
    """The rows of the table below a heading, each as its cells."""
    text = PAGE.read_text().split(f"\n## {title}\n")[1].split("\n## ")[0]
    rows = [line[2:-2].split(" | ") for line in text.splitlines() if line.startswith("| ")]
    return [[cell.strip() for cell in row] for row in rows[1:]]


def found(crates: list[str], name: str) -> list[Path]:
    """The files of these crates that a name means; of a file alone it is one of tests."""
    name = name if "/" in name else f"src/tests/{name}"
    return [path for crate in crates for path in (CRATES / crate).glob(name.rstrip("/"))]


def has_word(path: Path, word: str) -> bool:
    return re.search(rf"(?<!\w){re.escape(word)}(?!\w)", path.read_text()) is not None


def sources() -> list[Path]:
    return [path for end in ("src/**/*.rt", "specs/**/*.antt") for path in CRATES.glob(f"*/{end}")]


def cell_faults(crates: list[str], cell: str) -> Iterator[str]:
    for part in cell.split("; "):
        named = re.match(r"(\w+): ", part)
        here = [named[1]] if named else crates
        for name, words in FILE.findall(part):
            paths = found(here, name)
            if not paths:
                yield f"no file {name} in {' or '.join(here)}"
            for word in re.findall(r"`(\w+)`", words):
                if not any(has_word(path, word) for path in paths):
                    yield f"no {word} in {name}"
        for word in re.findall(r"`(\w+)`", FILE.sub("", part)):
            if not any(has_word(path, word) for path in sources()):
                yield f"no {word} in any file"


class Crate(NamedTuple):
    """A crate of crates.txt: its name, its lines there, and what it names."""

    name: str
    lines: str
    named: list[str]


def crates_of(text: str) -> list[Crate]:
    """The crates of crates.txt, in its order, each with the comment above it."""
    found = re.findall(r"((?:^#(?! storey ).*\n)*^(\w+)(?: staticlib)?:(.*)\n)", text, re.MULTILINE)
    return [Crate(name, lines, named.split()) for lines, name, named in found]


def storeys(crates: list[Crate]) -> dict[str, int]:
    """The storey of each crate. What a crate names may stand anywhere in the list."""
    named = {crate.name: crate.named for crate in crates}
    found: dict[str, int] = {}

    def storey(name: str) -> int:
        if name not in found:
            below = [storey(other) for other in named[name] if other in named]
            found[name] = 1 + max(below, default=0)
        return found[name]

    for name in named:
        storey(name)
    return found


def by_storeys(text: str) -> str:
    """crates.txt in the order of the storeys; those of one stay in the order that they have."""
    crates = crates_of(text)
    of = storeys(crates)
    parts = []
    for number in range(1, max(of.values()) + 1):
        parts.append(f"# storey {number}\n")
        parts += [crate.lines for crate in crates if of[crate.name] == number]
    return "".join(parts)


def put_in_order() -> None:
    """Writes crates.txt, and the rows of the layers, in the order of the storeys."""
    path = TOP / "crates.txt"
    path.write_text(by_storeys(path.read_text()))
    order = {crate.name: place for place, crate in enumerate(crates_of(path.read_text()))}
    front, rest = PAGE.read_text().split("\n## Layers\n")
    lines = rest.split("\n")
    rows = [place for place, line in enumerate(lines) if re.match(r"\| `\w+` \|", line)]
    rows = [place for place in rows if "\n## " not in "\n".join(lines[:place])]
    moved = sorted((lines[place] for place in rows), key=lambda line: order[line.split("`")[1]])
    for place, line in zip(rows, moved):
        lines[place] = line
    PAGE.write_text(front + "\n## Layers\n" + "\n".join(lines))


def faults() -> Iterator[str]:
    text = (TOP / "crates.txt").read_text()
    listed = [crate.name for crate in crates_of(text)]
    if by_storeys(text) != text:
        yield "crates.txt is not in the order of its storeys: architecture.py --storeys writes it"
    if [row[0].strip("`") for row in section("Layers")] != listed:
        yield "the layers are not the crates of crates.txt, in that order"
    steps = section("To add a rule on fields")
    for step, files, _ in steps:
        yield from (f"{step}: {fault}" for fault in cell_faults([], files))
    count = sum(int(row[2]) for row in steps)
    if f"touches these and no others: {count}," not in PAGE.read_text():
        yield f"the steps of a rule on fields touch {count} files, and the page says otherwise"
    for row in section("Each rule twice"):
        if len(row) != 5 or not all(row):
            yield f"{row[0]}: not all columns"
            continue
        crates = re.findall(r"`(\w+)`", row[1])
        for cell in row[2:]:
            yield from (f"{row[0]}: {fault}" for fault in cell_faults(crates, cell))


def main() -> None:
    if sys.argv[1:] == ["--storeys"]:
        put_in_order()
    told = list(faults())
    if told:
        sys.exit("\n".join(told))


if __name__ == "__main__":
    main()
