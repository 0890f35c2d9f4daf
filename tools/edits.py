#!/usr/bin/env python3
"""Counts the must-fail edits: how many each crate has beside its lines, how many tokens they turn,
and which of them add a branch.

    python3 edits.py

It prints a line for each crate that has rules: its edits, its lines of code, and how many of the
edits turn one token. After these it prints each edit that adds a branch, a closure among them. Such
an edit is refused whatever it means, since no answer covers what it adds.

Exit status: 0 where there are as many edits as there should be, in all and of each crate; else 1.
"""

from __future__ import annotations

import re
import sys
from collections import Counter
from collections.abc import Iterator
from pathlib import Path
from typing import NamedTuple

CRATES = Path(__file__).resolve().parent.parent / "crates"

FEWEST = 243
"""How many edits at least the gate wants to be refused. It is raised with the edits, and not
lowered."""

MOST_WEAK = 22
"""How many edits at most may be refused by a limit of the prover alone, or since a proof file names
what is gone. It is lowered as they are mended, and not raised."""

FEWEST_OF = {
    "field_rules": 14,
    "joined_files": 4,
    "message_values": 2,
    "pool_changes": 15,
    "pool_laws": 2,
    "protoc_rules": 21,
}
"""How many edits at least these crates have."""

LINES = 180
"""There is at most one edit for so many lines of code with rules, over all crates."""

WITHOUT_RULES = re.compile(r"test_(?!rows)\w+|example_\w+|proto_records|pool_parts")
"""Crates whose code is tests or examples, and the faces, which hand on what others have."""

TOKEN = re.compile(r'"(?:[^"\\]|\\.)*"|\w+|&&|\|\||[=!<>]=|->|=>|\.\.=?|::|[^\w\s]')
BRANCH = re.compile(
    r"\b(?:if|match|while|for|loop|filter|map_or|unwrap_or|and_then)\b"
    r"|&&|\|\||[(,] ?(?:move )?\|[\w&:, ]*\|"
)
"""What makes a branch: a word, a sign, and the parameters of a closure."""


class Edit(NamedTuple):
    """An edit: its crate, its name, and each text that it takes away with the one in its place."""

    crate: str
    name: str
    pairs: list[tuple[str, str]]

    def turned(self) -> int:
        """How many tokens it turns."""
        return sum(turned(old, new) for old, new in self.pairs)

    def adds_a_branch(self) -> bool:
        old, new = ("\n".join(texts) for texts in zip(*self.pairs))
        return len(BRANCH.findall(new)) > len(BRANCH.findall(old))


def turned(old: str, new: str) -> int:
    """How many tokens at least are put in, left out or replaced from one text to the other."""
    after = TOKEN.findall(new)
    row = list(range(len(after) + 1))
    for count, token in enumerate(TOKEN.findall(old), 1):
        above, row = row, [count]
        for at, other in enumerate(after):
            row.append(min(above[at] + (token != other), above[at + 1] + 1, row[at] + 1))
    return row[-1]


def files() -> list[Path]:
    """The files of all edits. A page beside them is none."""
    found = (path for path in CRATES.glob("*/must-fail/**/*") if path.is_file())
    return sorted(path for path in found if path.suffix != ".md")


def crate_of(path: Path) -> str:
    """The crate of a file."""
    return path.relative_to(CRATES).parts[0]


def name_of(path: Path) -> str:
    """The name by which `rt ci` calls an edit."""
    return f"{crate_of(path)}/{path.name}"


def edits() -> Iterator[Edit]:
    for path in files():
        pairs = re.findall(r"^old: (.*)\nnew:(?: (.*))?$", path.read_text(), re.MULTILINE)
        yield Edit(crate_of(path), path.stem, pairs)


def lines_of(crate: str) -> int:
    """How many lines of code a crate has."""
    return sum(len(path.read_text().splitlines()) for path in CRATES.glob(f"{crate}/src/**/*.rt"))


def with_rules() -> dict[str, int]:
    """The crates that have rules, with the lines of their code."""
    names = sorted(path.parent.name for path in CRATES.glob("*/src"))
    return {name: lines_of(name) for name in names if not WITHOUT_RULES.fullmatch(name)}


def most() -> int:
    """How many edits there are at most."""
    return sum(with_rules().values()) // LINES


def faults() -> Iterator[str]:
    """Where there are too few edits, or too many."""
    counts = Counter(crate_of(path) for path in files())
    whole = sum(counts.values())
    if not FEWEST <= whole <= most():
        yield f"{whole} edits, where {FEWEST} to {most()} are wanted"
    for crate, fewest in FEWEST_OF.items():
        if counts[crate] < fewest:
            yield f"{crate} has {counts[crate]} edits, where {fewest} at least are wanted"


def page() -> Iterator[str]:
    """The lines that are printed."""
    found = list(edits())
    yield "edits  lines  one token"
    for crate, lines in with_rules().items():
        own = [edit for edit in found if edit.crate == crate]
        one = sum(edit.turned() == 1 for edit in own)
        yield f"{len(own):5}  {lines:5}  {one:9}  {crate}"
    lines, one = sum(with_rules().values()), sum(edit.turned() == 1 for edit in found)
    yield f"{len(found):5}  {lines:5}  {one:9}  in all, one edit for {lines // len(found)} lines"
    for edit in found:
        if edit.adds_a_branch():
            yield f"adds a branch: {edit.crate}/{edit.name}, {edit.turned()} tokens"
    yield from faults()


def main() -> int:
    if sys.argv[1:]:
        sys.exit((__doc__ or "").strip())
    print("\n".join(page()))
    return 1 if any(faults()) else 0


if __name__ == "__main__":
    sys.exit(main())
