#!/usr/bin/env python3
"""Prints what to read to believe the first promise: the definitions that the contract of
`build_files` cites, each after those that it cites itself.

    python3 reading.py            prints the table of docs/PROVED.md
    python3 reading.py --check    whether that page has it, with status 1 where it has not

A line of a definition is one that is not empty and imports nothing.
"""

from __future__ import annotations

import re
import sys
from pathlib import Path
from typing import Optional

TOP = Path(__file__).resolve().parent.parent
PAGE = TOP / "docs/PROVED.md"
FIRST = TOP / "crates/descriptor_pool/specs/Outcome.antt"
IMPORT = re.compile(r"^use Rattle\.(\w+)\.specs\.([\w.]+)", re.MULTILINE)


def file_of(crate: str, module: str) -> Optional[Path]:
    """The file of a module, or of the one around it: none where the repository has no such one."""
    parts = module.strip(".").split(".")
    while parts:
        path = TOP / "crates" / crate / "specs" / f"{'/'.join(parts)}.antt"
        if path.is_file():
            return path
        parts = parts[:-1]
    return None


def cited(path: Path, found: dict[Path, None]) -> None:
    """Puts a file behind those that it cites, which are put there first."""
    if path in found:
        return
    for crate, module in IMPORT.findall(path.read_text()):
        below = file_of(crate, module)
        if below is not None and below != path:
            cited(below, found)
    found[path] = None


def lines(path: Path) -> int:
    text = path.read_text().splitlines()
    return sum(1 for line in text if line.strip() and not line.startswith("use "))


def heading(path: Path) -> str:
    """The first sentence of the comment with which a file begins."""
    comment = re.match(r"((?:-- .*\n)+)", path.read_text())
    words = " ".join(line[3:] for line in (comment[1] if comment else "").splitlines())
    return re.split(r"(?<=[.)])(?:\.| (?=[A-Z]))", words)[0].rstrip(".")


def table() -> str:
    """The table of docs/PROVED.md, with the sums above it."""
    found: dict[Path, None] = {}
    cited(FIRST, found)
    whole = sum(lines(it) for it in found)
    rows = ["| file | lines | |", "|---|---|---|"]
    for it in found:
        rows.append(f"| {it.parent.parent.name}/specs/{it.name} | {lines(it)} | {heading(it)} |")
    head = f"These are {len(found)} files of `crates/`, with {whole:,} lines."
    return f"{head}\n\n" + "\n".join(rows) + "\n"


if __name__ == "__main__":
    if sys.argv[1:] == ["--check"]:
        sys.exit(0 if table() in PAGE.read_text() else 1)
    print(table(), end="")
