#!/usr/bin/env python3
"""Prints the longest chain of proofs of a run of the gate: the crates that decide its time.

    python3 chain.py [FILE]     of dist/proofs.times, which tools/check writes, or of another file

The chain ends with the crate that was proved last. Before each crate is the one of those below
it that was proved last, so the crate could not begin earlier. From then on its time counts, a wait
for a processor included. A line has when a crate began and when it ended, in minutes and seconds
after the start, the time between, and its name. A crate that an earlier run has proved takes none.
"""

from __future__ import annotations

import sys
from collections.abc import Iterator
from pathlib import Path
from typing import NamedTuple

sys.dont_write_bytecode = True

import architecture

TOP = Path(__file__).resolve().parent.parent
TIMES = TOP / "dist/proofs.times"


class Link(NamedTuple):
    """A crate of a chain, with the seconds at which it began and ended."""

    crate: str
    began: int
    ended: int


def clock(seconds: int) -> str:
    """Seconds as minutes and seconds."""
    return f"{seconds // 60}:{seconds % 60:02}"


def ends(text: str) -> dict[str, int]:
    """At which second each crate was proved, by a file of times."""
    words = (line.split() for line in text.splitlines())
    return {crate: int(second) for second, crate in words}


def chain(ended: dict[str, int], named: dict[str, list[str]]) -> list[Link]:
    """The longest chain, the lowest crate first."""
    links: list[Link] = []
    crate = max(ended, key=ended.__getitem__, default=None)
    while crate is not None:
        below = [name for name in named.get(crate, []) if name in ended]
        last = max(below, key=ended.__getitem__, default=None)
        links.append(Link(crate, ended[last] if last else 0, ended[crate]))
        crate = last
    return links[::-1]


def lines(links: list[Link]) -> Iterator[str]:
    """What is printed."""
    yield f"{'began':>8}{'ended':>8}{'took':>8}  crate"
    for crate, began, ended in links:
        yield f"{clock(began):>8}{clock(ended):>8}{clock(ended - began):>8}  {crate}"


def main() -> int:
    if len(sys.argv) > 2 or sys.argv[1:2] in (["-h"], ["--help"]):
        sys.exit((__doc__ or "").strip())
    path = Path(sys.argv[1]) if sys.argv[1:] else TIMES
    try:
        ended = ends(path.read_text())
    except (OSError, ValueError) as fault:
        print(f"chain.py: {path}: {fault}", file=sys.stderr)
        return 2
    crates = architecture.crates_of((TOP / "crates.txt").read_text())
    print("\n".join(lines(chain(ended, {crate.name: crate.named for crate in crates}))))
    return 0


if __name__ == "__main__":
    sys.exit(main())
