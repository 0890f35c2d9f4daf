"""Why files are not linked."""

from __future__ import annotations

from collections.abc import Iterable
from typing import Any, NamedTuple, Optional

__all__ = ["Change", "Changes", "Error", "Fault", "Place", "Refused", "TooMany", "Unreadable"]


class Error(Exception):
    """Why files are not linked. The pool is what it was. All that are raised are also a TypeError, as
    protobuf's own pool raises it."""


class Unreadable(Error, TypeError):
    """The bytes are no such set or file, or the script has a fault."""


class TooMany(Error, TypeError):
    """There is too much of a kind, which is named."""


class Place(NamedTuple):
    """A place in a file. Line and column count from 1, and are None where they are not known."""

    file: Optional[str]
    line: Optional[int]
    column: Optional[int]
    path: Optional[list[int]]
    element: Optional[str]


class Fault(NamedTuple):
    """A rule that files break, and where: as `Place`, with its second place, if it has one."""

    code: str
    message: str
    file: Optional[str]
    line: Optional[int]
    column: Optional[int]
    path: Optional[list[int]]
    element: Optional[str]
    related: list[Place]
    note: str

    def __str__(self) -> str:
        if self.file is None:
            return self.message
        if self.line is not None:
            return f"{self.file}:{self.line}:{self.column}: {self.message}"
        element = f" {self.element}:" if self.element else ""
        return f"{self.file}:{element} {self.message}"


class Change(NamedTuple):
    """What a pool changes of an older one: its own level, one of `LEVELS`; its direction, "backward"
    or "forward"; and its kind, text and places, of which the second is that in the older pool."""

    level: str
    direction: str
    fault: Fault

    def __str__(self) -> str:
        return str(self.fault)


class Changes(list[Change]):
    """Changes in order, backward first: of each direction a hundred of them, or as many as
    `Pool.limit_faults` has set. `more` is how many more there are, in all directions together."""

    def __init__(self, changes: Iterable[Change] = (), more: int = 0) -> None:
        super().__init__(changes)
        self.more = more


class Refused(Error, TypeError):
    """Files break rules: `faults` are those of the first pass that finds any, in order, a hundred
    of them or as many as `Pool.limit_faults` has set, and `more` is how many more there are."""

    def __init__(self, faults: list[Fault], more: int = 0) -> None:
        lines = [*map(str, faults), *([f"and {more} more"] if more else [])]
        super().__init__("\n".join(lines))
        self.faults = faults
        self.more = more


def place_of(told: dict[str, Any]) -> Place:
    """A place of a report of JSON."""
    return Place(*(told[name] for name in Place._fields))


def fault_of(told: dict[str, Any]) -> Fault:
    """A fault of a report of JSON."""
    members: dict[str, Any] = {name: told[name] for name in Fault._fields}
    members["related"] = [place_of(place) for place in told["related"]]
    return Fault(**members)


def fault_at(file: str, code: str, message: str) -> Fault:
    """A fault of a file, of which no more is known than its name."""
    return Fault(code, message, file, None, None, None, None, [], "")


def changes_of(told: dict[str, Any]) -> Changes:
    """The changes of a report of JSON, in which one pool was compared with one other."""
    changes = (
        Change(change["level"], change["direction"], fault_of(change)) for change in told["changes"]
    )
    return Changes(changes, sum(compared["more"] for compared in told["compared"]))
