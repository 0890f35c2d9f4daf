"""Where things stand in the source of a file, and the comments there."""

from __future__ import annotations

from collections.abc import Sequence
from typing import NamedTuple, Optional, cast

from ._records import fields, packed, records, varint, varints

SOURCE_CODE_INFO = 9
"""The field of a file that has its locations."""

LOCATION = 1
"""The field of source info that has a location."""

SPAN = 2
"""The field of a location that has its span."""

LEADING, TRAILING, DETACHED = 3, 4, 6
"""Those that have the comment right before, the one right behind, and those that stand apart."""

PATH_TAG = b"\x0a"
"""How a location begins that has a path: the library writes fields in the order of their numbers."""


class Location(NamedTuple):
    """Where something stands in its source, and the comments there, as SourceCodeInfo.Location of
    descriptor.proto has them: the path in the record of the file; the line and the column at which
    it begins, the line in which it ends, and the column behind its end, all from 0, where the
    second line is left out if it ends in its first; the comment right before it, the one right
    behind it, and those before it that stand by themselves."""

    path: tuple[int, ...]
    span: tuple[int, ...]
    leading_comments: Optional[str]
    trailing_comments: Optional[str]
    leading_detached_comments: list[str]


class Locations:
    """The locations of the items of a file, of several with one path the first."""

    def __init__(self, file: bytes) -> None:
        self._records: dict[bytes, bytes] = {}
        for source in records(file, SOURCE_CODE_INFO):
            for record in records(source, LOCATION):
                path = _path_of(record)
                # the path of an item has two numbers for each step, and that of its parts one more
                if len(path) % 2 == 0 or not path.isascii():
                    self._records.setdefault(path, record)

    def of(self, path: Sequence[int]) -> Optional[Location]:
        """The location of the item with a path, or None."""
        record = self._records.get(packed(path))
        if record is None:
            return None
        span: list[int] = []
        texts: dict[int, list[str]] = {LEADING: [], TRAILING: [], DETACHED: []}
        for number, value in fields(record):
            if number == SPAN:
                span += map(_signed, varints(cast(bytes, value)))
            elif number in texts:
                texts[number].append(cast(bytes, value).decode())
        leading, trailing, detached = texts.values()
        return Location(tuple(path), tuple(span), _last(leading), _last(trailing), detached)


def _path_of(record: bytes) -> bytes:
    """The path of a location, as the record has it."""
    if record[:1] != PATH_TAG:
        return b""
    length, at = varint(record, 1)
    return record[at : at + length]


def _signed(number: int) -> int:
    """A number as one of 32 bits with a sign, which a record has as one of 64 without."""
    return number if number < 2**31 else (number + 2**31) % 2**32 - 2**31


def _last(texts: list[str]) -> Optional[str]:
    return texts[-1] if texts else None
