"""A reader of the bytes of a FileDescriptorProto that the library has read, for what no call of the
library tells."""

from __future__ import annotations

from collections.abc import Iterator, Sequence
from itertools import islice
from typing import Union, cast

NAME = 1
"""The field that has the name of the file."""

PUBLIC_DEPENDENCY = 10
"""The field that has the positions of public imports."""

FIXED = {1: 8, 5: 4}
"""How long values are whose length is fixed, by wire type."""


def name_of(record: bytes) -> str:
    """The name of the file."""
    names = list(records(record, NAME))
    return names[-1].decode() if names else ""


def public_dependencies(record: bytes) -> list[int]:
    """The positions of the public imports among all imports."""
    positions: list[int] = []
    for number, value in fields(record):
        if number == PUBLIC_DEPENDENCY:
            positions += [value] if isinstance(value, int) else varints(value)
    return positions


def record_at(record: bytes, path: Sequence[int]) -> bytes:
    """The record to which a path leads in another: numbers of fields, and positions from 0."""
    for wanted, position in zip(path[::2], path[1::2]):
        record = next(islice(records(record, wanted), position, None))
    return record


def records(record: bytes, wanted: int) -> Iterator[bytes]:
    """The values of a field of a record that are bytes, texts or records."""
    return (cast(bytes, value) for number, value in fields(record) if number == wanted)


def fields(record: bytes) -> Iterator[tuple[int, Union[int, bytes]]]:
    """The fields of a record, each with its number and its value."""
    at, end = 0, len(record)
    while at < end:
        tag, at = record[at], at + 1
        if tag >= 0x80:
            tag, at = varint(record, at - 1)
        number, wire_type = tag >> 3, tag & 7
        if wire_type == 0:
            value, at = varint(record, at)
            yield number, value
        elif wire_type in (1, 2, 5):
            length, at = varint(record, at) if wire_type == 2 else (FIXED[wire_type], at)
            yield number, record[at : at + length]
            at += length


def varints(data: bytes) -> list[int]:
    """Numbers of seven bits a byte, one behind another."""
    if data.isascii():
        return list(data)  # each has one byte
    numbers, at = [], 0
    while at < len(data):
        number, at = varint(data, at)
        numbers.append(number)
    return numbers


def varint(data: bytes, at: int) -> tuple[int, int]:
    """A number of seven bits a byte, and where it ends."""
    number = data[at]
    if number < 0x80:
        return number, at + 1
    number = shift = 0
    while True:
        byte = data[at]
        number |= (byte & 0x7F) << shift
        at, shift = at + 1, shift + 7
        if byte < 0x80:
            return number, at


def packed(numbers: Sequence[int]) -> bytes:
    """Numbers that are not below 0, as `varints` reads them."""
    if max(numbers, default=0) < 0x80:
        return bytes(numbers)
    data = bytearray()
    for number in numbers:
        while number >= 0x80:
            data.append(number & 0x7F | 0x80)
            number >>= 7
        data.append(number)
    return bytes(data)
