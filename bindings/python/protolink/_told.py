"""What the library tells of items, each as one call: by the extension `_finding` where it was built,
else by ctypes. A look-up here is passed what `pointer` makes of a pool, and answers None where the
pool has no such item."""

from __future__ import annotations

import ctypes
from collections import namedtuple
from collections.abc import Callable
from functools import partial
from struct import Struct
from typing import Any, Optional

from ._library import (
    DONE,
    NO_MEMORY,
    SHORT,
    EnumInfo,
    EnumValueInfo,
    ExtensionInfo,
    FieldInfo,
    FileInfo,
    Item,
    MessageInfo,
    MethodInfo,
    OneofInfo,
    Range,
    RawPool,
    ServiceInfo,
    lib,
)
from ._names import address, finding

FIRST_ROOM = 256
"""How long a text may be that is had by one call."""

Text = Callable[[Any, int, int, int], Optional[bytes]]
"""A text of the item of a kind at an index and a position."""

Info = Callable[[Any, int, int], Optional[tuple[int, ...]]]
"""The members of what an item is."""

Told = list[tuple[str, tuple[int, ...]]]
"""The names of items, and what they are."""

Parts = Callable[[Any, int, int], Optional[Told]]
"""Of the first parts of the item at an index, as many as are wanted, the names and what they are. Of
a kind that is no part, the same of as many items from the index on."""


def pointer(pool: RawPool) -> Any:
    """A pool as a look-up here is passed it. The pool lives as long."""
    return ctypes.byref(pool) if finding is None else ctypes.addressof(pool)


LETTERS = {ctypes.c_uint32: "I", ctypes.c_int32: "i", ctypes.c_uint64: "Q"}
"""The types of members, by the letters of the module struct."""


class Teller:
    """A call that tells what an item is: by an index, or by an index and a position."""

    def __init__(self, call: Any, struct: type[ctypes.Structure]) -> None:
        types: dict[str, Any] = dict(struct._fields_)  # type: ignore[arg-type]
        layout = "".join(LETTERS[type_] for type_ in types.values())
        self.named: Callable[[Any], Any]
        """The members of an answer by their names."""
        self._names = list(types)
        self.named = partial(tuple.__new__, namedtuple(struct.__name__, self._names))
        self.info: Info = _info(call, struct, layout)
        self._call, self._layout = call, layout

    def places(self, *names: str) -> list[int]:
        """Where members are in an answer."""
        return [self._names.index(name) for name in names]

    def parts(self, kind: int) -> Parts:
        """The look-up of the parts of a kind."""
        count = _numbers(self._call)
        if finding is not None:
            told = (address(self._call), count, self._layout, address(lib.name), kind)
            return finding.lister(*told)  # type: ignore[no-any-return]
        return partial(_parts_by_ctypes, self.info, kind, count == 1)


def _numbers(call: Any) -> int:
    """How many numbers name the item of a call."""
    return len(call.argtypes) - 2


def _info(call: Any, struct: type[ctypes.Structure], layout: str) -> Info:
    count = _numbers(call)
    if finding is not None:
        return finding.teller(address(call), count, layout)  # type: ignore[no-any-return]
    members = Struct(layout).unpack_from

    def info(at: Any, index: int, position: int) -> Optional[tuple[int, ...]]:
        told = struct()
        status = call(at, *(index, position)[:count], told)
        return members(told) if status == DONE else None

    return info


def _text(call: Any) -> Text:
    if finding is not None:
        return finding.texter(address(call))  # type: ignore[no-any-return]

    def text(at: Any, kind: int, index: int, position: int) -> Optional[bytes]:
        item, length, room = Item(kind, index, position), ctypes.c_size_t(), FIRST_ROOM
        while True:
            buffer = (ctypes.c_uint8 * room)()
            status = call(at, item, buffer, room, length)
            if status == DONE:
                return ctypes.string_at(buffer, length.value)
            if status == NO_MEMORY:
                raise MemoryError
            if status != SHORT:
                return None
            room = length.value

    return text


NAME, FULL_NAME, JSON_NAME = _text(lib.name), _text(lib.full_name), _text(lib.json_name)
DEFAULT, OPTIONS = _text(lib.default), _text(lib.options)


def _parts_by_ctypes(
    info: Info, kind: int, is_whole: bool, at: Any, index: int, count: int
) -> Optional[Told]:
    parts = []
    for number in range(count):
        place = (index + number, 0) if is_whole else (index, number)
        told, name = info(at, *place), NAME(at, kind, *place)
        if told is None or name is None:
            return None
        parts.append((name.decode(), told))
    return parts


FILE = Teller(lib.file, FileInfo)
MESSAGE = Teller(lib.message, MessageInfo)
FIELD = Teller(lib.field, FieldInfo)
ONEOF = Teller(lib.oneof, OneofInfo)
ENUM = Teller(lib.enum, EnumInfo)
ENUM_VALUE = Teller(lib.enum_value, EnumValueInfo)
SERVICE = Teller(lib.service, ServiceInfo)
METHOD = Teller(lib.method, MethodInfo)
EXTENSION = Teller(lib.extension, ExtensionInfo)
EXTENSION_RANGE = Teller(lib.message_extension_range, Range)
RESERVED_RANGE = Teller(lib.message_reserved_range, Range)
ENUM_RESERVED_RANGE = Teller(lib.enum_reserved_range, Range)
