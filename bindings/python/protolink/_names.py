"""Look-ups by name, which are asked for most: by the extension `_finding` where it was built, else
by ctypes."""

from __future__ import annotations

import ctypes
from collections.abc import Callable
from importlib.machinery import PathFinder
from importlib.util import module_from_spec
from struct import Struct
from typing import Any, Optional, cast

from ._library import DONE, FOLDER, PACKAGE, SHORT, Item, RawPool, lib

FIRST_PATH = 16
"""How many numbers a path may have that is had by one call."""

Found = tuple[int, int, int, int]
"""The kind, the index, the position and the file of what a full name means."""

Defined = tuple[int, int, int, int, tuple[int, ...]]
"""The same, and the path of the name in the record of the file."""


def _load() -> Any:
    """The extension, which stands beside the library, or in the package where the system has that.
    None where it was not built."""
    spec = PathFinder.find_spec("protolink._finding", [str(FOLDER or PACKAGE)])
    if spec is None or spec.loader is None:
        return None
    module = module_from_spec(spec)
    spec.loader.exec_module(module)
    return module


finding = _load()


class Names:
    """The look-ups by name in the pool to which a pointer leads, which lives as long. Each reads the
    pointer and makes its call of the library while its thread has the lock of the interpreter."""

    def __init__(self, pool: RawPool) -> None:
        self.found: Callable[[bytes], Optional[Found]]
        """What a full name means, or None."""
        self.defined: Callable[[bytes], Optional[Defined]]
        """What a full name means, and where it is declared, or None."""
        self.file: Callable[[bytes], Optional[int]]
        """The index of the file with a name, or None."""
        if finding is None:
            self.found, self.file = _found_by_ctypes(pool), _file_by_ctypes(pool)
            self.defined = _defined_by_ctypes(pool, self.found)
        else:
            calls = (lib.pool_find, lib.pool_find_path, lib.file_by_name)
            made = finding.finders(*map(address, calls), ctypes.addressof(pool))
            self.found, self.defined, self.file = made


def address(call: Any) -> Optional[int]:
    """Where a call of the library stands."""
    return ctypes.cast(call, ctypes.c_void_p).value


# By ctypes. Most of its time goes to the conversion of arguments, so that here they are prepared.


def _prepared(call: Any) -> Any:
    """A call of the library that takes bytes, and what `byref` and `from_param` make, unread."""
    made = type(call)(address(call))
    made.restype = call.restype
    return made


_length: Callable[[bytes], int] = bytes.__len__
"""How many bytes there are, whatever a subclass says."""

_size: Callable[[int], Any] = ctypes.c_size_t.from_param

_MANY = 256
_SIZES = tuple(map(_size, range(_MANY)))
"""The lengths of most names."""

_ROOMS: list[tuple[bytearray, Any, Any]] = []
"""Buffers for an item and a file that no thread uses, each with its two pointers."""

_NUMBERS: list[tuple[ctypes.c_uint32, Any]] = []
"""The same for a number."""

_item_and_file: Callable[[bytearray], Found] = cast(Any, Struct("=IIII").unpack)


def _room() -> tuple[bytearray, Any, Any]:
    """A buffer for an item and a file, and a pointer to each."""
    buffer = bytearray(ctypes.sizeof(Item) + ctypes.sizeof(ctypes.c_uint32))
    kept = (ctypes.c_char * len(buffer)).from_buffer(buffer)
    return buffer, ctypes.byref(kept), ctypes.byref(kept, ctypes.sizeof(Item))


def _number() -> tuple[ctypes.c_uint32, Any]:
    """A number, and a pointer to it."""
    number = ctypes.c_uint32()
    return number, ctypes.byref(number)


def _found_by_ctypes(pool: RawPool) -> Callable[[bytes], Optional[Found]]:
    find, at = _prepared(lib.pool_find), ctypes.byref(pool)

    def found(name: bytes) -> Optional[Found]:
        length = _length(name)
        try:
            room = _ROOMS.pop()
        except IndexError:
            room = _room()
        buffer, item, file = room
        status = find(at, name, _SIZES[length] if length < _MANY else _size(length), item, file)
        told = _item_and_file(buffer) if status == DONE else None
        _ROOMS.append(room)
        return told

    return found


def _defined_by_ctypes(
    pool: RawPool, find: Callable[[bytes], Optional[Found]]
) -> Callable[[bytes], Optional[Defined]]:
    find_path = lib.pool_find_path

    def defined(name: bytes) -> Optional[Defined]:
        found, room, length = find(name), FIRST_PATH, ctypes.c_size_t()
        while found is not None:
            path = (ctypes.c_int32 * room)()
            status = find_path(pool, name, _length(name), path, room, length)
            if status == DONE:
                return (*found, tuple(path[: length.value]))
            if status != SHORT:
                break
            room = length.value
        return None

    return defined


def _file_by_ctypes(pool: RawPool) -> Callable[[bytes], Optional[int]]:
    find, at = _prepared(lib.file_by_name), ctypes.byref(pool)

    def found(name: bytes) -> Optional[int]:
        length = _length(name)
        try:
            room = _NUMBERS.pop()
        except IndexError:
            room = _number()
        number, file = room
        status = find(at, name, _SIZES[length] if length < _MANY else _size(length), file)
        told = number.value if status == DONE else None
        _NUMBERS.append(room)
        return told

    return found
