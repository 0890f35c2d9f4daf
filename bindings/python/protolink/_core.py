"""The calls of one pool, as the pool and its descriptors make them."""

from __future__ import annotations

import ctypes
import json
import os
import sys
import weakref
from collections.abc import Callable, Iterator
from typing import TYPE_CHECKING, Any, Optional, TypeVar

from ._library import (
    DONE,
    MOST,
    NO_MEMORY,
    NONE,
    REFUSED,
    SHORT,
    TOO_MANY,
    RawAdded,
    RawCounts,
    RawPool,
    lib,
)
from ._held import Held
from ._locations import Locations
from ._names import FIRST_PATH, Defined, Found, Names
from ._told import ENUM, EXTENSION, FIRST_ROOM, MESSAGE, SERVICE, Parts, Teller, Told, pointer
from ._turns import Turns
from .faults import Refused, TooMany, Unreadable, fault_of

if TYPE_CHECKING:
    from .pool import Pool

FIRST_LONG_ROOM = 16384
"""The same of what each call makes anew: linked files, and the text of changes."""

CLOSED = (LookupError, "the pool was closed")
LOST = (RuntimeError, "a thread was changing the pool as the process forked: the child lost it")
"""Why a pool is gone: the error that its calls raise, and its text."""

I = TypeVar("I")


class Core:
    """A pool of the library. It lives as long as the pool that is made of it, and its descriptors.

    A look-up takes no lock but that of the interpreter, which it has from before it reads the view
    until its answer is written. A call that changes the pool lets go of the interpreter's lock. So
    it takes the view away before, and look-ups then see an empty pool. What one tells counts where
    the pool was calm before it and is so still; else it is asked again in turn.
    """

    def __init__(self) -> None:
        self._pool = RawPool()
        """What calls are passed that change the pool."""
        self._view = RawPool()
        """A copy of its pointer, for look-ups; none while the pool changes."""
        self._at = ctypes.byref(self._view)
        self._pointer = pointer(self._view)
        self._names = Names(self._view)
        self._turns = Turns()
        self._calm: Optional[object] = object()
        """Another object after each change, and None while the pool changes. It stays None where an
        exception tears a change, up to the next look-up, and where the pool is gone."""
        self.gone: Optional[tuple[type[Exception], str]] = None
        """Why its calls raise an error: `CLOSED` or `LOST`, or None where they raise none."""
        self._linked_len = 0
        """About how long the linked files are."""
        self._below: dict[str, Below] = {}
        self._locations: dict[int, Locations] = {}
        self.held = Held()
        """Its descriptors."""
        self.database: Any = None
        """Where files are found that the pool does not have, or None."""
        self.owner: Optional[weakref.ReferenceType[Pool]] = None
        _CORES.add(weakref.ref(self, _CORES.discard))

    def __del__(self) -> None:
        if lib is not None and hasattr(self, "_pool"):
            lib.pool_clear(self._pool)

    def read(self, call: Callable[..., int], *told: object) -> int:
        """Makes a call that reads the pool, and answers its status."""
        calm = self._calm
        status = call(self._at, *told)
        if calm is not None and self._calm is calm:
            return status
        return self._in_turn(lambda view: call(ctypes.byref(view), *told))

    def asked(self, look_up: Callable[..., Optional[I]], *told: int) -> Optional[I]:
        """What a look-up of `_told` answers."""
        calm = self._calm
        answer = look_up(self._pointer, *told)
        # an empty pool has no items
        if answer is not None or (calm is not None and self._calm is calm):
            return answer
        return self._in_turn(lambda view: look_up(pointer(view), *told))

    def _in_turn(self, look_up: Callable[[RawPool], I]) -> I:
        """Looks up when no other thread changes the pool."""
        with self._turns.lock:
            return look_up(self._now())

    def _now(self) -> RawPool:
        """A view of the pool, for who has the lock. Raises an error where the pool is gone."""
        self.check()
        if self._calm is None and not self._turns.is_within_change():
            self._show()
        return RawPool(self._pool.at)

    def _show(self) -> None:
        """Shows the pool to look-ups."""
        self._view.at = self._pool.at
        self._calm = object()

    def check(self) -> None:
        """Raises an error where the pool is gone."""
        if self.gone is not None:
            error, text = self.gone
            raise error(text)

    def read_long(self, call: Callable[..., int], *told: object) -> int:
        """The same of a call that may take long, and lets go of the interpreter's lock. It is passed
        a view of its own, and only calls wait for it that change the pool."""
        return self._turns.read(self._now, lambda view: call(ctypes.byref(view), *told))

    def _change(self, call: Callable[[Any], I]) -> I:
        """Makes a call that changes the pool, when no other one uses it."""
        calm = object()

        def hidden() -> I:
            try:
                self._calm = None
                self._view.at = None
                return call(ctypes.byref(self._pool))
            finally:
                # no call is made here, after which a handler of signals could raise an exception
                self._view.at = self._pool.at
                self._calm = calm if self.gone is None else None

        return self._turns.change(hidden)

    def close(self) -> None:
        """Frees what the pool owns. From now on its calls raise an error."""

        def clear(pool: object) -> None:
            self.gone = CLOSED
            lib.pool_clear(pool)
            self._forget()

        self._change(clear)

    def _forget(self) -> None:
        """Keeps nothing that was asked of the pool, as it is gone."""
        self._below, self._locations = {}, {}
        self.held.forget()

    def after_fork(self) -> None:
        """Goes on in the child of a fork, which has none of the other threads. What one of them was
        changing is lost, and its memory is not freed."""
        self.held.after_fork()
        if self._turns.end_others():
            self.gone = LOST
            self._calm = self._view.at = self._pool.at = None
            self._forget()
            owner = None if self.owner is None else self.owner()
            if owner is not None:
                owner._forget()

    def add(self, call: Callable[..., int], data: bytes, *more: object) -> RawAdded:
        """Links files and answers what became of them, or raises why they are not linked."""
        added = RawAdded()

        def link(pool: object) -> tuple[int, bytes]:
            self.check()
            status = call(pool, data, len(data), *more)
            if status == DONE:
                self.read(lib.pool_added, added)
            has_report = status not in (DONE, NO_MEMORY)
            return status, self.written(lib.pool_report_json) if has_report else b""

        status, report = self._change(link)
        if status == DONE:
            self._linked_len += 0 if added.passed_over else len(data)
            return added
        if status == NO_MEMORY:
            raise MemoryError
        told = json.loads(report)
        if status == REFUSED:
            raise Refused([fault_of(fault) for fault in told["faults"]], told["more"])
        if status == TOO_MANY:
            raise TooMany(f"too many {told['too_many']}")
        raise Unreadable(told["error"])

    def limit_faults(self, most: int) -> None:
        def limit(pool: object) -> int:
            self.check()
            return int(lib.pool_limit_faults(pool, min(most, MOST)))

        if self._change(limit) != DONE:
            raise MemoryError

    def clone(self) -> Core:
        """A pool with equal contents, which shares nothing with this one."""
        copy = type(self)()
        if self.read_long(lib.pool_clone, copy._pool) != DONE:
            raise MemoryError
        copy._show()
        copy._linked_len, copy.database = self._linked_len, self.database
        return copy

    def counts(self) -> RawCounts:
        counts = RawCounts()
        self.read(lib.pool_counts, counts)
        return counts

    def found(self, name: bytes) -> Optional[Found]:
        """What a full name means, or None."""
        calm = self._calm
        found = self._names.found(name)
        # an empty pool has no names
        if found is not None or (calm is not None and self._calm is calm):
            return found
        return self._in_turn(lambda view: Names(view).found(name))

    def defined(self, name: bytes) -> Optional[Defined]:
        """What a full name means, and where it is declared, or None."""
        calm = self._calm
        defined = self._names.defined(name)
        if defined is not None or (calm is not None and self._calm is calm):
            return defined
        return self._in_turn(lambda view: Names(view).defined(name))

    def file_named(self, name: bytes) -> Optional[int]:
        """The index of the file with a name, or None."""
        calm = self._calm
        index = self._names.file(name)
        if index is not None or (calm is not None and self._calm is calm):
            return index
        return self._in_turn(lambda view: Names(view).file(name))

    def linked(self) -> bytes:
        """The linked files."""
        room = (self._linked_len // FIRST_LONG_ROOM + 1) * FIRST_LONG_ROOM
        linked = self.written(lib.pool_linked, read=self.read_long, room=room)
        self._linked_len = len(linked)
        return linked

    def linked_file(self, index: int) -> bytes:
        """A linked file."""
        return self.written(lib.pool_linked_file, index, room=FIRST_LONG_ROOM)

    def changes(self, older: Core, level: int, compatibility: int) -> bytes:
        """What the pool changes of an older one, as an object of JSON."""

        def read(call: Callable[..., int], *told: object) -> int:
            def with_older(view: object, *rest: object) -> int:
                return self.read_long(call, view, *rest)

            return older.read_long(with_older, *told)

        asked = (level, compatibility)
        return self.written(lib.pool_changes, *asked, read=read, room=FIRST_LONG_ROOM)

    def written(
        self,
        call: Callable[..., int],
        *before: object,
        read: Optional[Callable[..., int]] = None,
        room: int = FIRST_ROOM,
    ) -> bytes:
        """What a call writes to a buffer. Raises an IndexError where the pool does not have it."""
        length = ctypes.c_size_t()
        while True:
            buffer = (ctypes.c_uint8 * room)()
            status = (read or self.read)(call, *before, buffer, room, length)
            if status == DONE:
                return ctypes.string_at(buffer, length.value)
            if status == NO_MEMORY:
                raise MemoryError
            if status != SHORT:
                raise IndexError("the pool does not have it")
            room = length.value

    def text(self, call: Callable[..., int], *before: object) -> Optional[str]:
        """A text that a call writes, or None."""
        try:
            return self.written(call, *before).decode()
        except IndexError:
            return None

    def texts(self, call: Callable[..., int], *before: object) -> Iterator[str]:
        """The texts that a call writes by position."""
        position = 0
        while True:
            text = self.text(call, *before, position)
            if text is None:
                return
            yield text
            position += 1

    def integers(self, call: Callable[..., int], *before: object) -> Optional[tuple[int, ...]]:
        """The numbers that a call writes to a buffer, or None."""
        room, length = FIRST_PATH, ctypes.c_size_t()
        while True:
            numbers = (ctypes.c_int32 * room)()
            status = self.read(call, *before, numbers, room, length)
            if status != SHORT:
                return tuple(numbers[: length.value]) if status == DONE else None
            room = length.value

    def members(self, teller: Teller, index: int, position: int = 0) -> tuple[int, ...]:
        """What an item is."""
        members = self.asked(teller.info, index, position)
        if members is None:
            raise LookupError("the pool does not have it any more")
        return members

    def told(self, teller: Teller, index: int, position: int = 0) -> Any:
        """The same by names."""
        return teller.named(self.members(teller, index, position))

    def parts(self, parts: Parts, index: int, count: int) -> Told:
        """The first parts of an item: their names, and what they are."""
        told = self.asked(parts, index, count) if count else []
        if told is None:
            raise LookupError("the pool does not have them any more")
        return told

    def number(self, call: Callable[..., int], *before: object) -> Optional[int]:
        """The number that a call answers, or None."""
        number = ctypes.c_uint32()
        status = self.read(call, *before, number)
        if status == NO_MEMORY:
            raise MemoryError
        return number.value if status == DONE else None

    def numbers(self, call: Callable[..., int], *before: object) -> Iterator[int]:
        """The numbers that a call answers by position."""
        position = 0
        while True:
            number = self.number(call, *before, position)
            if number is None:
                return
            yield number
            position += 1

    def ranges(self, teller: Teller, index: int, count: int) -> list[tuple[int, int]]:
        """The ranges of numbers that a call tells by position."""
        ranges = [self.told(teller, index, position) for position in range(count)]
        return [(it.start, it.end) for it in ranges]

    def locations(self, file: int) -> Locations:
        """Where things stand in the source of a file. All of a file are read once."""
        kept = self._locations.get(file)
        if kept is not None:
            return kept
        made = Locations(self.linked_file(file))
        self.check()
        return self._locations.setdefault(file, made)

    def below(self, kind: str, file: int, message: int = NONE) -> list[int]:
        """The indexes of what is declared in a file and in no message, or right in a message. All of
        a kind are asked once, and then those that were added. Of two threads that ask at once both
        may note an index."""
        teller, count = BELOW[kind]
        lists = self._below.setdefault(kind, Below())
        for index in range(lists.seen, getattr(self.counts(), count)):
            info = self.told(teller, index)
            place = (info.file, getattr(info, "parent", NONE))
            lists.indexes.setdefault(place, {})[index] = None
            lists.seen = index + 1
        return list(lists.indexes.get((file, message), ()))


class Below:
    """The indexes of one kind, in rising order, by the file and the message in which they are
    declared: all below the one that was not seen yet."""

    def __init__(self) -> None:
        self.seen = 0
        self.indexes: dict[tuple[int, int], dict[int, None]] = {}


BELOW = {
    "message": (MESSAGE, "messages"),
    "enum": (ENUM, "enums"),
    "service": (SERVICE, "services"),
    "extension": (EXTENSION, "extensions"),
}


class CoreInTurn(Core):
    """The same for an interpreter without a lock of its own: look-ups wait for one another."""

    def read(self, call: Callable[..., int], *told: object) -> int:
        return self._in_turn(lambda view: call(ctypes.byref(view), *told))

    def asked(self, look_up: Callable[..., Optional[I]], *told: int) -> Optional[I]:
        return self._in_turn(lambda view: look_up(pointer(view), *told))

    def found(self, name: bytes) -> Optional[Found]:
        return self._in_turn(lambda view: Names(view).found(name))

    def defined(self, name: bytes) -> Optional[Defined]:
        return self._in_turn(lambda view: Names(view).defined(name))

    def file_named(self, name: bytes) -> Optional[int]:
        return self._in_turn(lambda view: Names(view).file(name))


def new_core() -> Core:
    """An empty pool, as the interpreter wants it."""
    has_lock = getattr(sys, "_is_gil_enabled", lambda: True)()
    return Core() if has_lock else CoreInTurn()


_CORES: set[weakref.ReferenceType[Core]] = set()
"""All pools of the library that there are."""


def _after_fork() -> None:
    for known in list(_CORES):
        core = known()
        if core is not None:
            core.after_fork()


os.register_at_fork(after_in_child=_after_fork)
