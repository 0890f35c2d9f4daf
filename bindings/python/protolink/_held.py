"""The descriptors that someone holds."""

from __future__ import annotations

import threading
import weakref
from typing import TYPE_CHECKING, Any, Optional, TypeVar

if TYPE_CHECKING:
    from ._core import Core
    from ._described import Described

D = TypeVar("D", bound="Described")

Ref = Optional["weakref.ref[Any]"]

FEW = 1024
"""From how many on those are looked for that no one holds any more."""

_new = object.__new__


class Known:
    """What is noted of the descriptors of one class."""

    def __init__(self) -> None:
        self.parts: dict[int, list[Ref]] = {}
        """All parts of an item, by its index, where they were asked for at once."""
        self.ones: dict[int, Ref] = {}
        """Others, by the index and the position."""
        self.most = FEW
        """From how many on room is made."""

    def make_room(self) -> None:
        """Notes those no longer that no one holds."""
        for index, refs in list(self.parts.items()):
            if not _those_held(refs):
                self.parts.pop(index, None)
        for key, ref in list(self.ones.items()):
            if not _those_held([ref]):
                self.ones.pop(key, None)
        self.most = max(FEW, 2 * (len(self.parts) + len(self.ones)))

    def all(self) -> list[Any]:
        """Those that are held."""
        refs = [*self.ones.values(), *(ref for refs in list(self.parts.values()) for ref in refs)]
        return _those_held(refs)


def _those_held(refs: list[Ref]) -> list[Any]:
    found = [None if ref is None else ref() for ref in list(refs)]
    return [held for held in found if held is not None]


class Held:
    """The descriptors of a pool that someone holds, so that there is one of each as long.

    What is noted here keeps no descriptor. A lock is held while one is looked for, made and noted,
    and by who has it nothing else is waited for.
    """

    def __init__(self) -> None:
        self._lock = threading.RLock()
        self._known: dict[type, Known] = {}

    def one(self, core: Core, class_: type[D], index: int, position: int) -> D:
        """The descriptor of a class at an index and a position. It is made where no one holds it."""
        with self._lock:
            known = self._known.get(class_) or self._known.setdefault(class_, Known())
            refs = known.parts.get(index)
            key = index << 32 | position
            ref = known.ones.get(key) if refs is None else refs[position]
            held: Optional[D] = None if ref is None else ref()
            if held is None:
                held = _new(class_)
                held._core, held._index, held._position = core, index, position
                if refs is not None:
                    refs[position] = weakref.ref(held)
                else:
                    if len(known.ones) >= known.most:
                        known.make_room()
                    known.ones[key] = weakref.ref(held)
        return held

    def parts(self, core: Core, class_: type[D], index: int, count: int) -> list[D]:
        """All parts of the item at an index."""
        with self._lock:
            known = self._known.get(class_) or self._known.setdefault(class_, Known())
            if index in known.parts or known.ones:
                made = [self.one(core, class_, index, position) for position in range(count)]
            else:
                made = [_new(class_) for _ in range(count)]
                for position, held in enumerate(made):
                    held._core, held._index, held._position = core, index, position
            if index not in known.parts:
                if len(known.parts) >= known.most:
                    known.make_room()
                known.parts[index] = [weakref.ref(held) for held in made]
        return made

    def forget(self) -> None:
        """Lets all descriptors forget what they were asked."""
        with self._lock:
            for known in list(self._known.values()):
                for held in known.all():
                    held._forget()

    def after_fork(self) -> None:
        """Goes on in the child of a fork, where no other thread has the lock."""
        self._lock = threading.RLock()
