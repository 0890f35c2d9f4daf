"""Whose turn it is to use a pool."""

from __future__ import annotations

import threading
from collections.abc import Callable
from typing import Optional, TypeVar

T = TypeVar("T")
V = TypeVar("V")


class Turns:
    """The turns of one pool: one change, or any number of long reads.

    Nothing is counted. A turn holds a lock in a `with` statement, so that an exception ends it, at
    whatever moment it comes. What else is noted of a turn counts only while that lock is held. A
    call that waits for a turn to end holds no lock meanwhile.
    """

    def __init__(self) -> None:
        self.lock = threading.RLock()
        """It is held where a long read begins, and by a change to its end."""
        self._change = threading.Lock()
        """It is held by a change."""
        self._reads: dict[threading.Lock, int] = {}
        """The long reads: the lock that each holds, and its thread."""

    def is_within_change(self) -> bool:
        """Whether the thread, which has the lock, is within a change, as it may be in a handler of
        signals."""
        return self._change.locked()

    def read(self, begin: Callable[[], V], call: Callable[[V], T]) -> T:
        """Makes a call that may read for long. What it reads is taken while nothing changes."""
        read = threading.Lock()
        with read:
            try:
                with self.lock:
                    self._reads[read] = threading.get_ident()
                    begun = begin()
                return call(begun)
            finally:
                self._reads.pop(read, None)

    def change(self, call: Callable[[], T]) -> T:
        """Makes a call that changes the pool, after each long read that has begun. Raises a
        RuntimeError where the thread would wait for itself."""
        while True:
            with self.lock:
                if self._change.locked():
                    raise RuntimeError("the pool can't be changed within a call that changes it")
                read = self._long_read()
                if read is None:
                    with self._change:
                        return call()
            with read:
                pass

    def _long_read(self) -> Optional[threading.Lock]:
        """A long read of another thread that has not ended, or None."""
        self._reads = {it: thread for it, thread in self._reads.copy().items() if it.locked()}
        if threading.get_ident() in self._reads.values():
            raise RuntimeError("the pool can't be changed within linked, clone or changes")
        return next(iter(self._reads), None)

    def end_others(self) -> bool:
        """Ends the turns of all other threads, in the child of a fork, which has none of them.
        Answers whether one of them was changing the pool."""
        own = threading.get_ident()
        self._reads = {it: thread for it, thread in self._reads.items() if thread == own}
        if self.lock.acquire(blocking=False):
            self.lock.release()
            return False
        was_changing = self._change.locked()
        self.lock, self._change = threading.RLock(), threading.Lock()
        return was_changing
