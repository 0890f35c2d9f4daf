"""Properties that are asked once. A descriptor keeps the answers until its pool is gone. Two threads
may ask at once, and the first answer is kept."""

from __future__ import annotations

from collections.abc import Callable
from operator import attrgetter
from typing import TYPE_CHECKING, Any

PRIVATE = "_kept_"
"""What the names of kept answers begin with."""

if TYPE_CHECKING:
    from functools import cached_property, cached_property as slot_property
else:
    _MISSING = object()

    def cached_property(ask: Callable[[Any], Any]) -> property:
        """As that of functools, for a descriptor."""
        name = PRIVATE + ask.__name__

        def answer(described: Any) -> Any:
            kept = described.__dict__.get(name, _MISSING)
            return described._keep(name, ask(described)) if kept is _MISSING else kept

        return property(answer, doc=ask.__doc__)

    class slot_property(property):
        """The same where the answer has a slot. No line of Python runs where it is there, and
        `__getattr__` of the descriptor asks where it is not."""

        def __init__(self, ask: Callable[[Any], Any]) -> None:
            super().__init__(attrgetter(PRIVATE + ask.__name__), doc=ask.__doc__)
            self.ask = ask


__all__ = ["PRIVATE", "cached_property", "slot_property"]
