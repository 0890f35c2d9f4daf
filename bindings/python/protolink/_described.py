"""What descriptors of all kinds have in common."""

from __future__ import annotations

from collections.abc import Iterable
from contextlib import suppress
from functools import lru_cache
from importlib import import_module
from typing import TYPE_CHECKING, Any, ClassVar, Optional, TypeVar

from ._asked import copy_to
from ._cached import PRIVATE, cached_property, slot_property
from ._library import KINDS, Item, lib
from ._locations import Location
from ._records import record_at
from ._told import FULL_NAME, NAME, OPTIONS, Parts, Teller, Text, Told

if TYPE_CHECKING:
    from ._core import Core
    from .descriptors import FileDescriptor
    from .pool import Pool

A = TypeVar("A")
D = TypeVar("D", bound="Described")
N = TypeVar("N", bound="Named")


@lru_cache(maxsize=None)
def _record_class(name: str) -> Any:
    """A record of protobuf's package."""
    try:
        return getattr(import_module("google.protobuf.descriptor_pb2"), name)
    except ImportError as fault:
        raise ImportError(f"{fault}: this wants protobuf's package") from fault


def by_name(items: list[N]) -> dict[str, N]:
    """Items by their names."""
    return {item.name: item for item in items}


class Described:
    """What a pool has at an index, or at a position of what has the index. What it was asked is kept
    in attributes of its own, until its pool is gone: those that most are asked in slots."""

    _SLOTS = ("_kept_name", "_kept__members")

    __slots__ = ("__dict__", "__weakref__", "_core", "_index", "_position", *_SLOTS)

    _core: Core
    _index: int
    _position: int
    _kept_name: str
    _kept__members: tuple[int, ...]

    _teller: ClassVar[Teller]
    _options: ClassVar[str]
    _record: ClassVar[str]

    def __new__(cls: type[D], core: Core, index: int, position: int = 0) -> D:
        """The descriptor of a place, which is one as long as someone holds it."""
        return core.held.one(core, cls, index, position)

    if not TYPE_CHECKING:

        def __getattr__(self, name: str) -> Any:
            """The answer of a slot that is empty."""
            if name not in self._SLOTS:
                raise AttributeError(f"a {type(self).__name__} has no attribute {name!r}")
            return self._keep(name, getattr(type(self), name[len(PRIVATE) :]).ask(self))

    def _keep(self, name: str, answer: A) -> A:
        """Keeps an answer, and answers that which is kept. Raises an error where the pool is gone."""
        kept = answer
        if name in self._SLOTS:
            setattr(self, name, answer)
        else:
            kept = vars(self).setdefault(name, answer)
        if self._core.gone is not None:
            self._forget()
            self._core.check()
        return kept

    def _forget(self) -> None:
        """Keeps no answer any more."""
        vars(self).clear()
        for name in self._SLOTS:
            with suppress(AttributeError):
                delattr(self, name)

    @slot_property
    def _members(self) -> tuple[int, ...]:
        """What the library tells of it."""
        return self._core.members(self._teller, self._index, self._position)

    @property
    def _info(self) -> Any:
        """The same by names."""
        return self._teller.named(self._members)

    @property
    def pool(self) -> Pool:
        """The pool that has it."""
        from .pool import pool_of  # which names this module

        self._core.check()
        return pool_of(self._core)

    def _key(self) -> tuple[int, int, int]:
        return id(self._core), self._index, self._position

    def __eq__(self, other: object) -> bool:
        if not isinstance(other, Described) or type(self) is not type(other):
            return NotImplemented
        return self._key() == other._key()

    def __hash__(self) -> int:
        return hash((type(self), self._key()))

    def _told(self) -> str:
        """The name by which it is printed."""
        raise NotImplementedError

    def __repr__(self) -> str:
        told = "of no pool any more" if self._core.gone else repr(self._told())
        return f"<protolink.{type(self).__name__} {told}>"

    def __copy__(self: D) -> D:
        return self

    def __deepcopy__(self: D, memo: dict[int, Any]) -> D:
        return self

    @property
    def options(self) -> bytes:
        """Its options, as the bytes of their message of descriptor.proto, also those that the
        library does not read. Where it has none, there are no bytes."""
        raise NotImplementedError

    @property
    def has_options(self) -> bool:
        """Whether it has options."""
        return bool(self.options)

    @cached_property
    def _options_message(self) -> Any:
        options = self.options
        return _record_class(self._options).FromString(options)

    def GetOptions(self) -> Any:
        """Its options, as a message of protobuf's package, which is one as long as someone holds
        the descriptor."""
        return self._options_message

    @property
    def serialized_pb(self) -> bytes:
        """Its linked record, as the bytes of its message of descriptor.proto."""
        raise NotImplementedError

    def CopyToProto(self, proto: Any) -> None:
        """Copies its linked record to one of protobuf's package. Raises a TypeError where that is
        of another kind."""
        copy_to(proto, self._record, self.serialized_pb)


def at_indexes(core: Core, cls: type[D], indexes: Iterable[int]) -> list[D]:
    """The descriptors of indexes."""
    one = core.held.one
    return [one(core, cls, index, 0) for index in indexes]


def all_of(core: Core, cls: type[N], count: int) -> list[N]:
    """The first descriptors of a kind. What each is and its name are asked for at once."""
    told = core.parts(cls._parts, 0, count)
    return _filled(core, at_indexes(core, cls, range(count)), told)


def parts_of(core: Core, cls: type[N], index: int, count: int) -> list[N]:
    """The same of the parts of what has an index."""
    told = core.parts(cls._parts, index, count)
    return _filled(core, core.held.parts(core, cls, index, count), told)


def _filled(core: Core, items: list[N], told: Told) -> list[N]:
    """Descriptors that keep their names and what they are."""
    for item, (name, members) in zip(items, told):
        item._kept_name = name
        item._kept__members = members
    if core.gone is not None:
        core.held.forget()
        core.check()
    return items


class Named(Described):
    """What has a name in a scope."""

    _kind: ClassVar[str]
    _number: ClassVar[int]
    """The kind, by the library's number."""
    _parts: ClassVar[Parts]
    """The look-up of parts of the kind."""

    def __init_subclass__(cls) -> None:
        if hasattr(cls, "_kind"):
            cls._number = KINDS.index(cls._kind)
            cls._parts = staticmethod(cls._teller.parts(cls._number))

    def _told_text(self, text: Text) -> Optional[bytes]:
        """A text of it, or None."""
        return self._core.asked(text, self._number, self._index, self._position)

    def _text(self, text: Text) -> bytes:
        told = self._told_text(text)
        if told is None:
            raise LookupError("the pool does not have it any more")
        return told

    @slot_property
    def name(self) -> str:
        """Its name, without the scope."""
        return self._text(NAME).decode()

    @cached_property
    def full_name(self) -> str:
        """Its full name, without a leading dot."""
        return self._text(FULL_NAME).decode()

    @cached_property
    def path(self) -> tuple[int, ...]:
        """Where it is declared in the record of its file: numbers of fields, and positions from
        0."""
        item = Item(self._number, self._index, self._position)
        return self._core.integers(lib.path, item) or ()

    @cached_property
    def location(self) -> Optional[Location]:
        """Where it stands in its source, with its comments, or None where its file does not tell
        it, as it does by `--include_source_info` of protoc. At the first question about a file all
        its locations are read."""
        return self._core.locations(self.file.index).of(self.path)

    @property
    def options(self) -> bytes:
        """Its options, as the bytes of their message of descriptor.proto, also those that the
        library does not read. Where it has none, there are no bytes."""
        return self._text(OPTIONS)

    @property
    def serialized_pb(self) -> bytes:
        """Its linked record, as the bytes of its message of descriptor.proto."""
        return record_at(self.file.serialized_pb, self.path)

    @property
    def file(self) -> FileDescriptor:
        """The file that declares it."""
        raise NotImplementedError

    def _told(self) -> str:
        return self.full_name


class Deprecated(Named):
    """What may be deprecated."""

    @property
    def is_deprecated(self) -> bool:
        """Whether its options say so."""
        return bool(self._info.is_deprecated)
