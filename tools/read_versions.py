"""What protobuf reads of messages by a version of a schema, and messages that are written by one.

protobuf's Python package over C++ reads: it refuses bytes, or says which values they have. Those
are seen through the loose file of schema_versions.py: what was read is written again, without what
was unknown, and that is read as it is. So strings of proto2 that are not UTF-8 are seen, and what
is missing is another thing than 0. A map is seen as what is left of its entries: of each key the
last.
"""

from __future__ import annotations

import contextlib
import os
import struct
import sys
from dataclasses import dataclass
from random import Random
from typing import Any, Iterator, Optional

try:
    from google.protobuf import descriptor_pool, message_factory
    from google.protobuf.message import DecodeError, Message
except ImportError:
    Message = Any

from schema_versions import (
    NUMBERS,
    Field,
    Version,
    loose_file,
    loose_name,
    real_set,
)

FLOATS = [1.0, -2.5, 3.25e10, 1e-3, 0.0, -0.0, float("inf")]
TEXTS = [b"", b"a", "gr\u00fcn".encode(), "\u20ac".encode()]
BYTES = [*TEXTS, b"\xff", b"\x80b"]
UNKNOWN = [b"\xa0\x38\x05", b"\xa2\x38\x02hi"]
"""A number and a text of the number 900, which no version has."""

MOST_LEVELS = 4
EDGES = [0, 1, 2, 3, 5, -1, 2**31 - 1, 2**31, 2**32 - 1, 2**32 + 5, -(2**31), 2**63]


@contextlib.contextmanager
def silence() -> Iterator[None]:
    """Keeps protobuf from telling on the standard error of each text of proto2 that is not
    UTF-8."""
    sys.stderr.flush()
    kept, nothing = os.dup(2), os.open(os.devnull, os.O_WRONLY)
    os.dup2(nothing, 2)
    try:
        yield
    finally:
        os.dup2(kept, 2)
        os.close(kept)
        os.close(nothing)


def classes_of(files: list[Any]) -> dict[str, Any]:
    """protobuf's classes of the messages of some files, by their names without the package."""
    pool = descriptor_pool.DescriptorPool()
    for file in files:
        pool.Add(file)
    made = message_factory.MessageFactory(pool).GetMessages([file.name for file in files])
    return {name.removeprefix("m."): one for name, one in made.items() if name.startswith("m.")}


@dataclass
class Seen:
    """What was read of the bytes of a message with a name: the values as they are, and whether all
    is there that is required."""

    name: str
    values: Message
    is_complete: bool = True


class Reader:
    """What protobuf reads and writes by a version."""

    def __init__(self, version: Version) -> None:
        self.version = version
        self.shapes = version.shapes()
        self.numbered = {name: {f.number: f for f in them} for name, them in self.shapes.items()}
        self.loose = classes_of([loose_file(version)])
        self.real = classes_of(list(real_set(version).file))
        self.as_defined: Optional[dict[str, Any]] = None
        self.to_maps: dict[str, list[Field]] = {}
        while self.find_maps():
            pass

    def is_entry(self, name: str) -> bool:
        """Whether a message is the entry of a map."""
        around, _, entry = name.partition(".")
        return any(one.label == "map" and one.entry() == entry for one in self.shapes[around])

    def has_key(self, name: str) -> bool:
        """Whether a message has a field that may be a key, at the number of a key."""
        one = self.numbered[name].get(1)
        return one is not None and not one.is_list() and self.version.held(name, one) is None

    def find_maps(self) -> bool:
        """Adds the fields of each message that are maps, or hold messages with some. Whether any
        was added is the result."""
        found = {
            name: [it for it in them if it.label == "map" or it.kind in self.to_maps]
            for name, them in self.shapes.items()
        }
        found = {name: them for name, them in found.items() if them}
        is_more, self.to_maps = found != self.to_maps, found
        return is_more

    def seen(self, classes: dict[str, Any], name: str, made: Message) -> Message:
        """The values of a message that was read, as they are. protobuf keeps of each key of a map
        the last entry as soon as one asks for the map."""
        made.DiscardUnknownFields()
        for one in self.to_maps.get(name, []):
            if one.label == "map":
                len(getattr(made, one.name))
        values = self.loose_class(name).FromString(made.SerializePartialToString())
        for one in self.to_maps.get(name, []):
            if one.kind in self.to_maps:
                self.see_inner(classes, one, values_of(values, one))
        return values

    def see_inner(self, classes: dict[str, Any], one: Field, items: list[Message]) -> None:
        """Does the same of the messages that a field holds, or the entries of it."""
        for item in items if one.entry() is None else [item.f2 for item in items]:
            again = classes[one.kind].FromString(item.SerializePartialToString())
            item.CopyFrom(self.seen(classes, one.kind, again))

    def loose_class(self, name: str) -> Any:
        """The loose class of a message or of an entry."""
        return self.loose[loose_name(name)]

    def read(self, name: str, data: bytes) -> Optional[Seen]:
        """What is read of the bytes of a message, or nothing where they are refused."""
        return self.read_by(self.real, name, data)

    def read_as_defined(self, name: str, data: bytes) -> Optional[Seen]:
        """The same, where an enum of proto3 is open also in a field of proto2: C++ takes an enum as
        closed by the file of the field."""
        if self.as_defined is None:
            self.as_defined = classes_of(list(real_set(self.version, True).file))
        return self.read_by(self.as_defined, name, data)

    def read_by(self, classes: dict[str, Any], name: str, data: bytes) -> Optional[Seen]:
        """What is read of the bytes of a message by some classes."""
        try:
            made = classes[name].FromString(data)
        except DecodeError:
            return None
        return Seen(name, self.seen(classes, name, made), made.IsInitialized())

    def value_of(self, made: Message, one: Field) -> Any:
        """What code reads of a field or an extension of a message."""
        if one.name in made.DESCRIPTOR.fields_by_name:
            return getattr(made, one.name)
        return made.Extensions[made.DESCRIPTOR.file.pool.FindExtensionByName(f"m.{one.name}")]

    def missing(self, name: str, one: Field) -> Any:
        """What code reads of a field that is missing."""
        return self.value_of(self.real[name](), one)


def number_in(rng: Random, least: int, end: int) -> int:
    """A number of a range, often one near its ends or near those of narrower kinds."""
    found = rng.choice([*EDGES, least, end - 1])
    return found if least <= found < end else rng.randrange(least, end)


class Writer:
    """Random messages of a version."""

    def __init__(self, rng: Random, reader: Reader) -> None:
        self.rng = rng
        self.reader = reader
        self.version = reader.version
        self.is_again = False

    def scalar(self, name: str, kind: str) -> Any:
        """A value of a field of a message that holds no message."""
        if kind in NUMBERS:
            return number_in(self.rng, *NUMBERS[kind])
        if kind in self.version.enums:
            is_open = self.version.is_open(kind)
            more = [7, -2, 2**31 - 1] if is_open else []
            return self.rng.choice(self.version.enums[kind].numbers() + more)
        if kind == "bool":
            return self.rng.random() < 0.7
        if kind in ("float", "double"):
            return self.rng.choice(FLOATS)
        is_checked = kind == "string" and self.version.is_proto3(self.version.file_of(name))
        return self.rng.choice(TEXTS if is_checked else BYTES)

    def asked(self, name: str, only: Optional[set[int]]) -> set[int]:
        """The numbers of the fields of a message that are written: of each oneof one at most."""
        found: set[int] = set()
        members: dict[str, list[int]] = {}
        for one in self.reader.shapes[name]:
            is_allowed = only is None or one.number in only
            if one.oneof is not None and is_allowed:
                members.setdefault(one.oneof, []).append(one.number)
            elif one.label == "required" or is_allowed and (only or self.rng.random() < 0.7):
                found.add(one.number)
        for numbers in [] if self.is_again else members.values():
            if only or self.rng.random() < 0.7:
                found.add(self.rng.choice(numbers))
        return found

    def fill(self, name: str, made: Message, level: int, asked: set[int]) -> Message:
        """Gives a message values in the fields with some numbers."""
        for one in self.reader.shapes[name]:
            if one.number in asked:
                self.fill_field(name, made, one, level)
        return made

    def fill_inner(self, held: str, made: Message, level: int) -> None:
        """Fills a message in another one."""
        made.SetInParent()
        self.fill(held, made, level + 1, self.asked(held, None))

    def fill_field(self, name: str, made: Message, one: Field, level: int) -> None:
        """Gives a field of a message a value, or some."""
        held = self.version.held(name, one)
        at = f"f{one.number}"
        if held is None:
            if one.is_list():
                values = [self.scalar(name, one.kind) for _ in range(self.rng.randint(1, 3))]
                getattr(made, at).extend(values)
            else:
                setattr(made, at, self.scalar(name, one.kind))
        elif one.label == "required" or level < MOST_LEVELS and not one.is_list():
            self.fill_inner(held, getattr(made, at), level)
        elif level < MOST_LEVELS:
            for _ in range(self.rng.randint(1, 3)):
                self.fill_item(name, one, getattr(made, at).add(), level)

    def fill_item(self, name: str, one: Field, item: Message, level: int) -> None:
        """Fills a message of a list. Entries often have one key, and may lack a key or a value."""
        if one.entry() is None:
            self.fill_inner(one.kind, item, level)
            return
        if self.rng.random() < 0.9:
            is_usual = self.rng.random() < 0.5
            item.f1 = self.usual_key(one.key) if is_usual else self.scalar(name, one.key)
        if one.kind in self.version.messages:
            self.fill_inner(one.kind, item.f2, level)
        elif self.rng.random() < 0.9:
            item.f2 = self.scalar(name, one.kind)

    def usual_key(self, kind: str) -> Any:
        """One of two keys, so that a map often has one of them twice."""
        at = self.rng.randrange(2)
        return [b"", b"k"][at] if kind == "string" else at

    def write(self, name: str, only: Optional[set[int]] = None) -> bytes:
        """What is written of a random message, or of its fields with some numbers and those that
        are required: whole, or in two parts, of which the second has no other member of a
        oneof."""
        loose, self.is_again = self.reader.loose_class(name), False
        first = self.fill(name, loose(), 0, self.asked(name, only))
        made = first.SerializePartialToString()
        if self.rng.random() < 0.3:
            there = {one.number for one, _ in first.ListFields()}
            self.is_again = True
            again = self.asked(name, only) | {it for it in there if self.rng.random() < 0.5}
            made += self.fill(name, loose(), 0, again).SerializePartialToString()
        if self.rng.random() < 0.1:
            made += self.rng.choice(UNKNOWN)
        return made


def plain(value: Any) -> Any:
    """A value by what it is and not by its kind: a number, bytes, or the bits of a float."""
    if isinstance(value, (bool, int)):
        return int(value)
    if isinstance(value, float):
        return struct.pack("<d", value)
    return value.encode() if isinstance(value, str) else value


def is_zero(value: Any) -> bool:
    """Whether a value is one that a field of proto3 without presence does not write."""
    return value in (0, b"")


def values_of(made: Message, one: Field) -> list[Any]:
    """The values of a field that are there."""
    at = f"f{one.number}"
    if one.is_list():
        return list(getattr(made, at))
    return [getattr(made, at)] if made.HasField(at) else []


class Comparison:
    """Whether what was read by an older and by a new version is the same."""

    def __init__(self, old: Reader, new: Reader) -> None:
        self.old = old
        self.new = new

    def are_alike(self, one: Seen, two: Seen, only: Optional[set[int]] = None) -> bool:
        """Whether each field that two messages have by its number has the same values, or each of
        those with some numbers."""
        news = self.new.numbered[two.name]
        return all(
            self.is_field_alike(one, before, two, news[before.number])
            for before in self.old.shapes[one.name]
            if before.number in news and (only is None or before.number in only)
        )

    def is_field_alike(self, one: Seen, before: Field, two: Seen, after: Field) -> bool:
        """Whether a field has the same values in both messages. Of one that was not repeated and is
        now, the last value counts."""
        olds, news = values_of(one.values, before), values_of(two.values, after)
        held = self.old.version.held(one.name, before)
        holds = self.new.version.held(two.name, after)
        if held is not None and holds is not None:
            inner = [Seen(held, it) for it in olds], [Seen(holds, it) for it in news]
            is_map = "map" in (before.label, after.label)
            is_map = is_map and self.old.has_key(held) and self.new.has_key(holds)
            return self.are_maps_alike(*inner) if is_map else self.are_lists_alike(*inner)
        if held is not None or holds is not None:
            return not olds and not news
        if after.is_list() and not before.is_list():
            news = news[-1:]
        if "plain" in (before.label, after.label):
            olds, news = ([v for v in them if not is_zero(v)] for them in (olds, news))
        return [plain(value) for value in olds] == [plain(value) for value in news]

    def are_lists_alike(self, olds: list[Seen], news: list[Seen]) -> bool:
        """Whether two lists of messages are the same."""
        return len(olds) == len(news) and all(map(self.are_alike, olds, news))

    def are_maps_alike(self, olds: list[Seen], news: list[Seen]) -> bool:
        """Whether two lists of entries have the same values by the same keys."""
        found = {plain(entry.values.f1): entry for entry in news}
        return len(olds) == len(news) and all(
            plain(entry.values.f1) in found
            and self.are_alike(entry, found[plain(entry.values.f1)], {2})
            for entry in olds
        )

    def is_lost(self, name: str, data: bytes, only: Optional[set[int]] = None) -> bool:
        """Whether bytes that were written of a message by the older version are refused by the new
        one, or read otherwise."""
        old, new = self.old.read(name, data), self.new.read(name, data)
        assert old is not None, f"a writer's own message is refused: {name} {data.hex()}"
        return new is None or not self.are_alike(old, new, only)

    def is_kept_as_defined(
        self, name: str, data: bytes, only: Optional[set[int]] = None
    ) -> bool:
        """Whether bytes are read as they were written, where enums of proto3 are open also in
        fields of proto2."""
        old, new = self.old.read_as_defined(name, data), self.new.read_as_defined(name, data)
        assert old is not None
        if new is None or not (new.is_complete or only is not None):
            return False
        return self.are_alike(old, new, only)

    def is_lost_either_way(self, name: str, data: bytes, only: Optional[set[int]]) -> bool:
        """Whether bytes are refused or read otherwise, by C++ or by the definitions."""
        return self.is_lost(name, data, only) or not self.is_kept_as_defined(name, data, only)

    def is_incomplete(self, name: str, data: bytes) -> bool:
        """Whether something is missing that the new version requires."""
        new = self.new.read(name, data)
        return new is not None and not new.is_complete
