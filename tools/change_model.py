#!/usr/bin/env python3
"""A model of check_descriptors that reports changes by the rules of docs/CHANGES.md.

    python3 change_model.py --against OLD --compatibility full --level source --json NEW
    python3 change_model.py --leave-out field-oneof --against OLD .. NEW

It writes of the object the members that compare_changes.py reads: the changes at wire of messages,
and of the levels json and source what a missing field may be read otherwise by. So that tool is
tried without the program, and with one that leaves out a kind of changes.
"""

from __future__ import annotations

import argparse
import json
from dataclasses import dataclass
from pathlib import Path
from typing import Any, Iterator, Optional

from google.protobuf import descriptor_pb2

DOUBLE, FLOAT, INT64, UINT64, INT32, BOOL, STRING, GROUP, MESSAGE, BYTES, UINT32, ENUM = (
    1, 2, 3, 4, 5, 8, 9, 10, 11, 12, 13, 14,
)  # fmt: skip
OPTIONAL, REQUIRED, REPEATED = 1, 2, 3
PLAIN = (INT32, INT64, UINT32, UINT64, BOOL, ENUM)
"""The kinds that are encoded as int32 is."""

WIDER = {UINT32: (UINT32, UINT64, INT64), 17: (17, 18)}
FORMS = {BOOL: "truth", STRING: "text", BYTES: "base64", MESSAGE: "object", GROUP: "object"}


@dataclass
class Entry:
    """A field or an extension of a message: its record, its full name, and whether its file is one
    of proto3."""

    record: Any
    name: str
    is_proto3: bool

    def oneof(self) -> Optional[int]:
        """The position of its oneof."""
        return self.record.oneof_index if self.record.HasField("oneof_index") else None


@dataclass
class Message:
    """A message: its record, and its fields and extensions by their numbers."""

    record: Any
    entries: dict[int, Entry]
    is_extended: bool = False

    def is_entry(self) -> bool:
        """Whether it is the entry of a map."""
        return bool(self.record.options.map_entry)

    def reserves(self, number: int) -> bool:
        """Whether it reserves a number."""
        return any(it.start <= number < it.end for it in self.record.reserved_range)

    def keeps_range(self, old: Any) -> bool:
        """Whether one of its ranges holds all of an older one."""
        ranges = self.record.reserved_range
        return any(it.start <= old.start and old.end <= it.end for it in ranges)


class Version:
    """A version, by the messages and the enums of its files."""

    def __init__(self, files: Any) -> None:
        self.messages: dict[str, Message] = {}
        self.enums: dict[str, tuple[Any, bool]] = {}
        for file in files.file:
            for one in file.message_type:
                self.add_message(f".{file.package}", one, file.syntax == "proto3")
            for one in file.enum_type:
                self.enums[f".{file.package}.{one.name}"] = (one, file.syntax == "proto3")
        for file in files.file:
            for one in file.extension:
                message = self.messages[one.extendee]
                message.is_extended = True
                made = Entry(one, f"{file.package}.{one.name}", file.syntax == "proto3")
                message.entries.setdefault(one.number, made)

    def add_message(self, around: str, record: Any, is_proto3: bool) -> None:
        """Adds a message and those in it."""
        name = f"{around}.{record.name}"
        fields = {
            one.number: Entry(one, f"{name}.{one.name}"[1:], is_proto3) for one in record.field
        }
        self.messages[name] = Message(record, fields)
        for one in record.nested_type:
            self.add_message(name, one, is_proto3)

    def is_open(self, one: Any) -> bool:
        """Whether the enum of a field is open."""
        return self.enums[one.type_name][1]

    def numbers(self, one: Any) -> list[int]:
        """The numbers of the enum of a field."""
        return [value.number for value in self.enums[one.type_name][0].value]

    def holds(self, one: Any, number: int) -> bool:
        """Whether a number of 32 bits is one of a kind that is encoded as int32 is."""
        if one.type in (INT32, INT64):
            return True
        if one.type in (UINT32, UINT64):
            return number >= 0
        if one.type == BOOL:
            return number in (0, 1)
        return one.type == ENUM and (self.is_open(one) or number in self.numbers(one))

    def holds_all(self, one: Any) -> bool:
        """Whether each number of 32 bits is one of a kind."""
        return one.type in (INT32, INT64) or one.type == ENUM and self.is_open(one)

    def first_number(self, one: Any) -> int:
        """What a missing field without a default is read as, as a number."""
        return self.numbers(one)[0] if one.type == ENUM else 0


class Pair:
    """Whether a newer version keeps what an older one writes."""

    def __init__(self, old: Version, new: Version) -> None:
        self.old = old
        self.new = new

    def are_alike(self, m: str, n: str) -> bool:
        """Whether two messages have one name, and both are entries of maps or neither is."""
        return m == n and self.old.messages[m].is_entry() == self.new.messages[n].is_entry()

    def keeps_map(self, m: str, n: str) -> bool:
        """Whether two messages are entries of maps, of which the new one keeps the old one."""
        both = self.old.messages[m], self.new.messages[n]
        return all(it.is_entry() for it in both) and self.keeps_parts(self.are_alike, *both)

    def keeps_message(self, m: str, n: str) -> bool:
        """Whether the new one of two messages keeps the old one, which may have another name."""

        def are_inner(a: str, b: str) -> bool:
            return self.are_alike(a, b) or self.keeps_map(a, b) or (a, b) == (m, n)

        both = self.old.messages[m], self.new.messages[n]
        return not any(it.is_entry() for it in both) and self.keeps_parts(are_inner, *both)

    def are_paired(self, m: str, n: str) -> bool:
        """Whether two messages are a pair."""
        return self.are_alike(m, n) or self.keeps_map(m, n) or self.keeps_message(m, n)

    def keeps_parts(self, pairs: Any, x: Message, y: Message) -> bool:
        """Whether a message keeps an old one, where some messages are pairs."""
        if x.is_extended or y.is_extended:
            return False
        kept = all(number in y.entries or y.reserves(number) for number in x.entries)
        kept = kept and all(y.keeps_range(it) for it in x.record.reserved_range)
        return kept and all(self.keeps_part(pairs, x, it) for it in y.entries.values())

    def keeps_part(self, pairs: Any, x: Message, after: Entry) -> bool:
        """Whether a field of a new message keeps what the old one has of its number."""
        before, is_required = x.entries.get(after.record.number), after.record.label == REQUIRED
        if before is None:
            return not is_required and not x.reserves(after.record.number)
        return (
            self.keeps_kind(pairs, before, after)
            and keeps_cardinality(before.record, after.record)
            and (not is_required or before.record.label == REQUIRED)
            and after.oneof() in (None, before.oneof())
        )

    def keeps_kind(self, pairs: Any, before: Entry, after: Entry) -> bool:
        """Whether each value of an old kind is one of the new kind, and is encoded alike."""
        one, other = before.record, after.record
        if one.type in (STRING, BYTES) and other.type in (STRING, BYTES):
            was, now = (it.is_proto3 and it.record.type == STRING for it in (before, after))
            return was or not now
        if one.type in (MESSAGE, GROUP):
            return one.type == other.type and pairs(one.type_name, other.type_name)
        return self.keeps_numbers(one, other)

    def keeps_numbers(self, one: Any, other: Any) -> bool:
        """Whether each number of an old kind is one of the new kind, and is encoded alike."""
        if one.type == INT32 or one.type == ENUM and self.old.is_open(one):
            return self.new.holds_all(other)
        if one.type == ENUM:
            numbers = self.old.numbers(one)
            return other.type in PLAIN and all(self.new.holds(other, it) for it in numbers)
        if one.type == BOOL:
            return self.new.holds(other, 0) and self.new.holds(other, 1)
        return other.type in WIDER.get(one.type, (one.type,))


def keeps_cardinality(one: Any, other: Any) -> bool:
    """Whether a field loses no items where it becomes repeated, or stays so."""
    if one.label == REPEATED:
        return other.label == REPEATED
    return other.label != REPEATED or one.type not in (MESSAGE, GROUP)


@dataclass
class Change:
    """A change: its level, its code, the number of its field, and both places, the reader's
    first."""

    level: str
    code: str
    number: int
    places: tuple[str, str]


class Changes:
    """What a reader's message changes of a writer's."""

    def __init__(self, pair: Pair, name: str) -> None:
        self.pair = pair
        self.name = name
        self.before = pair.old.messages[name]
        self.after = pair.new.messages[name]

    def change(self, code: str, number: int, level: str = "wire") -> Change:
        """A change of a number, or of the message."""
        sides = (self.after.entries.get(number), self.before.entries.get(number))
        places = [self.name[1:] if side is None else side.name for side in sides]
        return Change(level, code, number, (places[0], places[1]))

    def at_wire(self) -> Iterator[Change]:
        """What changes so that bytes are read otherwise."""
        for number, before in self.before.entries.items():
            yield from self.of_kept(number, before)
        yield from self.of_oneofs()
        for number, after in self.after.entries.items():
            was = self.before.entries.get(number)
            is_new = was is None or was.record.label != REQUIRED
            if after.record.label == REQUIRED and is_new:
                yield self.change("field-required", number)
            if was is None and self.before.reserves(number):
                yield self.change("reserved-removed", number)
        for old in self.before.record.reserved_range:
            is_taken = old.start in self.after.entries and old.start not in self.before.entries
            if not is_taken and not self.after.keeps_range(old):
                yield self.change("reserved-removed", 0)

    def of_kept(self, number: int, before: Entry) -> Iterator[Change]:
        """What changes of the kind and the cardinality of a field, or that its number is free."""
        after = self.after.entries.get(number)
        if after is None:
            if not self.after.reserves(number):
                yield self.change("number-free", number)
            return
        if not self.pair.keeps_kind(self.pair.are_paired, before, after):
            yield self.change("field-kind", number)
        if not keeps_cardinality(before.record, after.record):
            yield self.change("field-cardinality", number)

    def of_oneofs(self) -> Iterator[Change]:
        """Which old fields come into one oneof that were not in one."""
        for at, _ in enumerate(self.after.record.oneof_decl):
            held = [number for number, it in self.after.entries.items() if it.oneof() == at]
            olds = [number for number in held if number in self.before.entries]
            for number in olds[1:]:
                oneofs = [self.before.entries[it].oneof() for it in (olds[0], number)]
                if None in oneofs or oneofs[0] != oneofs[1]:
                    yield self.change("field-oneof", number)

    def of_missing(self, told: set[tuple[str, int]]) -> Iterator[Change]:
        """What changes of the forms of fields in JSON, and of what a missing one is read as."""
        for number, before in self.before.entries.items():
            after = self.after.entries.get(number)
            if after is None:
                continue
            is_formed = self.has_form(before.record, after.record)
            if not is_formed and ("field-kind", number) not in told:
                yield self.change("field-json", number, "json")
            is_list = {before.record.label == REPEATED, after.record.label == REPEATED}
            if len(is_list) == 2 and ("field-cardinality", number) not in told:
                yield self.change("field-repeated", number, "json")
            if self.has_default(before.record, after.record):
                yield self.change("field-default", number, "source")

    def has_form(self, one: Any, other: Any) -> bool:
        """Whether a parser of JSON reads the values of an old kind as those of a new one."""
        forms = [FORMS.get(it.type, it.type_name or "number") for it in (one, other)]
        return forms[0] == forms[1] or (one.type, other.type) == (INT32, ENUM)

    def has_default(self, one: Any, other: Any) -> bool:
        """Whether a field that is missing is read otherwise, by its default or by its enum."""
        given = [it.default_value if it.HasField("default_value") else None for it in (one, other)]
        if given != [None, None]:
            return given[0] != given[1]
        first = self.pair.old.first_number(one), self.pair.new.first_number(other)
        return first[0] != first[1] and other.label != REPEATED


def value_changes(pair: Pair) -> Iterator[Change]:
    """What changes of the names of values."""
    for name, (enum, _) in pair.old.enums.items():
        around = name.rpartition(".")[0][1:]
        news = pair.new.enums[name][0].value
        known = {(it.name, it.number) for it in news}
        for one in enum.value:
            if (one.name, one.number) in known:
                continue
            others = [it.name for it in news if it.number == one.number]
            place = f"{around}.{others[0]}" if others else name[1:]
            code = "value-name" if others else "value-removed"
            yield Change("json", code, 0, (place, f"{around}.{one.name}"))


def changes(old: Version, new: Version, is_backward: bool) -> Iterator[Change]:
    """What a reader's version changes of a writer's."""
    pair = Pair(old, new)
    for name, before in old.messages.items():
        if name in new.messages:
            it = Changes(pair, name)
            wire = list(it.at_wire())
            yield from wire
            yield from it.of_missing({(one.code, one.number) for one in wire})
        elif not before.is_entry():
            level = "wire" if is_backward else "source"
            yield Change(level, "message-removed", 0, ("", name[1:]))
    yield from value_changes(pair)


def answer(old: Version, new: Version, compatibility: str, left_out: str) -> dict[str, Any]:
    """The members of the object that compare_changes.py reads."""
    asked = ["backward", "forward"] if compatibility == "full" else [compatibility]
    found = []
    for direction in asked:
        is_backward = direction == "backward"
        sides = (old, new) if is_backward else (new, old)
        for one in changes(sides[0], sides[1], is_backward):
            is_told = is_backward or one.code not in ("number-free", "reserved-removed")
            if is_told and one.code != left_out:
                here, there = one.places if is_backward else one.places[::-1]
                place = {"code": one.code, "level": one.level, "direction": direction}
                related = [{"element": there or None}]
                found.append({**place, "element": here or None, "related": related})
    compared = [{"direction": direction} for direction in asked]
    return {"verdict": "accepted", "compared": compared, "changes": found}


def version_of(name: str) -> Version:
    """The version of a file."""
    return Version(descriptor_pb2.FileDescriptorSet.FromString(Path(name).read_bytes()))


def main() -> None:
    """Does what the arguments ask."""
    parser = argparse.ArgumentParser(description=__doc__)
    parser.add_argument("--leave-out", default="")
    parser.add_argument("--against")
    parser.add_argument("--compatibility", default="backward")
    parser.add_argument("--level")
    parser.add_argument("--max-faults")
    parser.add_argument("--json")
    asked = parser.parse_args()
    versions = version_of(asked.against), version_of(asked.json)
    print(json.dumps(answer(*versions, asked.compatibility, asked.leave_out)))


if __name__ == "__main__":
    main()
