#!/usr/bin/env python3
"""Compares how descriptor sets are read here and by protobuf's Python package, row by row.

    python3 compare_sets.py ../crates/test_trials/out/test_trials
    python3 compare_sets.py --damaged 20000 ../crates/test_trials/out/test_trials

Two kinds of sets are read. Fields: for each field of each message of descriptor.proto, in a set
with as little else as can be, the field absent, at its default, twice, with each other wire type,
packed and not, and each of these cut at each byte. Damaged sets: copies of protobuf's own twelve
files (crates/example_pool/data/well_known.pb), a file a set, with bytes changed, bits turned, bytes
removed, put in or doubled, or cut off, by a fixed seed (--seed).

What should be: both accept, and then what is written here is read by protobuf as the same set and
is written again byte for byte, or both refuse. The differences that docs/DIFFERENCES.md states are
counted by themselves: a text that is not UTF-8, a number that an enum does not have, and what
breaks off in a message of options. Any other is printed, and is a fault. So is another number of
stated differences than the sets of the fixed seed had before, where protobuf has that version.

The last line counts the two kinds: `N passed, M failed, K left out`. Exit status: 0 where none
failed, or protobuf's Python package is missing (python3-protobuf on Debian, for /usr/bin/python3),
which is said; else 1.
"""

from __future__ import annotations

import argparse
import contextlib
import os
import random
import subprocess
import sys
import warnings
from collections import Counter
from pathlib import Path
from typing import Iterator, NamedTuple, Optional

try:
    import google.protobuf
    from google.protobuf import descriptor_pb2
    from google.protobuf.message import DecodeError, Message
except ImportError:
    descriptor_pb2 = None

STORED = Path(__file__).resolve().parent.parent / "crates/example_pool/data/well_known.pb"
ROWS_AT_A_TIME = 500
HELD_BY = "4.21.12"
"""The version of protobuf's package whose stated differences are known."""
HELD = {
    "fields": {"NotUtf8": 4, "in options": 9},
    "damaged 2000": {"NotUtf8": 88, "enum": 1},
    "damaged 20000": {"NotUtf8": 1050, "enum": 21},
}
"""How many stated differences the sets have: of fields, and so many damaged ones of seed 1."""
NUMBER, FIXED_64, BYTES, GROUP, GROUP_END, FIXED_32 = range(6)
READ_HERE = {  # the fields of descriptor.proto that records have
    "FileDescriptorSet": {1},
    "FileDescriptorProto": set(range(1, 13)),
    "DescriptorProto": set(range(1, 11)),
    "ExtensionRange": {1, 2, 3},
    "ReservedRange": {1, 2},
    "FieldDescriptorProto": {*range(1, 11), 17},
    "OneofDescriptorProto": {1, 2},
    "EnumDescriptorProto": set(range(1, 6)),
    "EnumReservedRange": {1, 2},
    "EnumValueDescriptorProto": {1, 2, 3},
    "ServiceDescriptorProto": {1, 2, 3},
    "MethodDescriptorProto": set(range(1, 7)),
    "SourceCodeInfo": {1},
    "Location": {1, 2, 3, 4, 6},
}


@contextlib.contextmanager
def silenced() -> Iterator[None]:
    """Without protobuf's warnings on texts that are not UTF-8."""
    kept, nothing = os.dup(2), os.open(os.devnull, os.O_WRONLY)
    os.dup2(nothing, 2)
    try:
        yield
    finally:
        os.dup2(kept, 2)
        os.close(kept)
        os.close(nothing)


class Answer(NamedTuple):
    """What is said of a set: its encoding, or a fault and its offset."""

    encoded: Optional[bytes]
    fault: str


def varint(number: int) -> bytes:
    """The shortest varint of a number of 64 bits."""
    number &= (1 << 64) - 1
    digits = bytearray()
    while number >= 128:
        digits.append(number % 128 + 128)
        number //= 128
    return bytes([*digits, number])


def field_bytes(number: int, wire_type: int, value: bytes) -> bytes:
    """A field of a wire type with a value."""
    length = varint(len(value)) if wire_type == BYTES else b""
    end = varint(8 * number + GROUP_END) if wire_type == GROUP else b""
    return varint(8 * number + wire_type) + length + value + end


class Messages:
    """The messages of descriptor.proto that records have, and the fields that lead to each."""

    def __init__(self) -> None:
        self.paths: dict[str, tuple] = {}
        self._visit(descriptor_pb2.FileDescriptorSet.DESCRIPTOR, ())

    def _visit(self, message, path: tuple) -> None:
        if message.name in self.paths:
            return
        self.paths[message.name] = (message, path)
        for field in message.fields:
            if field.message_type and field.number in READ_HERE.get(message.name, ()):
                self._visit(field.message_type, (*path, field.number))

    def __iter__(self) -> Iterator[tuple]:
        return iter(self.paths.values())


def values(field) -> dict[int, list[bytes]]:
    """Values of a field by their wire types, of which some are the field's own."""
    number = [varint(0), varint(1), varint(300), varint(-1)]
    texts = [b"", b"a", b"\x08\x01"]
    if field.enum_type or field.cpp_type == field.CPPTYPE_BOOL:
        number = number[:2] if field.cpp_type == field.CPPTYPE_BOOL else [varint(1), varint(2)]
    return {
        NUMBER: number,
        FIXED_64: [bytes(8)],
        BYTES: texts if field.message_type is None else [b""],
        GROUP: [b"", field_bytes(field.number, NUMBER, varint(1))],
        FIXED_32: [bytes(4)],
    }


def sets_of_field(field, path: tuple) -> Iterator[bytes]:
    """Sets with a field absent, at its default, twice, of each wire type, packed and not."""
    fields = [b""]
    for wire_type, found in values(field).items():
        fields += [field_bytes(field.number, wire_type, value) for value in found]
        fields += [field_bytes(field.number, wire_type, value) * 2 for value in found]
        fields += [first + last for first, last in zip(fields[-2:], fields[1:])]
    if field.label == field.LABEL_REPEATED:
        fields.append(field_bytes(field.number, BYTES, varint(1) + varint(300) + varint(-1)))
    for inner in fields:
        for number in reversed(path):
            inner = field_bytes(number, BYTES, inner)
        yield inner


def field_rows() -> Iterator[bytes]:
    """The sets of each field of each message, and each cut at each byte."""
    for message, path in Messages():
        for field in message.fields:
            for row in sets_of_field(field, path):
                yield from (row[:end] for end in range(len(row) + 1))


def damaged(seed: random.Random, row: bytes) -> bytes:
    """A copy with up to four changes."""
    copy = bytearray(row)
    for _ in range(seed.choice((1, 1, 2, 4))):
        at = seed.randrange(len(copy) + 1)
        until = at + seed.randint(1, 8)
        change = seed.randrange(6)
        if change == 0 and at < len(copy):
            copy[at] = seed.randrange(256)
        elif change == 1 and at < len(copy):
            copy[at] ^= 1 << seed.randrange(8)
        elif change == 2:
            del copy[at:until]
        elif change == 3:
            copy[at:at] = bytes(seed.randrange(256) for _ in range(until - at))
        elif change == 4:
            copy[at:at] = copy[at:until]
        elif seed.randrange(8) == 0:
            del copy[at:]
    return bytes(copy)


def damaged_rows(count: int, number: int) -> Iterator[bytes]:
    """Damaged sets of one file each, with and without its locations."""
    stored = descriptor_pb2.FileDescriptorSet.FromString(STORED.read_bytes())
    rows = []
    for file in stored.file:
        one = descriptor_pb2.FileDescriptorSet(file=[file])
        rows.append(one.SerializeToString())
        one.file[0].ClearField("source_code_info")
        rows.append(one.SerializeToString())
    seed = random.Random(number)
    for _ in range(count):
        yield damaged(seed, seed.choice(rows))


def answers(program: str, rows: list[bytes]) -> list[Answer]:
    """What the program says of rows."""
    text = "".join(f"{row.hex()}\n" for row in rows).encode()
    done = subprocess.run([program, "rows"], input=text, stdout=subprocess.PIPE, check=True)
    told = []
    for line in done.stdout.decode().splitlines():
        word, rest = line.split(" ", 1)
        is_set = word == "ok"
        told.append(Answer(bytes.fromhex(rest) if is_set else None, "" if is_set else line))
    if len(told) != len(rows):
        raise SystemExit(f"{len(rows)} rows, and {len(told)} answers")
    return told


def parsed(row: bytes) -> Optional[Message]:
    """The set that protobuf reads, or none where it refuses the bytes. Its Python package reads
    what stands before the end of a group that is not open, and warns; protobuf itself refuses
    it."""
    message = descriptor_pb2.FileDescriptorSet()
    with warnings.catch_warnings(record=True) as told:
        warnings.simplefilter("always")
        try:
            message.ParseFromString(row)
        except DecodeError:
            return None
    return None if told else message


def bared(message: Message) -> Message:
    """A message without what records do not have: unknown fields, and fields of newer protobufs."""
    message.DiscardUnknownFields()
    known = READ_HERE.get(message.DESCRIPTOR.name)
    if known is None:
        return message
    for field, value in message.ListFields():
        if field.number not in known:
            message.ClearField(field.name)
        elif field.message_type and field.label == field.LABEL_REPEATED:
            for inner in value:
                bared(inner)
        elif field.message_type:
            bared(value)
    return message


def clear_options(message: Message) -> None:
    """Takes the options out of a message and of those in it."""
    if "options" in message.DESCRIPTOR.fields_by_name:
        message.ClearField("options")
    for field, value in message.ListFields():
        if field.message_type:
            for inner in value if field.label == field.LABEL_REPEATED else [value]:
                clear_options(inner)


def lacking(row: bytes, message, path: tuple = ()) -> Iterator[tuple[tuple, str]]:
    """The parts of what is encoded here whose number their enum does not have: each by the fields
    and positions that lead to the message it stands in, and its name."""
    at, counts = 0, Counter()
    while at < len(row):
        tag, at = varint_at(row, at)
        length, at = varint_at(row, at)
        field = message.fields_by_number[tag // 8]
        if tag % 8 == NUMBER:
            if field.enum_type and length not in field.enum_type.values_by_number:
                yield path, field.name
            continue
        if field.message_type and field.name != "options":
            inner = (*path, (field.name, counts[field.name]))
            yield from lacking(row[at : at + length], field.message_type, inner)
        counts[field.name] += 1
        at += length


def clear_lacking(message: Message, parts: list[tuple[tuple, str]]) -> bool:
    """Takes parts out of a message, and answers whether all messages that have them are there."""
    for path, name in parts:
        inner = message
        for field, position in path:
            found = getattr(inner, field)
            described = inner.DESCRIPTOR.fields_by_name[field]
            if described.label != described.LABEL_REPEATED:
                inner = found
            elif position < len(found):
                inner = found[position]
            else:
                return False
        inner.ClearField(name)
    return True


def is_text(row: bytes, start: int) -> bool:
    """Whether the payload of a field that begins at an offset is UTF-8. Its length stands before
    it, and the tag of a text, which stands before that, has one byte."""
    digit, length = start - 1, 0
    while digit > 0 and row[digit - 1] >= 128:
        digit -= 1
    for shift, byte in enumerate(row[digit:start]):
        length += byte % 128 << 7 * shift
    try:
        row[start : start + length].decode()
    except UnicodeDecodeError:
        return False
    return True


def varint_at(row: bytes, at: int) -> tuple[int, int]:
    """The varint at an offset, and where it ends."""
    number = shift = 0
    while row[at] >= 128:
        number += (row[at] - 128) << shift
        at, shift = at + 1, shift + 7
    return number + (row[at] << shift), at + 1


def without_options(row: bytes, message, *, known: bool = False) -> bytes:
    """What is encoded here without its options, and without numbers that enums do not have where
    these are to be known. It has no groups and no fixed numbers."""
    out, at = bytearray(), 0
    while at < len(row):
        start = at
        tag, at = varint_at(row, at)
        length, at = varint_at(row, at)
        field, value = message.fields_by_number[tag // 8], row[at : at + length]
        if tag % 8 == NUMBER:
            is_number = not known or not field.enum_type
            if is_number or length in field.enum_type.values_by_number:
                out += row[start:at]
            continue
        at += length
        if field.message_type is None:
            out += field_bytes(tag // 8, BYTES, value)
        elif field.name != "options":
            inner = without_options(value, field.message_type, known=known)
            out += field_bytes(tag // 8, BYTES, inner)
    return bytes(out)


def compared(row: bytes, told: Answer, again: Optional[Answer]) -> str:
    """How a row is read on both sides: agreement, a stated difference, or another one."""
    read = parsed(row)
    if told.encoded is None:
        if read is None:
            return "both refuse"
        kind, at = told.fault.split()
        is_stated = kind == "NotUtf8" and not is_text(row, int(at))
        return f"stated: {kind}" if is_stated else "other"
    if again is None or again.encoded != told.encoded:
        return "not written again"
    written = parsed(told.encoded)
    whole = descriptor_pb2.FileDescriptorSet.DESCRIPTOR
    bare = without_options(told.encoded, whole)
    if read is None:
        return "stated: in options" if written is None and parsed(bare) is not None else "other"
    if bared(written) != bared(read):
        parts = list(lacking(told.encoded, whole))
        is_same = all([clear_lacking(it, parts) for it in (written, read)]) and written == read
        return "stated: enum" if parts and is_same else "other"
    for field_set in (read, written):
        clear_options(field_set)
    if bare == read.SerializeToString() == written.SerializeToString():
        return "both accept"
    bare = without_options(told.encoded, whole, known=True)
    return "stated: enum" if bare == read.SerializeToString() else "other"


def compare(program: str, rows: Iterator[bytes]) -> Counter:
    """Counts how rows are read, and prints those that differ otherwise than stated."""
    counts: Counter = Counter()
    left = list(rows)
    for start in range(0, len(left), ROWS_AT_A_TIME):
        some = left[start : start + ROWS_AT_A_TIME]
        told = answers(program, some)
        encoded = [answer.encoded for answer in told if answer.encoded is not None]
        again = iter(answers(program, encoded))
        for row, answer in zip(some, told):
            found = compared(row, answer, next(again) if answer.encoded is not None else None)
            counts[found] += 1
            if found in ("other", "not written again"):
                print(f"{found}: {row.hex()}: {answer.fault}")
    return counts


def main() -> int:
    parser = argparse.ArgumentParser(
        description=__doc__, formatter_class=argparse.RawDescriptionHelpFormatter
    )
    parser.add_argument("program", help="the program test_trials, as `rt run` builds it")
    parser.add_argument("--damaged", type=int, default=2000, help="how many sets are damaged")
    parser.add_argument("--seed", type=int, default=1, help="what the changes are chosen by")
    parser.add_argument("--fields", action=argparse.BooleanOptionalAction, default=True)
    chosen = parser.parse_args()
    if descriptor_pb2 is None:
        print("left out: all, since protobuf's Python package is missing (python3-protobuf)")
        print("0 passed, 0 failed, 1 left out")
        return 0
    failed, left_out = 0, 0
    kinds = [("fields", field_rows())] if chosen.fields else []
    kinds.append((f"damaged {chosen.damaged}", damaged_rows(chosen.damaged, chosen.seed)))
    for name, rows in kinds:
        with silenced():
            counts = compare(chosen.program, rows)
        print(f"{name.split()[0]}: {sum(counts.values())}")
        for found, count in sorted(counts.items()):
            print(f"    {found}: {count}")
        differs = held_differs(name, counts) if chosen.seed == 1 else ""
        if differs and google.protobuf.__version__ != HELD_BY:
            print(f"left out: how many differences are stated, since protobuf is not {HELD_BY}")
            left_out += 1
        elif differs:
            print(f"    {differs}")
            counts["other"] += 1
        failed += bool(counts["other"] or counts["not written again"])
    print(f"{len(kinds) - failed} passed, {failed} failed, {left_out} left out")
    return 1 if failed else 0


def held_differs(name: str, counts: Counter) -> str:
    """Where the stated differences are others than they were, both."""
    if name not in HELD:
        return ""
    stated = {found.removeprefix("stated: "): count for found, count in counts.items()}
    found = {kind: stated[kind] for kind in ("NotUtf8", "in options", "enum") if stated.get(kind)}
    return f"stated are {found}, and were {HELD[name]}" if found != HELD[name] else ""


if __name__ == "__main__":
    sys.exit(main())
