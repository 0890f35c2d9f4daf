#!/usr/bin/env python3
"""Makes the rows of what protoc also refuses, or finds that they are as stored.

    python3 make_strict_rows.py write
    python3 make_strict_rows.py compare

The rows are in crates/test_rows/data/checks/strict. Each is a set of strict_rules.txt that breaks a
rule alone, or a change of the sources of make_break_sets.py, and is checked with `--strict`. After
it is by hand what is wanted of it, by docs/RULES.md and docs/CHECK.md: of each fault its code, its
text, the path at which it is, the element, its second place, and the note. `write` writes NAME.pb,
NAME.args, NAME.text, NAME.json and NAME.status. `compare` ends with status 1 where a stored file is
another.

Needed are protoc and protobuf's Python package: protobuf-compiler and python3-protobuf on Debian.
That package serves the system's own Python, /usr/bin/python3.
"""

from __future__ import annotations

import argparse
import sys
from dataclasses import dataclass
from typing import Optional

from google.protobuf import descriptor_pb2, text_format

import compare_strict
import make_break_sets as breaks
from make_break_sets import ITEM, MONEY, ORDER, SHELF, Fault, Place, Records, set_part

STRICT = breaks.DATA / "strict"
REBUILD = "where the file was built against another version of what it imports, build both again"
A = "a.proto"
B = "b.proto"
C = "c.proto"


@dataclass
class Row:
    """A row: the records of its set, and what is wanted of it. JSON is wanted of some."""

    name: str
    records: Records
    faults: list[Fault]
    json: bool


ROWS: list[Row] = []

SETS: dict[str, list[str]] = {}
for _row in compare_strict.rows():
    if _row.breaks:
        SETS.setdefault(_row.code, []).append(_row.text)


def named(name: str) -> str:
    """A code as words with dashes."""
    return "".join("-" + c.lower() if c.isupper() else c for c in name).strip("-")


def fault(code: str, element: str, words: str, note: str, at: Place, second=None, how="") -> Fault:
    """A fault: what breaks the rule, what is told of that, what to do, and where."""
    return Fault(code, f"'{element}' {words}", note, at, second, how)


def breaks_rule(
    code: str,
    path: list[int],
    element: Optional[str],
    words: str,
    note: str,
    *,
    number: int = 0,
    file: str = A,
    second: Optional[tuple[list[int], Optional[str]]] = None,
    how: str = "",
    as_json: bool = False,
) -> None:
    """A row of a set of the rules, by its number among those that break one, from 0."""
    files = text_format.Parse(SETS[code][number], descriptor_pb2.FileDescriptorSet())
    records = {record.name: record for record in files.file}
    behind = None if second is None else Place(file, *second)
    name = named(code) + ("" if number == 0 else f"-{number + 1}")
    told = fault(code, element or file, words, note, Place(file, path, element), behind, how)
    ROWS.append(Row(name, records, [told], as_json))


def changed(name: str, files: list[str], change, *faults: Fault) -> None:
    """A row of a change of the sources, whose lines protoc gives."""
    records = breaks.compiled(files)
    change(records)
    ROWS.append(Row(name, {file: records[file] for file in files}, list(faults), True))


SCALAR = "has a type name, and the type of a number or a text"
breaks_rule("TypeNameOfScalar", [4, 0, 2, 0, 6], "M.f", SCALAR, "leave one of the two out")
breaks_rule(
    "TypeNameOfScalar", [7, 0, 6], "x", SCALAR, "leave one of the two out", number=2, as_json=True
)
breaks_rule("TypeNameOfScalar", [4, 0, 2, 0, 6], "M.f", SCALAR, "leave one of the two out", number=4)
breaks_rule(
    "NotAMessageType",
    [4, 0, 2, 0, 6],
    "M.f",
    "is written as a message, and its type name means an enum",
    REBUILD,
    as_json=True,
)
breaks_rule(
    "NotAnEnumType",
    [4, 0, 2, 0, 6],
    "M.f",
    "is written as an enum, and its type name means a message",
    REBUILD,
)
breaks_rule(
    "NotAnEnumType",
    [4, 0, 3, 0, 2, 0, 6],
    "A.B.f",
    "is written as an enum, and its type name means a message",
    REBUILD,
    number=2,
)
breaks_rule(
    "MissingFileName", [1], None, "is no name of a file", "give the file a name", file=""
)
breaks_rule(
    "DuplicateImport",
    [3, 1],
    None,
    "imports a file twice",
    "leave one of the imports out",
    file=B,
    second=([3, 0], None),
    how="first imported at",
    as_json=True,
)
NAME = "has a name that is no identifier"
LETTERS = "take ASCII letters, digits and underscores"
breaks_rule("InvalidName", [4, 0, 1], "a-b", NAME, LETTERS, as_json=True)
breaks_rule("InvalidName", [4, 0, 2, 0, 1], "M.a.b", NAME, LETTERS, number=1)
breaks_rule("InvalidName", [4, 0, 8, 0, 1], "M.o p", NAME, LETTERS, number=2)
breaks_rule("InvalidName", [5, 0, 2, 0, 1], "A-", NAME, LETTERS, number=3)
breaks_rule(
    "InvalidPackage",
    [2],
    None,
    "is in a package with a part that is no identifier",
    "take ASCII letters, digits and underscores, and one dot between two parts",
    as_json=True,
)
breaks_rule(
    "DeepPackage", [2], None, "is in a package of more than 101 parts", "take fewer parts"
)
INNERMOST = ".".join(f"M{level}" for level in range(1, 33))
breaks_rule(
    "DeepMessage",
    [4, 0, *[3, 0] * 31, 1],
    INNERMOST,
    "stands in 31 other messages",
    "take it out of some of them",
    number=1,
)
breaks_rule(
    "RequiredInProto3",
    [4, 0, 2, 0, 4],
    "M.f",
    "is required, in proto3",
    "leave `required` out: fields of proto3 are optional or repeated",
)
breaks_rule(
    "DefaultInProto3",
    [4, 0, 2, 0, 7],
    "M.f",
    "has a default, in proto3",
    "leave it out: fields of proto3 have the default of their type",
)
breaks_rule(
    "GroupInProto3",
    [4, 0, 2, 0, 5],
    "M.g",
    "is a group, in proto3",
    "take a field of a nested message, with a new number: it is written otherwise",
)
breaks_rule(
    "ClosedEnumInProto3",
    [4, 0, 2, 0, 6],
    "M.f",
    "has an enum of proto2 as its type, in proto3",
    "take an enum of a file of proto3",
    file=B,
)
breaks_rule(
    "RepeatedDefault",
    [4, 0, 2, 0, 7],
    "M.f",
    "is repeated, and has a default",
    "leave the default out",
)
breaks_rule(
    "PackedField",
    [4, 0, 2, 0, 8],
    "M.f",
    "is packed, and no list of numbers, truth values or enums",
    "leave `packed` out",
)
breaks_rule(
    "Proto3OptionalInProto2",
    [4, 0, 2, 0, 17],
    "M.f",
    "has proto3_optional, in proto2",
    "leave it out: protoc sets it of fields of proto3 alone",
)
breaks_rule(
    "Proto3OptionalOneof",
    [4, 0, 2, 0, 17],
    "M.f",
    "has proto3_optional, and no oneof for itself",
    "give it a oneof that has no other field, as protoc does",
)
breaks_rule(
    "OneofFieldLabel",
    [4, 0, 2, 0, 4],
    "M.f",
    "stands in a oneof, and is required or repeated",
    "leave the label out, or take it out of the oneof",
)
breaks_rule(
    "FieldExtendee",
    [4, 0, 2, 0, 2],
    "M.f",
    "names a message that it extends, and is no extension",
    "leave the extendee out",
)
breaks_rule(
    "MessageSetField",
    [4, 0, 2, 0, 1],
    "M.f",
    "is a field of a message set",
    "declare it as an extension: a message set has no fields",
)
breaks_rule(
    "MessageSetExtension",
    [7, 0, 5],
    "x",
    "extends a message set, and is no optional message",
    "make it an optional field of a message",
)
breaks_rule("RequiredExtension", [7, 0, 4], "x", "is a required extension", "make it optional")
breaks_rule(
    "ExtensionOneof",
    [7, 0, 9],
    "x",
    "is an extension, and has an index of a oneof",
    "leave the index out",
)
breaks_rule(
    "ExtensionJsonName",
    [7, 0, 10],
    "x_y",
    "is an extension, and has a JSON name that is not made of its name",
    "leave the JSON name out",
)
breaks_rule(
    "ExtensionInProto3",
    [7, 0, 2],
    "x",
    "extends what is no message of options, in proto3",
    "declare it in a file of proto2",
    file=B,
)
breaks_rule(
    "EmptyOneof",
    [4, 0, 8, 0, 1],
    "M.o",
    "is a oneof without a field",
    "give it a field, or leave it out",
)
breaks_rule(
    "ScatteredOneof",
    [4, 0, 8, 0, 1],
    "M.o",
    "is a oneof whose fields do not stand together",
    "put its fields one behind another",
)
LATE = "is a oneof behind one that is made for an optional field"
for number, position in ((0, 1), (1, 1)):
    breaks_rule(
        "LateOneof",
        [4, 0, 8, position, 1],
        "M.o",
        LATE,
        "put the oneofs of optional fields behind all others",
        number=number,
    )
for number, element, positions in ((0, "MyEnum", (1, 0)), (4, "E", (2, 0))):
    breaks_rule(
        "ClashingValues",
        [5, 0, 2, positions[0]],
        element,
        "has two values whose names are one without the enum's name and in one case",
        "rename one, or give both one number",
        number=number,
        second=([5, 0, 2, positions[1]], element),
        how="the other one is declared at",
        as_json=number == 0,
    )
breaks_rule(
    "ExtensionRangesInProto3",
    [4, 0, 5],
    "M",
    "has extension ranges, in proto3",
    "leave them out, or declare the message in a file of proto2",
)
breaks_rule(
    "MessageSetInProto3",
    [4, 0, 7],
    "M",
    "is a message set, in proto3",
    "declare it in a file of proto2",
)
breaks_rule(
    "RangeNotPositive",
    [4, 0, 5, 0],
    "M",
    "has a range that begins at 0 or below",
    "begin it at 1 or above",
)
ENDS = "has a range that ends before it begins"
breaks_rule("EmptyRange", [4, 0, 5, 0], "M", ENDS, "write the lower number first")
breaks_rule("EmptyRange", [5, 0, 4, 0], "E", ENDS, "write the lower number first", number=2)
breaks_rule(
    "RangePastMaximum",
    [4, 0, 5, 0],
    "M",
    "has an extension range that goes past 536,870,911",
    "end it there, as `max` does",
)
for number, path, second in (
    (0, [4, 0, 5, 1], [4, 0, 5, 0]),
    (2, [4, 0, 5, 0], [4, 0, 9, 0]),
):
    breaks_rule(
        "RangesOverlap",
        path,
        "M",
        "has two ranges with a number in common",
        "part them, or make one of both",
        number=number,
        second=(second, "M"),
        how="the other one is declared at",
        as_json=True,
    )
breaks_rule(
    "DuplicateReservedName",
    [4, 0, 10, 1],
    "M",
    "reserves a name twice",
    "leave one out",
    second=([4, 0, 10, 0], "M"),
    how="first reserved at",
)
breaks_rule(
    "ReservedName",
    [4, 0, 2, 0],
    "M",
    "has a field or a value with a reserved name",
    "take another name",
    second=([4, 0, 10, 0], "M"),
    how="it is reserved at",
)
breaks_rule(
    "ReservedName",
    [5, 0, 2, 0],
    "E",
    "has a field or a value with a reserved name",
    "take another name",
    number=1,
    second=([5, 0, 5, 0], "E"),
    how="it is reserved at",
    as_json=True,
)
breaks_rule(
    "MapEntry",
    [4, 0, 2, 0, 6],
    "M.foo_bar",
    "is of the entry of a map, which is not made as its own",
    "declare it as `map<KEY, VALUE>`, which makes its entry",
)
breaks_rule(
    "MapKeyType",
    [4, 0, 2, 0, 6],
    "M.f",
    "is a map whose keys are neither whole numbers nor truth values nor strings",
    "take keys of one of these types",
)
breaks_rule(
    "MapEnumValue",
    [4, 0, 2, 0, 6],
    "M.f",
    "is a map whose values are of an enum that does not begin with 0",
    "put the value of the enum with the number 0 first",
)


def cycle(file: str) -> Fault:
    """That a file imports itself or a file that does."""
    return fault(
        "ImportCycle",
        file,
        "imports itself or a file that does, directly or through other files",
        "leave out an import of the cycle; what two files both need can stand in a third",
        Place(file, [3], None),
    )


ROWS.append(
    Row(
        "import-cycle",
        {
            record.name: record
            for record in text_format.Parse(
                SETS["ImportCycle"][0], descriptor_pb2.FileDescriptorSet()
            ).file
        },
        [cycle(A), cycle(B), cycle(C)],
        True,
    )
)
changed(
    "reserved-name-with-its-lines",
    [MONEY, ITEM],
    set_part(ITEM, "message_type 0 field 2", name="colour"),
    fault(
        "ReservedName",
        "shop.Item",
        "has a field or a value with a reserved name",
        "take another name",
        Place(ITEM, [4, 0, 2, 2], "shop.Item"),
        Place(ITEM, [4, 0, 10, 0], "shop.Item"),
        "it is reserved at",
    ),
)
changed(
    "required-in-proto3-with-its-lines",
    [MONEY, ITEM, ORDER],
    set_part(ORDER, "message_type 0 field 1", label=2),
    fault(
        "RequiredInProto3",
        "shop.Order.items",
        "is required, in proto3",
        "leave `required` out: fields of proto3 are optional or repeated",
        Place(ORDER, [4, 0, 2, 1, 4], "shop.Order.items"),
    ),
)
changed(
    "enum-that-became-a-message-with-its-lines",
    [MONEY, ITEM, ORDER],
    set_part(ORDER, "message_type 0 field 4", type_name=".shop.Item.Part"),
    fault(
        "NotAnEnumType",
        "shop.Order.state",
        "is written as an enum, and its type name means a message",
        REBUILD,
        Place(ORDER, [4, 0, 2, 4, 6], "shop.Order.state"),
    ),
)
changed(
    "ranges-that-overlap-with-their-lines",
    [MONEY, ITEM, SHELF],
    set_part(SHELF, "message_type 0 extension_range 0", start=12),
    fault(
        "RangesOverlap",
        "depot.Shelf",
        "has two ranges with a number in common",
        "part them, or make one of both",
        Place(SHELF, [4, 0, 5, 0], "depot.Shelf"),
        Place(SHELF, [4, 0, 9, 0], "depot.Shelf"),
        "the other one is declared at",
    ),
)


def row_files(row: Row) -> dict[str, bytes]:
    """The files of a row, by the ends of their names."""
    wanted = breaks.Row(row.name, list(row.records), lambda records: None, row.faults)
    files = {
        "pb": descriptor_pb2.FileDescriptorSet(file=row.records.values()).SerializeToString(),
        "args": f"--strict\n{row.name}.pb\n".encode(),
        "text": breaks.row_text(row.records, wanted).encode(),
        "status": b"1\n",
    }
    if row.json:
        files["json"] = breaks.row_object(row.records, wanted).encode()
    return files


def main() -> int:
    """Does what the arguments ask; the result is the exit status."""
    parser = argparse.ArgumentParser(
        description=__doc__, formatter_class=argparse.RawDescriptionHelpFormatter
    )
    parser.add_argument("what", choices=("write", "compare"))
    writes = parser.parse_args().what == "write"
    made = {f"{row.name}.{end}": text for row in ROWS for end, text in row_files(row).items()}
    if writes:
        STRICT.mkdir(exist_ok=True)
        for name, text in made.items():
            (STRICT / name).write_bytes(text)
        return 0
    stored = {path.name: path.read_bytes() for path in STRICT.iterdir()}
    others = [name for name in {**made, **stored} if made.get(name) != stored.get(name)]
    for name in sorted(others):
        print(f"differs: {name}")
    print(f"{len(ROWS)} rows, {len(others)} files that differ")
    return 1 if others else 0


if __name__ == "__main__":
    sys.exit(main())
