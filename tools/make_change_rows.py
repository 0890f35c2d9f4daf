#!/usr/bin/env python3
"""Makes the rows of the check against older versions, or find that they are as stored.

    python3 make_change_rows.py write
    python3 make_change_rows.py compare

The rows are in crates/test_rows/data/checks/changes. Each has the sources of an older and of a new
version, and after them by hand, by docs/CHANGES.md and docs/CHECK.md, what is reported: of each
change its code, its text, the element at which it is in the new version and in the older one,
and what to do. Lines and columns are those that protoc gives. `write` writes of each row
NAME.old.pb, NAME.new.pb, NAME.args, NAME.text, NAME.json and, where it is not 0, NAME.status.
`compare` ends with status 1 where a stored file is another.

Needed are protoc and protobuf's Python package: protobuf-compiler and python3-protobuf on Debian.
That package serves the system's own Python, /usr/bin/python3.
"""

from __future__ import annotations

import argparse
import json
import subprocess
import sys
import tempfile
from dataclasses import dataclass, field
from pathlib import Path
from typing import Optional

from google.protobuf import descriptor_pb2

import make_break_sets as breaks
from make_break_sets import Fault, Place, Records

CHANGES = breaks.DATA / "changes"
FILE = "m.proto"

P2 = 'syntax = "proto2";\npackage m;\n'
P3 = 'syntax = "proto3";\npackage m;\n'
E = "enum E {\n  A = 0;\n  B = 1;\n  C = 2;\n}\n"
E_LESS = "enum E {\n  A = 0;\n  B = 1;\n}\n"
E_MORE = "enum E {\n  A = 0;\n  B = 1;\n  C = 2;\n  D = 3;\n}\n"
N = "message N {\n  optional int32 x = 1;\n  optional int32 y = 2;\n}\n"


def message(*lines: str, name: str = "M") -> str:
    """The source of a message."""
    return f"message {name} {{\n" + "".join(f"  {line}\n" for line in lines) + "}\n"


def new_number(number: int) -> str:
    """What to do where a number cannot have both meanings."""
    return f"take a new number, and write 'reserved {number};'"


def reserve(number: int) -> str:
    """What to do about a number that is free."""
    return f"write 'reserved {number};', so that no later field takes the number"


OUTSIDE = "a writer may set two of these fields, and a reader keeps the last: leave it outside"
INSIDE = "a writer may set two of these fields, and an older reader keeps the last: leave it inside"
OPTIONAL = "a reader refuses what an older writer leaves out: make it optional"
REQUIRED = "an older reader refuses what a writer leaves out: leave it required"


@dataclass
class Change:
    """What is told of a change. The elements are full names, of the new version and of the older one,
    or the name of a file. The words stand before the place in the older version, where others do."""

    code: str
    text: str
    note: str
    new: str
    old: str
    level: str = "wire"
    words: str = ""


@dataclass
class Row:
    """A row: both sources, and the changes of each direction that is tried. The new version's source
    stands in a file with a name of its own, if that is given. The source of e.proto may stand beside
    both, which import it."""

    name: str
    old: str
    new: str
    backward: Optional[list[Change]] = None
    forward: Optional[list[Change]] = None
    most: Optional[int] = None
    level: Optional[str] = None
    file: str = FILE
    format: Optional[str] = None
    beside: Optional[str] = None


ROWS: list[Row] = []


def kept(name: str, old: str, new: str) -> None:
    """A row of which nothing changes for a reader of the new version."""
    ROWS.append(Row(name, old, new, backward=[]))


def told(name: str, old: str, new: str, *changes: Change) -> None:
    """A row of which something changes for a reader of the new version."""
    ROWS.append(Row(name, old, new, backward=list(changes)))


def told_forward(name: str, old: str, new: str, *changes: Change) -> None:
    """A row of which something changes for a reader of the older version."""
    ROWS.append(Row(name, old, new, forward=list(changes)))


def kind(element: str, number: int, before: str, after: str, behind: str = "") -> Change:
    """A field of another kind."""
    text = f"'{element}' ({number}): {before} became {after}{behind}"
    return Change("field-kind", text, new_number(number), element, element)


def cardinality(element: str, number: int, before: str, after: str) -> Change:
    """A field that is repeated, and was not, or the other way round."""
    text = f"'{element}' ({number}): {before} became {after}"
    return Change("field-cardinality", text, new_number(number), element, element)


def of_one_field(name: str, before: str, after: str, *changes: Change, head: str = P3) -> None:
    """A row of a message with one field, whose kind changes."""
    label = "optional " if head.startswith(P2) else ""
    old = head + message(f"{label}{before} a = 1;")
    told(name, old, head + message(f"{label}{after} a = 1;"), *changes)


# Numbers: each value of the old kind is one of the new kind, and is encoded alike, or it is told.
for before, after in (
    ("int32", "int64"),
    ("uint32", "uint64"),
    ("uint32", "int64"),
    ("sint32", "sint64"),
    ("bool", "int32"),
    ("bool", "int64"),
    ("bool", "uint32"),
    ("bool", "uint64"),
):
    of_one_field(f"{before}-to-{after}", before, after)
for before, after in (
    ("int64", "int32"),
    ("int32", "uint32"),
    ("int32", "uint64"),
    ("uint32", "int32"),
    ("uint64", "int64"),
    ("int64", "uint64"),
    ("uint64", "uint32"),
    ("int32", "sint32"),
    ("sint32", "int32"),
    ("sint64", "sint32"),
    ("int32", "bool"),
    ("bool", "sint32"),
    ("fixed32", "sfixed32"),
    ("sfixed64", "fixed64"),
    ("fixed64", "fixed32"),
    ("uint32", "fixed32"),
    ("float", "double"),
    ("float", "fixed32"),
    ("double", "int64"),
):
    of_one_field(f"{before}-to-{after}", before, after, kind("m.M.a", 1, before, after))

# Enums: an open one has each number of 32 bits, and a closed one those of its values.
of_one_field("open-enum-to-int32", "E", "int32", head=P3 + E)
of_one_field("open-enum-to-int64", "E", "int64", head=P3 + E)
of_one_field("int32-to-open-enum", "int32", "E", head=P3 + E)
of_one_field(
    "open-enum-to-uint32",
    "E",
    "uint32",
    kind("m.M.a", 1, "open enum m.E", "uint32"),
    head=P3 + E,
)
ROWS.append(
    Row(
        "int32-to-open-enum-in-proto2",
        P2 + 'import "e.proto";\n' + message("optional int32 a = 1;"),
        P2 + 'import "e.proto";\n' + message("optional E a = 1;"),
        backward=[],
        beside=P3 + E,
    )
)
kept("open-enum-loses-a-value", P3 + E + message("E a = 1;"), P3 + E_LESS + message("E a = 1;"))
of_one_field("closed-enum-to-int32", "E", "int32", head=P2 + E)
of_one_field("closed-enum-to-uint32", "E", "uint32", head=P2 + E)
of_one_field("closed-enum-to-bool", "E", "bool", head=P2 + E_LESS)
of_one_field(
    "closed-enum-with-another-number-to-bool",
    "E",
    "bool",
    kind("m.M.a", 1, "closed enum m.E", "bool", ", which lacks 2"),
    head=P2 + E,
)
MINUS = "enum E {\n  A = 0;\n  B = -1;\n}\n"
of_one_field(
    "closed-enum-with-a-negative-number-to-uint32",
    "E",
    "uint32",
    kind("m.M.a", 1, "closed enum m.E", "uint32", ", which lacks -1"),
    head=P2 + MINUS,
)
of_one_field(
    "closed-enum-to-sint32",
    "E",
    "sint32",
    kind("m.M.a", 1, "closed enum m.E", "sint32"),
    head=P2 + E,
)
of_one_field(
    "int32-to-closed-enum",
    "int32",
    "E",
    kind("m.M.a", 1, "int32", "closed enum m.E"),
    head=P2 + E,
)
OF_E = message("optional E a = 1;")
LOSES = kind("m.M.a", 1, "closed enum m.E", "closed enum m.E", ", which lacks 2")
told("closed-enum-loses-a-number", P2 + E + OF_E, P2 + E_LESS + OF_E, LOSES)
kept("closed-enum-gains-a-number", P2 + E + OF_E, P2 + E_MORE + OF_E)
told_forward(
    "closed-enum-gains-a-number-forward",
    P2 + E + OF_E,
    P2 + E_MORE + OF_E,
    kind("m.M.a", 1, "closed enum m.E", "closed enum m.E", "; the older one lacks 3"),
)
kept(
    "closed-enum-under-another-name",
    P2 + E + OF_E,
    P2 + E.replace("enum E", "enum F") + message("optional F a = 1;"),
)
kept("closed-enum-with-renamed-values", P2 + E + OF_E, P2 + E.replace("C =", "Z =") + OF_E)
kept("closed-enum-opens", P2 + E + OF_E, P3 + E + OF_E)
told(
    "open-enum-closes",
    P3 + E + OF_E,
    P2 + E + OF_E,
    kind("m.M.a", 1, "open enum m.E", "closed enum m.E"),
)

# Texts: those of proto3 are checked to be UTF-8.
of_one_field("string-to-bytes", "string", "bytes")
of_one_field("bytes-to-string-of-proto2", "bytes", "string", head=P2)
of_one_field(
    "bytes-to-string-of-proto3",
    "bytes",
    "string",
    kind("m.M.a", 1, "bytes", "string of proto3"),
)
of_one_field(
    "string-to-int32",
    "string",
    "int32",
    kind("m.M.a", 1, "string of proto3", "int32"),
)
TEXT = message("optional string a = 1;")
kept("string-of-proto3-to-proto2", P3 + TEXT, P2 + TEXT)
told(
    "string-of-proto2-to-proto3",
    P2 + TEXT,
    P3 + TEXT,
    kind("m.M.a", 1, "string of proto2", "string of proto3"),
)

# Messages: one with the same full name, or one under another name that keeps the fields.
O = N.replace("message N", "message O")
OF_N = message("optional N a = 1;")
OF_O = message("optional O a = 1;")
ANOTHER = kind("m.M.a", 1, "message m.N", "message m.O")
kept("message-to-another-with-its-fields", P2 + N + O + OF_N, P2 + N + O + OF_O)
kept("message-under-another-name", P2 + N + OF_N, P2 + O + OF_O)
kept("message-under-another-name-with-wider-fields", P2 + N + OF_N, P2 + O.replace("int32", "int64") + OF_O)
kept(
    "message-under-another-name-with-a-further-field",
    P2 + N + OF_N,
    P2 + message("optional int32 x = 1;", "optional int32 y = 2;", "optional N z = 3;", name="O") + N + OF_O,
)
kept(
    "message-under-another-name-with-a-reserved-field",
    P2 + N + OF_N,
    P2 + message("optional int32 y = 2;", "reserved 1;", name="O") + OF_O,
)
kept(
    "message-under-another-name-that-holds-itself",
    P3 + message("N next = 1;", name="N") + message("N a = 1;"),
    P3 + message("O next = 1;", name="O") + message("O a = 1;"),
)
kept(
    "message-under-another-name-with-a-map",
    P3 + message("map<string, int32> x = 1;", name="N") + message("N a = 1;"),
    P3 + message("map<string, int32> x = 1;", name="O") + message("O a = 1;"),
)
kept(
    "message-under-another-name-with-a-oneof",
    P3 + message("oneof o { int32 x = 1; int32 y = 2; }", name="N") + message("N a = 1;"),
    P3 + message("oneof p { int32 x = 1; int32 y = 2; }", name="O") + message("O a = 1;"),
)
kept(
    "message-under-another-name-as-the-value-of-a-map",
    P3 + message("int32 x = 1;", name="N") + message("map<string, N> a = 1;"),
    P3 + message("int32 x = 1;", name="O") + message("map<string, O> a = 1;"),
)
told("message-to-another", P2 + N + OF_N, P2 + O.replace("int32 x", "string x") + OF_O, ANOTHER)
told(
    "message-under-another-name-with-a-free-number",
    P2 + N + OF_N,
    P2 + message("optional int32 y = 2;", name="O") + OF_O,
    ANOTHER,
)
told(
    "message-under-another-name-with-a-required-field",
    P2 + N + OF_N,
    P2 + O.replace("optional int32 y", "required int32 y") + OF_O,
    ANOTHER,
)
told(
    "message-under-another-name-with-fields-in-one-oneof",
    P3 + message("int32 x = 1;", "int32 y = 2;", name="N") + message("N a = 1;"),
    P3 + message("oneof o { int32 x = 1; int32 y = 2; }", name="O") + message("O a = 1;"),
    ANOTHER,
)
told(
    "message-under-another-name-with-a-list-that-is-none",
    P3 + message("repeated int32 x = 1;", name="N") + message("N a = 1;"),
    P3 + message("int32 x = 1;", name="O") + message("O a = 1;"),
    ANOTHER,
)
told(
    "message-under-another-name-with-a-nested-one",
    P3 + message("message I {", "  int32 i = 1;", "}", "I x = 1;", name="N") + message("N a = 1;"),
    P3 + message("message I {", "  int32 i = 1;", "}", "I x = 1;", name="O") + message("O a = 1;"),
    ANOTHER,
)
told(
    "message-under-another-name-that-is-extended",
    P2 + message("extensions 4;", name="N") + OF_N,
    P2 + message("extensions 4;", name="O") + OF_O + "extend O {\n  optional int32 e = 4;\n}\n",
    ANOTHER,
)
PAIR = message("string key = 1;", "int32 value = 2;", name="N")
told(
    "messages-to-a-map",
    P3 + PAIR + message("repeated N a = 1;"),
    P3 + PAIR + message("map<string, int32> a = 1;"),
    kind("m.M.a", 1, "message m.N", "map entry m.M.AEntry"),
)
told(
    "map-to-messages",
    P3 + PAIR + message("map<string, int32> a = 1;"),
    P3 + PAIR + message("repeated N a = 1;"),
    kind("m.M.a", 1, "map entry m.M.AEntry", "message m.N"),
)
ENTRIES = message(
    "message AEntry {",
    "  optional string key = 1;",
    "  optional int32 value = 2;",
    "}",
    "repeated AEntry a = 1;",
)
ONE_MAP = message("map<string, int32> a = 1;")
told(
    "messages-to-a-map-of-their-name",
    P2 + ENTRIES,
    P2 + ONE_MAP,
    kind("m.M.a", 1, "message m.M.AEntry", "map entry m.M.AEntry"),
)
told(
    "map-to-messages-of-its-name",
    P2 + ONE_MAP,
    P2 + ENTRIES,
    kind("m.M.a", 1, "map entry m.M.AEntry", "message m.M.AEntry"),
)
told(
    "message-to-bytes",
    P2 + N + message("optional N a = 1;"),
    P2 + N + message("optional bytes a = 1;"),
    kind("m.M.a", 1, "message m.N", "bytes"),
)
told(
    "group-to-message",
    P2 + message("optional group A = 1 { optional int32 x = 1; }"),
    P2 + message("message A { optional int32 x = 1; }", "optional A a = 1;"),
    Change(
        "field-kind",
        "'m.M.a' (1): group m.M.A became message m.M.A",
        new_number(1),
        "m.M.a",
        "m.M.a",
    ),
)
told(
    "field-of-an-inner-message",
    P3 + message("int64 x = 1;", name="N") + message("N a = 1;"),
    P3 + message("int32 x = 1;", name="N") + message("N a = 1;"),
    kind("m.N.x", 1, "int64", "int32"),
)
told(
    "field-of-a-nested-message",
    P3 + message("message N {", "  int64 x = 1;", "}", "N a = 1;"),
    P3 + message("N a = 1;", "message N {", "  int32 x = 1;", "}"),
    kind("m.M.N.x", 1, "int64", "int32"),
)
kept("message-removed-that-no-field-holds", P2 + N + message("optional int32 a = 1;"), P2 + message("optional int32 a = 1;"))
kept("message-added", P2 + message("optional int32 a = 1;"), P2 + N + message("optional int32 a = 1;", "optional N b = 2;"))

# Maps are repeated messages, each with an entry of its own.
told(
    "value-of-a-map",
    P3 + message("map<string, int64> a = 1;"),
    P3 + message("map<string, int32> a = 1;"),
    kind("m.M.AEntry.value", 2, "int64", "int32"),
)
kept("value-of-a-map-is-wider", P3 + message("map<string, int32> a = 1;"), P3 + message("map<string, int64> a = 1;"))

kept("map-field-renamed", P3 + message("map<string, int32> a = 1;"), P3 + message("map<string, int64> b = 1;"))
told(
    "map-field-renamed-and-its-value-changed",
    P3 + message("map<string, int64> a = 1;"),
    P3 + message("map<string, int32> b = 1;"),
    Change(
        "field-kind",
        "'m.M.b' (1): map entry m.M.AEntry became map entry m.M.BEntry",
        new_number(1),
        "m.M.b",
        "m.M.a",
    ),
)

# How often a field may stand.
kept("optional-to-repeated", P2 + message("optional int32 a = 1;"), P2 + message("repeated int32 a = 1;"))
kept("string-to-repeated", P3 + message("string a = 1;"), P3 + message("repeated string a = 1;"))
told(
    "repeated-to-optional",
    P2 + message("repeated int32 a = 1;"),
    P2 + message("optional int32 a = 1;"),
    cardinality("m.M.a", 1, "repeated", "optional"),
)
told(
    "optional-message-to-repeated",
    P2 + N + message("optional N a = 1;"),
    P2 + N + message("repeated N a = 1;"),
    cardinality("m.M.a", 1, "optional", "repeated"),
)
told(
    "repeated-message-to-optional",
    P2 + N + message("repeated N a = 1;"),
    P2 + N + message("optional N a = 1;"),
    cardinality("m.M.a", 1, "repeated", "optional"),
)
told_forward(
    "optional-to-repeated-forward",
    P2 + message("optional int32 a = 1;"),
    P2 + message("repeated int32 a = 1;"),
    cardinality("m.M.a", 1, "optional", "repeated"),
)
kept("packed-to-unpacked", P3 + message("repeated int32 a = 1;"), P3 + message("repeated int32 a = 1 [packed = false];"))
kept("presence-added", P3 + message("int32 a = 1;"), P3 + message("optional int32 a = 1;"))
told(
    "kind-and-cardinality",
    P3 + message("repeated int64 a = 1;"),
    P3 + message("int32 a = 1;"),
    kind("m.M.a", 1, "int64", "int32"),
    cardinality("m.M.a", 1, "repeated", "optional"),
)

# Required fields.
told(
    "optional-to-required",
    P2 + message("optional int32 a = 1;"),
    P2 + message("required int32 a = 1;"),
    Change("field-required", "'m.M.a' (1): optional became required", OPTIONAL, "m.M.a", "m.M.a"),
)
kept("required-to-optional", P2 + message("required int32 a = 1;"), P2 + message("optional int32 a = 1;"))
told_forward(
    "required-to-optional-forward",
    P2 + message("required int32 a = 1;"),
    P2 + message("optional int32 a = 1;"),
    Change("field-required", "'m.M.a' (1): required became optional", REQUIRED, "m.M.a", "m.M.a"),
)
told(
    "new-required-field",
    P2 + message("optional int32 a = 1;"),
    P2 + message("optional int32 a = 1;", "required int32 b = 2;"),
    Change("field-required", "'m.M.b' (2): no field became required", OPTIONAL, "m.M.b", "m.M"),
)
kept(
    "required-field-removed",
    P2 + message("required int32 a = 1;"),
    P2 + message("reserved 1;"),
)
told_forward(
    "required-field-removed-forward",
    P2 + message("required int32 a = 1;"),
    P2 + message("reserved 1;"),
    Change("field-required", "'m.M.a' (1): required became no field", REQUIRED, "m.M", "m.M.a"),
)

# Oneofs.
INTO = "independent of 'm.M.a' became exclusive with it in the oneof 'm.M.o'"
OUT = "exclusive with 'm.M.a' in the oneof 'm.M.o' became independent of it"
APART = P3 + message("int32 a = 1;", "int32 b = 2;", "int32 c = 3;")
TOGETHER = P3 + message("oneof o {", "  int32 a = 1;", "  int32 b = 2;", "}", "int32 c = 3;")
told(
    "fields-into-one-oneof",
    APART,
    TOGETHER,
    Change("field-oneof", f"'m.M.b' (2): {INTO}", OUTSIDE, "m.M.b", "m.M.b"),
)
told(
    "three-fields-into-one-oneof",
    APART,
    P3 + message("oneof o {", "  int32 a = 1;", "  int32 b = 2;", "  int32 c = 3;", "}"),
    Change("field-oneof", f"'m.M.b' (2): {INTO}", OUTSIDE, "m.M.b", "m.M.b"),
    Change("field-oneof", f"'m.M.c' (3): {INTO}", OUTSIDE, "m.M.c", "m.M.c"),
)
kept("fields-out-of-a-oneof", TOGETHER, APART)
told_forward(
    "fields-out-of-a-oneof-forward",
    TOGETHER,
    APART,
    Change("field-oneof", f"'m.M.b' (2): {OUT}", INSIDE, "m.M.b", "m.M.b"),
)
kept("field-into-a-oneof-alone", APART, P3 + message("oneof o { int32 a = 1; }", "int32 b = 2;", "int32 c = 3;"))
kept("oneof-gains-a-field", TOGETHER, P3 + message("oneof o {", "  int32 a = 1;", "  int32 b = 2;", "  int32 d = 4;", "}", "int32 c = 3;"))
kept("oneof-renamed", TOGETHER, TOGETHER.replace("oneof o", "oneof p"))

# Numbers of fields that are removed.
BOTH = message("optional int32 a = 1;", "optional int32 b = 2;")
FREE = "int32 became no field, and its number is not reserved"
told(
    "field-removed",
    P2 + BOTH,
    P2 + message("optional int32 a = 1;"),
    Change("number-free", f"'m.M.b' (2): {FREE}", reserve(2), "m.M", "m.M.b"),
)
kept("field-removed-and-reserved", P2 + BOTH, P2 + message("optional int32 a = 1;", "reserved 2;"))
kept("field-removed-in-a-reserved-range", P2 + BOTH, P2 + message("optional int32 a = 1;", "reserved 2 to 4;"))
told(
    "field-removed-beside-a-reserved-range",
    P2 + BOTH,
    P2 + message("optional int32 a = 1;", "reserved 3 to 4;"),
    Change("number-free", f"'m.M.b' (2): {FREE}", reserve(2), "m.M", "m.M.b"),
)
told(
    "field-removed-for-extensions",
    P2 + BOTH,
    P2 + message("optional int32 a = 1;", "extensions 2 to 9;"),
    Change("number-free", f"'m.M.b' (2): {FREE}", reserve(2), "m.M", "m.M.b"),
)
UNRESERVED = "an older writer may have used it: keep it reserved"
kept("reserved-ranges-come-together", P2 + message("reserved 2, 3;"), P2 + message("reserved 2 to 5;"))
told(
    "reserved-range-removed",
    P2 + message("reserved 2 to 4;"),
    P2 + message("reserved 2 to 3;"),
    Change("reserved-removed", "'m.M' (2): reserved became not reserved", UNRESERVED, "m.M", "m.M"),
)
told(
    "reserved-number-taken",
    P2 + message("optional int32 a = 1;", "reserved 2;"),
    P2 + BOTH,
    Change("reserved-removed", "'m.M.b' (2): reserved became int32", UNRESERVED, "m.M.b", "m.M"),
)
kept("field-renamed", P2 + BOTH, P2 + BOTH.replace(" b ", " c "))
kept("field-moved", P2 + BOTH, P2 + message("optional int32 b = 2;", "optional int32 a = 1;"))
kept("field-added", P2 + message("optional int32 a = 1;"), P2 + BOTH)
ROWS.append(Row("field-added-in-full", P2 + message("optional int32 a = 1;"), P2 + BOTH, [], []))
told(
    "number-of-a-field",
    P2 + message("optional int32 a = 1;"),
    P2 + message("optional int32 a = 2;"),
    Change("number-free", f"'m.M.a' (1): {FREE}", reserve(1), "m.M", "m.M.a"),
)
told(
    "field-renamed-and-of-another-kind",
    P2 + message("optional int64 a = 1;"),
    P2 + message("optional int32 b = 1;"),
    Change("field-kind", "'m.M.b' (1): int64 became int32", new_number(1), "m.M.b", "m.M.a"),
)

# Extensions are fields of the message that they extend.
EXTENDED = P2 + message("extensions 100 to 199;")
told(
    "extension-of-another-kind",
    EXTENDED + "extend M {\n  optional int64 x = 100;\n}\n",
    EXTENDED + "extend M {\n  optional int32 x = 100;\n}\n",
    kind("m.x", 100, "int64", "int32"),
)
told(
    "extension-of-another-kind-in-a-message",
    EXTENDED + "message S {\n  extend M {\n    optional int64 x = 100;\n  }\n}\n",
    EXTENDED + "message S {\n  extend M {\n    optional int32 x = 100;\n  }\n}\n",
    kind("m.S.x", 100, "int64", "int32"),
)
told(
    "extension-removed",
    EXTENDED + "extend M {\n  optional int64 x = 100;\n}\n",
    EXTENDED,
    Change(
        "number-free",
        "'m.x' (100): int64 became no field, and its number is not reserved",
        reserve(100),
        "m.M",
        "m.x",
    ),
)
kept(
    "extension-takes-a-number-left-to-extensions",
    P2 + message("extensions 1 to 10;"),
    P2 + message("extensions 1 to 10;") + "extend M {\n  optional string x = 1;\n}\n",
)
told(
    "field-becomes-an-extension-of-another-kind",
    P2 + message("optional int32 a = 1;"),
    P2 + message("extensions 1 to 10;") + "extend M {\n  optional string x = 1;\n}\n",
    Change(
        "field-kind",
        "'m.x' (1): int32 became string of proto2",
        new_number(1),
        "m.x",
        "m.M.a",
    ),
)
kept(
    "extension-becomes-a-field",
    EXTENDED + "extend M {\n  optional int32 x = 100;\n}\n",
    P2 + message("optional int64 x = 100;", "extensions 101 to 199;"),
)

# Several changes at once, in the order of the older messages.
SEVERAL_OLD = (
    P2
    + message("optional int64 b = 2;", "optional string s = 3;", "optional int32 r = 4;")
    + message("repeated int32 x = 1;", "optional int32 y = 7;", name="N")
)
SEVERAL_NEW = (
    P2
    + message("optional int32 x = 1;", name="N")
    + message("optional int32 b = 2;", "optional int64 s = 3;", "required int32 r = 4;")
)
SEVERAL = [
    kind("m.M.b", 2, "int64", "int32"),
    kind("m.M.s", 3, "string of proto2", "int64"),
    Change("field-required", "'m.M.r' (4): optional became required", OPTIONAL, "m.M.r", "m.M.r"),
    cardinality("m.N.x", 1, "repeated", "optional"),
    Change(
        "number-free",
        "'m.N.y' (7): int32 became no field, and its number is not reserved",
        reserve(7),
        "m.N",
        "m.N.y",
    ),
]
told("several-changes", SEVERAL_OLD, SEVERAL_NEW, *SEVERAL)
ROWS.append(Row("several-changes-and-at-most-two", SEVERAL_OLD, SEVERAL_NEW, SEVERAL, most=2))
ROWS.append(
    Row(
        "changes-in-full",
        P2 + message("optional int64 a = 1;", "repeated int32 b = 2;"),
        P2 + message("optional int32 a = 1;", "required int32 c = 3;", "reserved 2;"),
        backward=[
            kind("m.M.a", 1, "int64", "int32"),
            Change("field-required", "'m.M.c' (3): no field became required", OPTIONAL, "m.M.c", "m.M"),
        ],
        forward=[],
    )
)
ROWS.append(
    Row(
        "kind-in-full",
        P3 + message("int32 a = 1;"),
        P3 + message("uint32 a = 1;"),
        backward=[kind("m.M.a", 1, "int32", "uint32")],
        forward=[kind("m.M.a", 1, "int32", "uint32")],
    )
)
kept("the-same-schema", SEVERAL_OLD, SEVERAL_OLD)

# Services, whose changes are told at wire: calls go by the full names of methods.
CALLS = "a server that lacks it refuses its calls: keep it, and mark it as deprecated"
METHOD = "one side of a call expects another: leave the method, and add a new one"
AROUND = "what is around it was declared at"
A_AND_B = P3 + message("int32 x = 1;", name="A") + message("int32 x = 1;", name="B")


def service(*methods: str, name: str = "S") -> str:
    """The source of a service."""
    return f"service {name} {{\n" + "".join(f"  rpc {line};\n" for line in methods) + "}\n"


GET = "Get(A) returns (B)"
told(
    "service-removed",
    A_AND_B + service(GET),
    A_AND_B,
    Change("service-removed", "'m.S': service became no service", CALLS, FILE, "m.S"),
)
told_forward(
    "service-added-forward",
    A_AND_B,
    A_AND_B + service(GET),
    Change("service-removed", "'m.S': no service became service", CALLS, "m.S", FILE, words=AROUND),
)
kept("service-added", A_AND_B, A_AND_B + service(GET))
told(
    "method-removed",
    A_AND_B + service(GET, "List(A) returns (B)"),
    A_AND_B + service(GET),
    Change("method-removed", "'m.S.List': method became no method", CALLS, "m.S", "m.S.List"),
)
told_forward(
    "method-added-forward",
    A_AND_B + service(GET),
    A_AND_B + service(GET, "List(A) returns (B)"),
    Change(
        "method-removed", "'m.S.List': no method became method", CALLS, "m.S.List", "m.S", words=AROUND
    ),
)
kept("method-moved", A_AND_B + service(GET, "List(A) returns (B)"), A_AND_B + service("List(A) returns (B)", GET))
told(
    "method-input",
    A_AND_B + service(GET),
    A_AND_B + service("Get(B) returns (B)"),
    Change("method-input", "'m.S.Get': input m.A became input m.B", METHOD, "m.S.Get", "m.S.Get"),
)
told(
    "method-output",
    A_AND_B + service(GET),
    A_AND_B + service("Get(A) returns (A)"),
    Change("method-output", "'m.S.Get': output m.B became output m.A", METHOD, "m.S.Get", "m.S.Get"),
)
for name, before, after, old_words, new_words in (
    ("server", GET, "Get(A) returns (stream B)", "unary call", "stream of responses"),
    ("client", GET, "Get(stream A) returns (B)", "unary call", "stream of requests"),
    (
        "both",
        "Get(stream A) returns (stream B)",
        GET,
        "stream of requests and responses",
        "unary call",
    ),
):
    told(
        f"method-streaming-{name}",
        A_AND_B + service(before),
        A_AND_B + service(after),
        Change(
            "method-streaming",
            f"'m.S.Get': {old_words} became {new_words}",
            METHOD,
            "m.S.Get",
            "m.S.Get",
        ),
    )
ROWS.append(
    Row(
        "method-in-full",
        A_AND_B + service(GET),
        A_AND_B + service("Get(B) returns (B)"),
        [Change("method-input", "'m.S.Get': input m.A became input m.B", METHOD, "m.S.Get", "m.S.Get")],
        [Change("method-input", "'m.S.Get': input m.A became input m.B", METHOD, "m.S.Get", "m.S.Get")],
    )
)

# Texts of JSON: names, and the forms of values.
REFUSED = "a parser of JSON refuses its name: keep it, and mark it as deprecated"
NAMED = "a parser of JSON refuses the other name: give it the same by json_name"
FORMED = "a parser of JSON refuses the other form: leave it, and add a new field"
ALIAS = "a parser of JSON refuses its name: keep it, if only as an alias"


def at_level(level: str, name: str, old: str, new: str, *changes: Change) -> None:
    """A row at a level behind wire."""
    ROWS.append(Row(name, old, new, backward=list(changes), level=level))


def between(level: str, code: str, element: str, before: str, after: str, note: str) -> Change:
    """A change of an element that has one name in both versions."""
    return Change(code, f"'{element}': {before} became {after}", note, element, element, level)


def form(before: str, after: str) -> Change:
    """A field whose values have another form in JSON."""
    return between("json", "field-json", "m.M.a", before, after, FORMED)


def json_name(before: str, after: str, new: str = "m.M.b", old: str = "m.M.a") -> Change:
    """A field with another JSON name."""
    text = f"'{new}': JSON name {before} became JSON name {after}"
    return Change("field-json-name", text, NAMED, new, old, "json")


def gone(level: str, code: str, word: str, element: str, around: str, note: str) -> Change:
    """An element that the new version lacks, and what is around it there."""
    text = f"'{element}': {word} became no {word}"
    return Change(code, text, note, around, element, level)


A_IS = "optional {} a = 1;"
at_level(
    "json",
    "json-field-removed-and-reserved",
    P2 + BOTH,
    P2 + message("optional int32 a = 1;", "reserved 2;"),
    gone("json", "field-removed", "field", "m.M.b", "m.M", REFUSED),
)
at_level(
    "json",
    "json-field-removed",
    P2 + BOTH,
    P2 + message("optional int32 a = 1;"),
    Change("number-free", f"'m.M.b' (2): {FREE}", reserve(2), "m.M", "m.M.b"),
)
ROWS.append(
    Row(
        "json-field-added-forward",
        P2 + message("optional int32 a = 1;"),
        P2 + BOTH,
        forward=[
            Change(
                "field-removed",
                "'m.M.b': no field became field",
                REFUSED,
                "m.M.b",
                "m.M",
                "json",
                AROUND,
            )
        ],
        level="json",
    )
)
at_level(
    "json",
    "json-extension-removed",
    EXTENDED + "extend M {\n  optional int64 x = 100;\n}\n",
    EXTENDED,
    Change(
        "number-free",
        "'m.x' (100): int64 became no field, and its number is not reserved",
        reserve(100),
        "m.M",
        "m.x",
    ),
)
at_level(
    "json",
    "json-extension-renamed",
    EXTENDED + "extend M {\n  optional int64 x = 100;\n}\n",
    EXTENDED + "extend M {\n  optional int64 y = 100;\n}\n",
    json_name("[m.x]", "[m.y]", "m.y", "m.x"),
)
at_level("json", "json-field-renamed", P3 + message("int32 a = 1;"), P3 + message("int32 b = 1;"), json_name("a", "b"))
at_level(
    "json",
    "json-name-of-a-field",
    P3 + message("int32 a = 1;"),
    P3 + message('int32 a = 1 [json_name = "z"];'),
    json_name("a", "z", "m.M.a"),
)
at_level("json", "json-name-that-stays", P3 + message("int32 a = 1;"), P3 + message('int32 b = 1 [json_name = "a"];'))
for before, after, old_words, new_words in (
    ("bool", "int32", "true or false", "number"),
    ("E", "int32", "name of a value of m.E", "number"),
    ("E", "F", "name of a value of m.E", "name of a value of m.F"),
    ("bytes", "string", "text in base64", "text"),
    ("string", "bytes", "text", "text in base64"),
):
    head = P2 + E + E.replace("enum E", "enum F").replace("A =", "FA =").replace("B =", "FB =").replace("C =", "FC =")
    at_level(
        "json",
        f"json-{before.lower()}-to-{after.lower()}",
        head + message(A_IS.format(before)),
        head + message(A_IS.format(after)),
        form(old_words, new_words),
    )
for before, after in (("int32", "int64"), ("int32", "E"), ("uint32", "int64")):
    at_level(
        "json",
        f"json-{before}-to-{after.lower()}",
        P3 + E + message(f"{before} a = 1;"),
        P3 + E + message(f"{after} a = 1;"),
    )
at_level(
    "json",
    "json-one-to-repeated",
    P3 + message("int32 a = 1;"),
    P3 + message("repeated int32 a = 1;"),
    between("json", "field-repeated", "m.M.a", "one value", "list", FORMED),
)
at_level(
    "json",
    "json-key-of-a-map",
    P3 + message("map<bool, int32> a = 1;"),
    P3 + message("map<int32, int32> a = 1;"),
    between("json", "field-json", "m.M.AEntry.key", "true or false", "number", FORMED),
)
at_level(
    "json",
    "json-key-of-a-map-that-is-renamed",
    P3 + message("map<bool, int32> a = 1;"),
    P3 + message('map<int32, int32> b = 1 [json_name = "a"];'),
)
at_level(
    "json",
    "json-value-removed",
    P3 + E,
    P3 + E_LESS,
    gone("json", "value-removed", "value", "m.C", "m.E", ALIAS),
)
at_level(
    "json",
    "json-value-renamed",
    P3 + E,
    P3 + E.replace("C =", "Z ="),
    Change("value-name", "'m.Z': name m.C became name m.Z", ALIAS, "m.Z", "m.C", "json"),
)
TWO_NAMES = "enum E {\n  option allow_alias = true;\n  A = 0;\n  B = 1;\n  C = 1;\n}\n"
at_level(
    "json",
    "json-alias-removed",
    P3 + TWO_NAMES,
    P3 + E_LESS,
    Change("value-name", "'m.B': name m.C became name m.B", ALIAS, "m.B", "m.C", "json"),
)
at_level("json", "json-alias-added", P3 + E_LESS, P3 + TWO_NAMES)
at_level(
    "json",
    "json-value-with-another-number",
    P3 + E_LESS,
    P3 + E_LESS.replace("B = 1", "B = 2"),
    gone("json", "value-removed", "value", "m.B", "m.E", ALIAS),
)
at_level(
    "json",
    "json-and-wire",
    P3 + message("int64 a = 1;", "int32 b = 2;"),
    P3 + message("int32 a = 1;", "int32 c = 2;"),
    kind("m.M.a", 1, "int64", "int32"),
    json_name("b", "c", "m.M.c", "m.M.b"),
)
at_level("json", "json-message-removed", P2 + N + message(), P2 + message())

# Code that is made of the schema.
CODE = "code names it: keep it, and mark it as deprecated"
WRITTEN = (
    "a reader that asks for its name has none, and a field that held it is compared by itself: "
    "keep it, and mark it as deprecated"
)
MISSING = "code goes by what it reads where nothing was written: leave it"
OF_FILE = "code that is made of the file is another: leave it"
at_level("json", "json-message-under-another-name", P2 + N + OF_N, P2 + O + OF_O)
at_level(
    "json",
    "json-message-under-another-name-with-a-further-field",
    P2 + N + OF_N,
    P2 + message("optional string z = 3;", "optional int32 y = 2;", "optional int32 x = 1;", name="O") + OF_O,
)
at_level(
    "json",
    "json-message-under-another-name-that-holds-itself",
    P3 + message("N next = 1;", name="N") + message("N a = 1;"),
    P3 + message("O next = 1;", name="O") + message("O a = 1;"),
)
for each_row, each_old, each_new in (
    ("a-field-of-another-name", "optional int32 y", "optional int32 z"),
    ("a-field-of-another-form", "optional bool y", "optional int32 y"),
    ("a-list-that-was-one-value", "optional int32 y", "repeated int32 y"),
):
    at_level(
        "json",
        f"json-message-under-another-name-with-{each_row}",
        P2 + N.replace("optional int32 y", each_old) + OF_N,
        P2 + O.replace("optional int32 y", each_new) + OF_O,
        form("object m.N", "object m.O"),
    )
at_level(
    "json",
    "json-message-under-another-name-that-lacks-a-field",
    P2 + N + OF_N,
    P2 + message("optional int32 y = 2;", "reserved 1;", name="O") + OF_O,
    form("object m.N", "object m.O"),
)


def source(code: str, before: str, after: str, note: str, element: str = "m.M.a") -> Change:
    """A change at the level source of an element that has one name in both versions."""
    return between("source", code, element, before, after, note)


at_level(
    "source",
    "source-message-removed",
    P2 + N + message(),
    P2 + message(),
    gone("wire", "message-removed", "message", "m.N", FILE, WRITTEN),
)
told(
    "all-messages-removed",
    P2 + N + message("optional N a = 1;"),
    P2,
    gone("wire", "message-removed", "message", "m.N", FILE, WRITTEN),
    gone("wire", "message-removed", "message", "m.M", FILE, WRITTEN),
)
at_level(
    "source",
    "source-nested-message-removed",
    P2 + message("message N {}"),
    P2 + message(),
    gone("wire", "message-removed", "message", "m.M.N", FILE, WRITTEN),
)
ROWS.append(
    Row(
        "source-message-added-forward",
        P2 + message(),
        P2 + N + message(),
        forward=[
            Change(
                "message-removed",
                "'m.N': no message became message",
                WRITTEN,
                "m.N",
                FILE,
                "source",
                AROUND,
            )
        ],
        level="source",
    )
)
at_level(
    "source",
    "source-enum-removed",
    P3 + E + message(),
    P3 + message(),
    gone("source", "enum-removed", "enum", "m.E", FILE, CODE),
)
at_level(
    "source",
    "source-oneof-removed",
    P3 + message("oneof o { int32 a = 1; }"),
    P3 + message("optional int32 a = 1;"),
    source("field-moved", "part of m.M.o", "part of no oneof", MISSING),
    gone("source", "oneof-removed", "oneof", "m.M.o", "m.M", CODE),
)
at_level(
    "source",
    "source-field-into-a-oneof",
    P3 + message("optional int32 a = 1;", "oneof o { int32 b = 2; }"),
    P3 + message("oneof o { int32 b = 2; int32 a = 1; }"),
    Change(
        "field-oneof",
        "'m.M.a' (1): independent of 'm.M.b' became exclusive with it in the oneof 'm.M.o'",
        OUTSIDE,
        "m.M.a",
        "m.M.a",
    ),
)
at_level(
    "source",
    "source-presence",
    P3 + message("optional int32 a = 1;"),
    P3 + message("int32 a = 1;"),
    source("field-presence", "explicit presence", "implicit presence", MISSING),
)
at_level(
    "source",
    "source-required-to-optional",
    P2 + message("required int32 a = 1;"),
    P2 + message("optional int32 a = 1;"),
    source("field-presence", "required", "explicit presence", MISSING),
)
at_level(
    "source",
    "source-name-of-a-field",
    P3 + message("int32 a = 1;"),
    P3 + message('int32 b = 1 [json_name = "a"];'),
    Change(
        "field-name",
        "'m.M.b': name m.M.a became name m.M.b",
        "code names it: leave the name",
        "m.M.b",
        "m.M.a",
        "source",
    ),
)
TYPE = "code has values of the other type: leave it"
at_level(
    "source",
    "source-int32-to-int64",
    P3 + message("int32 a = 1;"),
    P3 + message("int64 a = 1;"),
    source("field-type", "int32", "int64", TYPE),
)
at_level(
    "source",
    "source-int32-to-enum",
    P3 + E + message("int32 a = 1;"),
    P3 + E + message("E a = 1;"),
    source("field-type", "int32", "enum m.E", TYPE),
)
at_level(
    "source",
    "source-message-under-another-name",
    P2 + N + OF_N,
    P2 + O + OF_O,
    gone("wire", "message-removed", "message", "m.N", FILE, WRITTEN),
    source("field-type", "message m.N", "message m.O", TYPE),
)
at_level(
    "source",
    "source-map-renamed",
    P3 + message("map<string, int32> a = 1;"),
    P3 + message("map<string, int32> b = 1;"),
    json_name("a", "b"),
)
at_level(
    "source",
    "source-default",
    P2 + message("optional int32 a = 1 [default = 5];"),
    P2 + message("optional int32 a = 1 [default = 6];"),
    source("field-default", "default value 5", "default value 6", MISSING),
)
at_level(
    "source",
    "source-default-removed",
    P2 + message('optional string a = 1 [default = "x"];'),
    P2 + message("optional string a = 1;"),
    source("field-default", "default value x", "no default value", MISSING),
)
FIRST = P2 + "enum E {\n  A = 1;\n  B = 2;\n}\n" + message("optional E a = 1;", "repeated E b = 2;")
at_level(
    "source",
    "source-default-by-the-first-value",
    FIRST,
    FIRST.replace("  A = 1;\n  B = 2;\n", "  B = 2;\n  A = 1;\n"),
    source("field-default", "first value m.A = 1", "first value m.B = 2", MISSING),
)
at_level(
    "source",
    "source-default-by-the-number-of-the-first-value",
    FIRST,
    FIRST.replace("  A = 1;\n  B = 2;\n", "  A = 2;\n  B = 1;\n"),
    Change("value-name", "'m.B': name m.A became name m.B", ALIAS, "m.B", "m.A", "json"),
    Change("value-name", "'m.A': name m.B became name m.A", ALIAS, "m.A", "m.B", "json"),
    source("field-default", "first value m.A = 1", "first value m.A = 2", MISSING),
)
at_level(
    "source",
    "source-default-by-the-number-of-its-value",
    FIRST.replace("a = 1;", "a = 1 [default = B];"),
    FIRST.replace("a = 1;", "a = 1 [default = B];").replace("  B = 2;\n", "  C = 2;\n  B = 3;\n"),
    Change("value-name", "'m.C': name m.B became name m.C", ALIAS, "m.C", "m.B", "json"),
    source("field-default", "default value B = 2", "default value B = 3", MISSING),
)
at_level(
    "source",
    "source-default-of-an-extension",
    EXTENDED + "extend M {\n  optional int64 x = 100;\n}\n",
    EXTENDED + "extend M {\n  optional int64 x = 100 [default = 7];\n}\n",
    source("field-default", "no default value", "default value 7", MISSING, "m.x"),
)
at_level(
    "source",
    "source-syntax",
    P2 + E + message(),
    P3 + E + message(),
    Change("file-syntax", "'m.proto': proto2 became proto3", OF_FILE, FILE, FILE, "source"),
    source("enum-open", "closed", "open", MISSING, "m.E"),
)
at_level(
    "source",
    "source-package",
    P3 + message(),
    P3.replace("package m", "package k") + message(),
    Change("file-package", "'m.proto': package m became package k", OF_FILE, FILE, FILE, "source"),
    gone("wire", "message-removed", "message", "m.M", FILE, WRITTEN),
)
at_level(
    "source",
    "source-package-removed",
    P3,
    P3.replace("package m;\n", ""),
    Change("file-package", "'m.proto': package m became no package", OF_FILE, FILE, FILE, "source"),
)
ROWS.append(
    Row(
        "source-file-removed",
        P3 + message("int32 a = 1;"),
        P3 + message("int32 a = 1;"),
        backward=[
            Change(
                "file-removed",
                "'m.proto': file became no file",
                "sources import it: keep it, if only with public imports of other files",
                "",
                FILE,
                "source",
            )
        ],
        level="source",
        file="n.proto",
    )
)
for format_ in (None, "github", "gitlab", "sarif"):
    ROWS.append(
        Row(
            "message-removed-with-its-file" + (f"-as-{format_}" if format_ else ""),
            P3 + message("int32 a = 1;"),
            P3 + message("int32 a = 1;", name="N"),
            backward=[gone("wire", "message-removed", "message", "m.M", "", WRITTEN)],
            file="n.proto",
            format=format_,
        )
    )
at_level("source", "source-unchanged", SEVERAL_OLD, SEVERAL_OLD)
at_level(
    "source",
    "source-and-all-levels",
    P3 + message("int64 a = 1;", "bool b = 2;", "int32 c = 3;") + message(name="N"),
    P3 + message("int32 a = 1;", "int32 b = 2;", "int64 c = 3;"),
    kind("m.M.a", 1, "int64", "int32"),
    between("json", "field-json", "m.M.b", "true or false", "number", FORMED),
    source("field-type", "int32", "int64", TYPE, "m.M.c"),
    gone("wire", "message-removed", "message", "m.N", FILE, WRITTEN),
)
ROWS.append(
    Row(
        "source-and-at-most-one",
        P3 + message("bool b = 2;", "int32 c = 3;"),
        P3 + message("int32 b = 2;", "int64 c = 3;"),
        backward=[
            between("json", "field-json", "m.M.b", "true or false", "number", FORMED),
            source("field-type", "int32", "int64", TYPE, "m.M.c"),
        ],
        most=1,
        level="source",
    )
)

# Message sets, and options of files that name code.
SET = P2 + message("option message_set_wire_format = true;", "extensions 4 to 99;")
NO_SET = P2 + message("extensions 4 to 99;")
SET_NOTE = "its extensions are encoded otherwise: take a new message"
told(
    "message-set-no-more",
    SET,
    NO_SET,
    Change("message-set", "'m.M': message set became plain message", SET_NOTE, "m.M", "m.M"),
)
told_forward(
    "message-set-forward",
    NO_SET,
    SET,
    Change("message-set", "'m.M': plain message became message set", SET_NOTE, "m.M", "m.M"),
)
kept("message-set-that-stays", SET, SET)


def option(before: str, after: str) -> Change:
    """An option of a file that names code."""
    text = f"'{FILE}': {before} became {after}"
    return Change("option-changed", text, OF_FILE, FILE, FILE, "source")


def with_options(*options: str) -> str:
    """The source of a file with options."""
    return P3 + "".join(f"option {one};\n" for one in options) + message("int32 a = 1;")


at_level(
    "source",
    "source-option",
    with_options('java_package = "com.a"'),
    with_options('java_package = "com.b"'),
    option("java_package com.a", "java_package com.b"),
)
at_level(
    "source",
    "source-options-given-and-gone",
    with_options('ruby_package = "A::B"', "php_generic_services = true"),
    with_options('go_package = "a/b"', "java_multiple_files = true"),
    option("no java_multiple_files", "java_multiple_files"),
    option("no go_package", "go_package a/b"),
    option("php_generic_services", "no php_generic_services"),
    option("ruby_package A::B", "no ruby_package"),
)
at_level(
    "source",
    "source-option-given-as-false",
    with_options("cc_generic_services = false", 'csharp_namespace = "A"'),
    with_options('csharp_namespace = "A"'),
)
at_level(
    "source",
    "source-option-that-names-no-code",
    with_options("optimize_for = CODE_SIZE", "deprecated = true"),
    with_options("optimize_for = SPEED"),
)
kept("option-at-wire", with_options('swift_prefix = "A"'), with_options('swift_prefix = "B"'))


# Changes in the formats of other tools.
def in_format(format_: str) -> None:
    """Rows of what changes at each level and in both directions, and of what does not."""
    each = f"each-change-as-{format_}"
    old = P3 + message("int64 a = 1;", "bool b = 2;", "int32 c = 3;") + message(name="N")
    new = P3 + message("int32 a = 1;", "int32 b = 2;", "int64 c = 3;")
    backward = [
        kind("m.M.a", 1, "int64", "int32"),
        between("json", "field-json", "m.M.b", "true or false", "number", FORMED),
        source("field-type", "int32", "int64", TYPE, "m.M.c"),
        gone("wire", "message-removed", "message", "m.N", FILE, WRITTEN),
    ]
    forward = [
        kind("m.M.b", 2, "bool", "int32"),
        kind("m.M.c", 3, "int32", "int64"),
        source("field-type", "int64", "int32", TYPE, "m.M.a"),
    ]
    ROWS.append(Row(each, old, new, backward, forward, level="source", format=format_))
    first = f"first-change-as-{format_}"
    ROWS.append(Row(first, old, new, backward, most=1, level="source", format=format_))
    ROWS.append(Row(f"no-change-as-{format_}", new, new, backward=[], format=format_))


for each_format in ("github", "gitlab", "sarif"):
    in_format(each_format)


# How many changes there are at json and at source, of rows that ask for less: none, where a row is
# not here.
BEYOND = {
    ("bool-to-int32", "backward"): (1, 0),
    ("bool-to-int64", "backward"): (1, 0),
    ("bool-to-uint32", "backward"): (1, 0),
    ("bool-to-uint64", "backward"): (1, 0),
    ("bytes-to-string-of-proto2", "backward"): (1, 0),
    ("changes-in-full", "backward"): (1, 0),
    ("changes-in-full", "forward"): (1, 1),
    ("closed-enum-gains-a-number-forward", "forward"): (1, 0),
    ("closed-enum-loses-a-number", "backward"): (1, 0),
    ("closed-enum-opens", "backward"): (0, 2),
    ("closed-enum-to-bool", "backward"): (1, 0),
    ("closed-enum-to-int32", "backward"): (1, 0),
    ("closed-enum-to-uint32", "backward"): (1, 0),
    ("closed-enum-under-another-name", "backward"): (1, 1),
    ("closed-enum-with-renamed-values", "backward"): (1, 0),
    ("extension-becomes-a-field", "backward"): (1, 1),
    ("field-becomes-an-extension-of-another-kind", "backward"): (1, 0),
    ("int32-to-open-enum-in-proto2", "backward"): (0, 1),
    ("json-key-of-a-map-that-is-renamed", "backward"): (0, 1),
    ("field-added-in-full", "forward"): (1, 0),
    ("field-into-a-oneof-alone", "backward"): (0, 2),
    ("field-removed-and-reserved", "backward"): (1, 0),
    ("field-removed-in-a-reserved-range", "backward"): (1, 0),
    ("field-renamed-and-of-another-kind", "backward"): (1, 0),
    ("field-renamed", "backward"): (1, 0),
    ("fields-into-one-oneof", "backward"): (0, 3),
    ("fields-out-of-a-oneof-forward", "forward"): (0, 3),
    ("fields-out-of-a-oneof", "backward"): (0, 5),
    ("int32-to-int64", "backward"): (0, 1),
    ("int32-to-open-enum", "backward"): (0, 1),
    ("json-int32-to-e", "backward"): (0, 1),
    ("json-int32-to-int64", "backward"): (0, 1),
    ("json-message-removed", "backward"): (0, 1),
    ("json-name-that-stays", "backward"): (0, 1),
    ("json-uint32-to-int64", "backward"): (0, 1),
    ("map-field-renamed-and-its-value-changed", "backward"): (1, 0),
    ("map-field-renamed", "backward"): (1, 0),
    ("message-removed-that-no-field-holds", "backward"): (0, 1),
    ("message-removed-with-its-file", "backward"): (0, 1),
    ("message-removed-with-its-file-as-github", "backward"): (0, 1),
    ("message-removed-with-its-file-as-gitlab", "backward"): (0, 1),
    ("message-removed-with-its-file-as-sarif", "backward"): (0, 1),
    ("oneof-renamed", "backward"): (0, 3),
    ("open-enum-closes", "backward"): (0, 2),
    ("open-enum-loses-a-value", "backward"): (1, 0),
    ("open-enum-to-int32", "backward"): (1, 0),
    ("open-enum-to-int64", "backward"): (1, 0),
    ("optional-to-repeated", "backward"): (1, 0),
    ("presence-added", "backward"): (0, 1),
    ("required-field-removed", "backward"): (1, 0),
    ("required-to-optional", "backward"): (0, 1),
    ("sint32-to-sint64", "backward"): (0, 1),
    ("string-of-proto2-to-proto3", "backward"): (0, 1),
    ("string-of-proto3-to-proto2", "backward"): (0, 1),
    ("string-to-bytes", "backward"): (1, 0),
    ("string-to-repeated", "backward"): (1, 0),
    ("three-fields-into-one-oneof", "backward"): (0, 4),
    ("uint32-to-int64", "backward"): (0, 1),
    ("uint32-to-uint64", "backward"): (0, 1),
    ("value-of-a-map-is-wider", "backward"): (0, 1),
    ("option-at-wire", "backward"): (0, 1),
    ("message-to-another-with-its-fields", "backward"): (0, 1),
    ("message-under-another-name", "backward"): (0, 2),
    ("message-under-another-name-with-wider-fields", "backward"): (0, 2),
    ("message-under-another-name-with-a-further-field", "backward"): (0, 1),
    ("message-under-another-name-with-a-reserved-field", "backward"): (1, 1),
    ("message-under-another-name-that-holds-itself", "backward"): (0, 2),
    ("message-under-another-name-with-a-map", "backward"): (0, 2),
    ("message-under-another-name-with-a-oneof", "backward"): (0, 2),
    ("message-under-another-name-as-the-value-of-a-map", "backward"): (0, 2),
    ("message-to-another", "backward"): (0, 1),
    ("message-under-another-name-with-a-free-number", "backward"): (0, 1),
    ("message-under-another-name-with-a-required-field", "backward"): (0, 1),
    ("message-under-another-name-with-fields-in-one-oneof", "backward"): (0, 1),
    ("message-under-another-name-with-a-list-that-is-none", "backward"): (0, 1),
    ("message-under-another-name-with-a-nested-one", "backward"): (0, 2),
    ("message-under-another-name-that-is-extended", "backward"): (0, 1),
    ("json-message-under-another-name", "backward"): (0, 2),
    ("json-message-under-another-name-with-a-further-field", "backward"): (0, 2),
    ("json-message-under-another-name-that-holds-itself", "backward"): (0, 2),
    ("json-message-under-another-name-with-a-field-of-another-name", "backward"): (0, 1),
    ("json-message-under-another-name-with-a-field-of-another-form", "backward"): (0, 1),
    ("json-message-under-another-name-with-a-list-that-was-one-value", "backward"): (0, 1),
    ("json-message-under-another-name-that-lacks-a-field", "backward"): (0, 1),
}


def compiled(source: str, file: str, beside: Optional[str]) -> bytes:
    """The set that protoc makes of a source in a file with a name, which may import e.proto."""
    with tempfile.TemporaryDirectory() as folder:
        (Path(folder) / file).write_text(source)
        (Path(folder) / "e.proto").write_text(beside or "")
        out = Path(folder) / "set.pb"
        words = ["protoc", f"-I{folder}", "--include_source_info", f"--descriptor_set_out={out}"]
        words += [] if beside is None else ["--include_imports"]
        subprocess.run([*words, file], check=True, stderr=subprocess.DEVNULL)
        return out.read_bytes()


def records_of(made: bytes) -> list[descriptor_pb2.FileDescriptorProto]:
    """The records of a set: what is imported stands first."""
    return list(descriptor_pb2.FileDescriptorSet.FromString(made).file)


def elements(file: descriptor_pb2.FileDescriptorProto) -> dict[str, list[int]]:
    """The path of each declaration by its full name, and that of the file by its name."""
    found: dict[str, list[int]] = {file.name: []}

    def see(name: str, path: list[int], item: descriptor_pb2.DescriptorProto) -> None:
        found[name] = path
        for tag, items in ((2, item.field), (6, item.extension), (8, item.oneof_decl)):
            for at, one in enumerate(items):
                found[f"{name}.{one.name}"] = [*path, tag, at]
        for at, one in enumerate(item.nested_type):
            see(f"{name}.{one.name}", [*path, 3, at], one)

    for at, one in enumerate(file.message_type):
        see(f"{file.package}.{one.name}", [4, at], one)
    for at, extension in enumerate(file.extension):
        found[f"{file.package}.{extension.name}"] = [7, at]
    for at, enumeration in enumerate(file.enum_type):
        found[f"{file.package}.{enumeration.name}"] = [5, at]
        for position, value in enumerate(enumeration.value):
            found[f"{file.package}.{value.name}"] = [5, at, 2, position]
    for at, service in enumerate(file.service):
        found[f"{file.package}.{service.name}"] = [6, at]
        for position, method in enumerate(service.method):
            found[f"{file.package}.{service.name}.{method.name}"] = [6, at, 2, position]
    return found


def counts_of(files: list[descriptor_pb2.FileDescriptorProto]) -> list[int]:
    """How many there are of each kind in some files."""
    tops = [[len(it.enum_type), len(it.service), len(it.extension)] for it in files]
    counts = [len(files), 0, *map(sum, zip(*tops))]
    waiting = [one for file in files for one in file.message_type]
    while waiting:
        one = waiting.pop()
        counts[1] += 1
        counts[2] += len(one.enum_type)
        counts[4] += len(one.extension)
        waiting.extend(one.nested_type)
    return counts


def place_in(file: descriptor_pb2.FileDescriptorProto, name: str) -> Place:
    """The place of a declaration of a file, or of the file."""
    return Place(file.name, elements(file)[name], None if name == file.name else name)


# The changes whose place in an older version may be that of a message.
OF_MESSAGES = (
    "field-kind",
    "field-cardinality",
    "field-oneof",
    "field-required",
    "number-free",
    "reserved-removed",
)

# The messages that a row removes, which is told at wire in front of the others: they stand first.
GONE = {
    "json-message-removed": ["m.N"],
    "json-message-under-another-name": ["m.N"],
    "json-message-under-another-name-that-holds-itself": ["m.N"],
    "json-message-under-another-name-that-lacks-a-field": ["m.N"],
    "json-message-under-another-name-with-a-field-of-another-form": ["m.N"],
    "json-message-under-another-name-with-a-field-of-another-name": ["m.N"],
    "json-message-under-another-name-with-a-further-field": ["m.N"],
    "json-message-under-another-name-with-a-list-that-was-one-value": ["m.N"],
    "message-removed-that-no-field-holds": ["m.N"],
    "message-to-another": ["m.N"],
    "message-under-another-name": ["m.N"],
    "message-under-another-name-as-the-value-of-a-map": ["m.N"],
    "message-under-another-name-that-holds-itself": ["m.N"],
    "message-under-another-name-that-is-extended": ["m.N"],
    "message-under-another-name-with-a-free-number": ["m.N"],
    "message-under-another-name-with-a-list-that-is-none": ["m.N"],
    "message-under-another-name-with-a-map": ["m.N"],
    "message-under-another-name-with-a-nested-one": ["m.N", "m.N.I"],
    "message-under-another-name-with-a-oneof": ["m.N"],
    "message-under-another-name-with-a-required-field": ["m.N"],
    "message-under-another-name-with-a-reserved-field": ["m.N"],
    "message-under-another-name-with-fields-in-one-oneof": ["m.N"],
    "message-under-another-name-with-wider-fields": ["m.N"],
}


def with_gone(row: Row) -> Row:
    """A row with the messages that it removes, those at each level behind those before it."""
    levels = ("wire", "json", "source")
    removed = [gone("wire", "message-removed", "message", name, FILE, WRITTEN) for name in GONE.get(row.name, [])]
    if row.backward is not None:
        row.backward = sorted([*removed, *row.backward], key=lambda change: levels.index(change.level))
    json_, source_ = BEYOND.get((row.name, "backward"), (0, 0))
    if removed:
        BEYOND[row.name, "backward"] = (json_, source_ - len(removed) if row.level != "source" else 0)
    return row


ROWS = [with_gone(row) for row in ROWS]


@dataclass
class Made:
    """The two versions of a row, as protoc describes them, and what the new one has of each kind."""

    old: descriptor_pb2.FileDescriptorProto
    new: descriptor_pb2.FileDescriptorProto
    against: str
    counts: list[int]
    places: list[tuple[Records, Place]] = field(default_factory=list)

    def fault(self, change: Change) -> Fault:
        """A change in the form of a fault, whose second place is in the older version."""
        second = place_in(self.old, change.old)
        at = place_in(self.new, change.new) if change.new else second
        if change.words or change.code not in OF_MESSAGES:
            words = change.words or "it was declared at"
            return Fault(change.code, change.text, change.note, at, second, words)
        is_field = change.old in elements(self.old) and len(second.path) > 2 or second.path[0] == 7
        words = "it was declared at" if is_field else "its message was declared at"
        if change.code == "field-required" and "no field became" in change.text:
            words = "its message was declared at"
        return Fault(change.code, change.text, change.note, at, second, words)

    def records(self, change: Change) -> Records:
        """The version in which a change is shown: the older one, where the new one lacks its file."""
        return {self.new.name: self.new} if change.new else {FILE: self.old}

    def lines(self, change: Change) -> str:
        """The lines of a change: places in the version that shows it, but for the second one."""
        fault = self.fault(change)
        second, fault.second = fault.second, None
        whole = breaks.fault_lines(self.records(change), fault).splitlines(keepends=True)
        assert second is not None
        old: Records = {FILE: self.old}
        words = f"  note: {fault.words} {breaks.place_words(old, second)}"
        if breaks.position(old, second) is not None and second.element is not None:
            words += f" ('{second.element}')"
        return whole[0] + words + "\n" + whole[1]

    def object(self, direction: str, change: Change) -> dict[str, object]:
        """The object of a change."""
        fault = self.fault(change)
        second, fault.second = fault.second, None
        whole = breaks.fault_object(self.records(change), fault)
        whole["related"] = [breaks.place_members({FILE: self.old}, second)]
        head = {"level": change.level, "direction": direction, "against": self.against}
        return {**head, **whole}


def counted(number: int, one: str) -> str:
    """A number of things with their word."""
    return f"{number} {one}" if number == 1 else f"{number} {one}s"


def accepted_line(counts: list[int]) -> str:
    """The line of an accepted set."""
    words = ("file", "message", "enum", "service", "extension")
    return "accepted: " + ", ".join(map(counted, counts, words)) + "\n"


def beyond(row: Row, direction: str) -> dict[str, int]:
    """How many changes of a direction there are at the levels that a row does not ask for."""
    json_, source_ = BEYOND.get((row.name, direction), (0, 0))
    return {"json": json_, "source": source_}


def last_line(made: Made, row: Row, direction: str, changes: list[Change], untold: int) -> str:
    """The line that counts the changes of a direction."""
    level = row.level or "wire"
    front = f"changed: {counted(len(changes), 'change')}" if changes else "unchanged"
    behind = f", of which {untold} are not shown" if untold else ""
    behind += "".join(f"; {n} at {name}" for name, n in beyond(row, direction).items() if n)
    return f"{front} at {level} against {made.against}, {direction}{behind}\n"


def told_text(made: Made, change: Change) -> str:
    """A change as one text: what it is, the place in the older version, and what to do."""
    fault = made.fault(change)
    assert fault.second is not None
    second = f"{fault.words} {breaks.place_words({FILE: made.old}, fault.second)}"
    return f"{fault.message}\n{second}\n{fault.note}"


def escaped(text: str, others: str = "") -> str:
    """A text of a workflow command, with these characters escaped besides."""
    for one in "%\r\n" + others:
        text = text.replace(one, f"%{ord(one):02X}")
    return text


def annotations(made: Made, row: Row, direction: str, changes: list[Change]) -> str:
    """The annotations of what changes in a direction, by docs/CHECK.md."""
    first = changes if row.most is None else changes[: row.most]
    lines = []
    for change in first:
        it = made.object(direction, change)
        place = f"file={escaped(it['file'], ':,')},line={it['line']},col={it['column']},"
        text = escaped(told_text(made, change))
        lines.append(f"::error {place}title={escaped(change.code, ':,')}::{text}\n")
    if len(first) < len(changes):
        more = len(changes) - len(first)
        lines.append(f"::error title=More::{more} faults more are not told\n")
    return "".join(lines)


def quality_object(made: Made, direction: str, change: Change) -> dict[str, object]:
    """A change as an object of code quality, by docs/CHECK.md and docs/CHANGES.md."""
    it = made.object(direction, change)
    path = "".join(f" {number}" for number in it["path"])
    mark = f"{direction} {made.against} {change.code} {it['file']}{path} {change.text}"
    return {
        "description": told_text(made, change),
        "check_name": change.code,
        "fingerprint": mark,
        "severity": "critical",
        "location": {"path": it["file"], "lines": {"begin": it["line"]}},
    }


def location(place: dict[str, object]) -> dict[str, object]:
    """A place as a location of SARIF (section 3.28)."""
    region = {"startLine": place["line"], "startColumn": place["column"]}
    physical = {"artifactLocation": {"uri": place["file"]}, "region": region}
    found: dict[str, object] = {"physicalLocation": physical}
    if place["element"] is not None:
        found["logicalLocations"] = [{"fullyQualifiedName": place["element"]}]
    return found


def sarif_result(made: Made, direction: str, change: Change) -> dict[str, object]:
    """A change as a result of SARIF (3.27)."""
    it = made.object(direction, change)
    text = told_text(made, change)
    (second,) = it["related"]
    message_ = {"message": {"text": text.split("\n")[1]}}
    marks = {"level": change.level, "direction": direction, "against": made.against}
    return {
        "ruleId": change.code,
        "level": "error",
        "message": {"text": text},
        "locations": [location(it)],
        "relatedLocations": [{**location(second), **message_}],
        "properties": marks,
    }


RULES = (
    (
        "wire",
        "field-kind",
        "A value of a field is read otherwise, or is refused.",
        "Take a new number, and reserve the old one.",
    ),
    (
        "wire",
        "field-cardinality",
        "A field is repeated and was not, or was and is no more.",
        "Take a new number, and reserve the old one.",
    ),
    (
        "wire",
        "field-oneof",
        "Two fields of a writer are in one oneof of a reader alone.",
        "Leave them where they are.",
    ),
    (
        "wire",
        "field-required",
        "A reader requires a field that a writer may leave out.",
        "Make it optional.",
    ),
    (
        "wire",
        "number-free",
        "A field is gone, and its number is not reserved.",
        "Reserve the number.",
    ),
    (
        "wire",
        "reserved-removed",
        "A number that was reserved is so no more, or has a field.",
        "Keep it reserved.",
    ),
    ("wire", "message-removed", "A message is gone.", "Keep it, and mark it as deprecated."),
    (
        "wire",
        "message-set",
        "One version of a message is a message set on the wire, and the other is not.",
        "Take a new message.",
    ),
    ("wire", "service-removed", "A service is gone.", "Keep it, and mark it as deprecated."),
    ("wire", "method-removed", "A method is gone.", "Keep it, and mark it as deprecated."),
    (
        "wire",
        "method-input",
        "A method takes another message.",
        "Leave the method, and add a new one.",
    ),
    (
        "wire",
        "method-output",
        "A method gives another message.",
        "Leave the method, and add a new one.",
    ),
    (
        "wire",
        "method-streaming",
        "A method streams otherwise.",
        "Leave the method, and add a new one.",
    ),
    (
        "json",
        "field-removed",
        "A field is gone, and its number is kept free.",
        "Keep it, and mark it as deprecated.",
    ),
    (
        "json",
        "field-json-name",
        "A field has another name in JSON.",
        "Give it the same by json_name.",
    ),
    (
        "json",
        "field-json",
        "The values of a field have another form in JSON.",
        "Leave it, and add a new field.",
    ),
    (
        "json",
        "field-repeated",
        "A field is a list in JSON and was not, or was and is no more.",
        "Leave it, and add a new field.",
    ),
    ("json", "value-removed", "A value of an enum is gone.", "Keep it, if only as an alias."),
    (
        "json",
        "value-name",
        "A value of an enum has another name.",
        "Keep the name, if only as an alias.",
    ),
    (
        "source",
        "file-removed",
        "A file is gone.",
        "Keep it, if only with public imports of other files.",
    ),
    ("source", "file-package", "A file has another package.", "Leave it."),
    ("source", "file-syntax", "A file has another syntax.", "Leave it."),
    ("source", "option-changed", "An option of a file that names code is another.", "Leave it."),
    ("source", "enum-removed", "An enum is gone.", "Keep it, and mark it as deprecated."),
    ("source", "field-name", "A field has another name.", "Leave the name."),
    (
        "source",
        "field-type",
        "A field has another type, and neither bytes nor JSON are read otherwise.",
        "Leave it.",
    ),
    ("source", "field-presence", "A field tells its presence otherwise.", "Leave it."),
    ("source", "field-moved", "A field is in another oneof, or in none.", "Leave it."),
    ("source", "field-default", "A field has another default value.", "Leave it."),
    ("source", "oneof-removed", "A oneof is gone.", "Keep it, and mark it as deprecated."),
    ("source", "enum-open", "An enum is open and was closed, or the other way round.", "Leave it."),
)
"""The kinds of changes as a log of SARIF has them: the level, the code, what it says, what to do."""


def sarif_log(results: list[object], compared: list[object]) -> dict[str, object]:
    """A log of SARIF with the kinds of changes, by docs/CHANGES.md."""
    rules = [
        {
            "id": code,
            "shortDescription": {"text": said},
            "help": {"text": note},
            "properties": {"tags": [level]},
        }
        for level, code, said, note in RULES
    ]
    driver = {"name": "check_descriptors", "version": "0.3.0", "rules": rules}
    properties = {"compared": compared}
    run = {"tool": {"driver": driver}, "results": results, "properties": properties}
    schema = "https://json.schemastore.org/sarif-2.1.0.json"
    return {"$schema": schema, "version": "2.1.0", "runs": [run]}


def report_in(row: Row, made: Made, compared: list[object]) -> str:
    """What a row tells in the format of another tool."""
    sides = [("backward", row.backward), ("forward", row.forward)]
    told_of = [(direction, changes) for direction, changes in sides if changes is not None]
    if row.format == "github":
        told = (annotations(made, row, direction, changes) for direction, changes in told_of)
        return accepted_line(made.counts) + "".join(told)
    make = quality_object if row.format == "gitlab" else sarif_result
    objects: list[object] = [
        make(made, direction, change)
        for direction, changes in told_of
        for change in changes[: row.most]
    ]
    return line_of(objects if row.format == "gitlab" else sarif_log(objects, compared))


def line_of(value: object) -> str:
    """A value of JSON as a line without spaces."""
    return json.dumps(value, ensure_ascii=False, separators=(",", ":")) + "\n"


def row_files(row: Row) -> dict[str, bytes]:
    """The files of a row, by the ends of their names."""
    old, new = compiled(row.old, FILE, row.beside), compiled(row.new, row.file, row.beside)
    against = f"{row.name}.old.pb"
    made = Made(records_of(old)[-1], records_of(new)[-1], against, counts_of(records_of(new)))
    directions = [("backward", row.backward), ("forward", row.forward)]
    compared = [(direction, changes) for direction, changes in directions if changes is not None]
    text = accepted_line(made.counts)
    entries: list[dict[str, object]] = []
    objects: list[dict[str, object]] = []
    for direction, changes in compared:
        assert changes is not None
        first = changes if row.most is None else changes[: row.most]
        more = len(changes) - len(first)
        text += "".join(made.lines(change) for change in first)
        text += last_line(made, row, direction, changes, more)
        head: dict[str, object] = {"against": against, "direction": direction}
        counts = {"count": len(changes), "more": more, "beyond": beyond(row, direction)}
        entries.append({**head, **counts})
        objects += [made.object(direction, change) for change in first]
    names = ("files", "messages", "enums", "services", "extensions")
    whole = {
        "compared": entries,
        "changes": objects,
        "verdict": "accepted",
        "counts": dict(zip(names, made.counts)),
        "too_many": None,
        "faults": [],
        "more": 0,
        "error": None,
    }
    words = [] if row.format is None else ["--format", row.format]
    words += ["--against", against]
    if row.forward is not None:
        words += ["--compatibility", "forward" if row.backward is None else "full"]
    if row.level is not None:
        words += ["--level", row.level]
    if row.most is not None:
        words += ["--max-faults", str(row.most)]
    files = {
        "old.pb": old,
        "new.pb": new,
        "args": "".join(f"{word}\n" for word in [*words, f"{row.name}.new.pb"]).encode(),
    }
    if row.format is None:
        files |= {"text": text.encode(), "json": line_of(whole).encode()}
    else:
        files["text"] = report_in(row, made, entries).encode()
    if any(changes for _, changes in compared):
        files["status"] = b"1\n"
    return files


def main() -> int:
    """Runs what the arguments ask; the result is the exit status."""
    parser = argparse.ArgumentParser(
        description=__doc__, formatter_class=argparse.RawDescriptionHelpFormatter
    )
    parser.add_argument("what", choices=("write", "compare"))
    writes = parser.parse_args().what == "write"
    wanted = {}
    for row in ROWS:
        for end, contents in row_files(row).items():
            wanted[f"{row.name}.{end}"] = contents
    if writes:
        CHANGES.mkdir(exist_ok=True)
        for name, contents in wanted.items():
            (CHANGES / name).write_bytes(contents)
        return 0
    others = [name for name, contents in wanted.items() if (CHANGES / name).read_bytes() != contents]
    for name in others:
        print(f"differs: {name}")
    print(f"{len(ROWS)} rows, {len(others)} files that differ")
    return 1 if others else 0


if __name__ == "__main__":
    sys.exit(main())
