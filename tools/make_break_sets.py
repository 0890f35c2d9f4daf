#!/usr/bin/env python3
"""Makes the rows of the check that break a schema, or find that they are as stored.

    python3 make_break_sets.py write
    python3 make_break_sets.py compare

The rows are in crates/test_rows/data/checks. Each of the group breaks is a set of the sources in
sources, as protoc describes them, with one part of a record changed. After each change is what
is wanted of it, by docs/RULES.md and docs/CHECK.md: the faults in order, each with its kind, its
text, the path at which it is, the element, its second place, and the note. Lines and columns are
those that protoc gives for a path. `write` writes NAME.pb, NAME.text, NAME.json and, where it is
not 0, NAME.status of each row into breaks, and the sets of the rows in runs, whose texts are
written by hand. `compare` ends with status 1 where a stored file is another.

Needed are protoc and protobuf's Python package: protobuf-compiler, libprotobuf-dev and
python3-protobuf on Debian. That package serves the system's own Python, /usr/bin/python3.
"""

from __future__ import annotations

import argparse
import itertools
import json
import subprocess
import sys
import tempfile
from collections.abc import Callable
from dataclasses import dataclass, field
from pathlib import Path
from typing import Optional

from google.protobuf import descriptor_pb2, text_format

DATA = Path(__file__).resolve().parent.parent / "crates" / "test_rows" / "data" / "checks"
SOURCES = DATA / "sources"

Records = dict[str, descriptor_pb2.FileDescriptorProto]

MONEY = "shop/money.proto"
ITEM = "shop/item.proto"
ORDER = "shop/order.proto"
SHELF = "depot/shelf.proto"
CRATE = "depot/crate.proto"
LABEL = "depot/label.proto"
MARKS = "depot/marks.proto"
PARCEL = "depot/parcel.proto"
ROUTES = "depot/routes.proto"
STAMPS = "depot/stamps.proto"
DESCRIPTOR = "google/protobuf/descriptor.proto"

EMPTY_NAME = "give the name: it is empty"
NO_EXTENDEE = "say what it extends: an extension has an extendee"
OF_A_FIELD = "leave its extendee out: it is a field, and no extension"
MEND_NAME = "mend the name, or give and import the file that declares it"
OTHER_NUMBER = "take another number"
OTHER_JSON_NAME = "set another json_name: protoc gives `user_id` and `userId` the same one"
RENAME = "rename one"
RENAME_VALUE = (
    "rename one; begin the name of a value with that of its enum, since values stand beside their "
    "enum"
)
RENAME_ONEOF = "rename one: a oneof stands among the fields of its message"
RENAME_METHOD = "rename one: a service has one method of a name, whatever it takes"
RENAME_MESSAGE = (
    "rename one: a group makes a message of its name, and a map one whose name ends with `Entry`"
)
RENAME_PACKAGE = "rename one: a package shares its name with nothing else"
RENAME_OVER_FILES = "rename one; where all names of a file clash, it is given under two names"
NUMBERS = "take a number from 1 to 536,870,911, but none from 19,000 to 19,999"
NOT_RESERVED = "take a number that is not reserved"
NOT_EXTENSIONS = "take a number that is not left to extensions"
OF_A_RANGE = (
    "take a number of an extension range of the message; where it has none, give it one by "
    "`extensions`"
)
GIVE_FILE = "give it too, as `protoc --include_imports` does, or under the name that is imported"
GIVE_TYPE = "give the type name: a message, a group or an enum needs one"
NO_SUCH_INDEX = "protoc makes no such index: look for it with `protoc --decode`"
NEARER_SCOPE = "a nearer scope has its first part: mend it, or write a leading dot and the full name"
NEARER_NAME = "mend it; where a nearer name hides it, write a leading dot and the full name"
ALIAS = "take another number, or set the option allow_alias"
ZERO_FIRST = "put the value with the number 0 first"
CAMEL_CASE = "rename one: in proto3 names differ by more than case and underscores"
VALUE = "write a value of the type"
NO_VALUE = "leave it out: a message has no default value"
SYNTAXES = "proto2 and proto3 are read; of a file of an edition nothing is"


def not_imported(name: str, declaring: str, importing: str) -> str:
    """The note of a name that is declared in a file that is not imported."""
    return f"'{name}' is declared in '{declaring}', which '{importing}' does not import"


def meant(name: str, declaring: str, importing: Optional[str] = None) -> str:
    """The note of a name that nothing has and that could mean another, with the file that does not
    import it."""
    far = "" if importing is None else f", which '{importing}' does not import"
    return f"write '.{name}' to mean what '{declaring}' declares{far}"


def outside(word: str, index: int, count: int) -> str:
    """The note of an index that is no position of a list with so many entries."""
    return f"{word} is {index}, counted from 0, of a list of {count}; {NO_SUCH_INDEX}"


@dataclass
class Place:
    """A place in a file: the path of a part, and the innermost declaration."""

    file: str
    path: list[int]
    element: Optional[str]


@dataclass
class Fault:
    """What is wanted of a fault. The words stand before its second place."""

    code: str
    message: str
    note: str
    at: Optional[Place] = None
    second: Optional[Place] = None
    words: str = "first declared at"


@dataclass
class Row:
    """A row: the files of its set in order, what is changed, and what is wanted of it."""

    name: str
    files: list[str]
    change: Callable[[Records], None]
    faults: list[Fault] = field(default_factory=list)
    accepted: str = ""
    extra: Optional[Callable[[Records], list[descriptor_pb2.FileDescriptorProto]]] = None


ROWS: list[Row] = []

ROOTS = {
    "money": [MONEY],
    "item": [MONEY, ITEM],
    "order": [MONEY, ITEM, ORDER],
    "shelf": [MONEY, ITEM, SHELF],
    "crate": [CRATE],
}
COUNTS = {
    "money": "1 file, 1 message, 1 enum, 0 services, 0 extensions",
    "item": "2 files, 3 messages, 2 enums, 0 services, 0 extensions",
    "order": "3 files, 6 messages, 2 enums, 1 service, 0 extensions",
    "shelf": "3 files, 5 messages, 4 enums, 0 services, 3 extensions",
}


def refused(name: str, root: str, change: Callable[[Records], None], *faults: Fault) -> None:
    """A row that is refused."""
    ROWS.append(Row(name, ROOTS[root], change, list(faults)))


def accepted(name: str, root: str, change: Callable[[Records], None]) -> None:
    """A row that is accepted."""
    ROWS.append(Row(name, ROOTS[root], change, accepted=COUNTS[root]))


def set_part(file: str, path: str, **parts: object) -> Callable[[Records], None]:
    """Changes parts of the record at a path of names of lists and positions; None clears one."""

    def change(records: Records) -> None:
        record = records[file]
        words = path.split()
        for list_name, position in zip(words[::2], words[1::2]):
            record = getattr(record, list_name)[int(position)]
        for part, value in parts.items():
            if value is None:
                record.ClearField(part)
            elif isinstance(value, list):
                record.ClearField(part)
                getattr(record, part).extend(value)
            else:
                setattr(record, part, value)

    return change


def both(*changes: Callable[[Records], None]) -> Callable[[Records], None]:
    """Several changes, one after another."""

    def change(records: Records) -> None:
        for one in changes:
            one(records)

    return change


def not_found(name: str, place: Place, note: str = MEND_NAME) -> Fault:
    """A name that nothing has, or that is not seen."""
    return Fault("NameNotFound", f"name '{name}' is not defined", note, place)


# Names that nothing has. A leading dot is told where no file has the name.
PRICE = "message_type 0 field 1"
ITEMS = "message_type 0 field 1"

refused(
    "type-of-a-field-misspelt",
    "order",
    set_part(ORDER, ITEMS, type_name=".shop.Itme"),
    not_found(".shop.Itme", Place(ORDER, [4, 0, 2, 1, 6], "shop.Order.items"), meant("shop.Item", ITEM)),
)
refused(
    "type-of-a-field-in-a-nested-message-misspelt",
    "item",
    set_part(ITEM, "message_type 0 nested_type 0 field 1", type_name=".shop.Itm"),
    not_found(".shop.Itm", Place(ITEM, [4, 0, 3, 0, 2, 1, 6], "shop.Item.Part.whole"), meant("shop.Item", ITEM)),
)
refused(
    "enum-of-a-field-misspelt",
    "order",
    set_part(ORDER, "message_type 0 field 4", type_name=".shop.Item.Sate"),
    not_found(".shop.Item.Sate", Place(ORDER, [4, 0, 2, 4, 6], "shop.Order.state"), meant("shop.Item.State", ITEM)),
)
refused(
    "value-of-a-map-misspelt",
    "order",
    set_part(ORDER, "message_type 0 nested_type 0 field 1", type_name=".shop.Itme"),
    not_found(".shop.Itme", Place(ORDER, [4, 0, 3, 0, 2, 1, 6], "shop.Order.PartsEntry.value"), meant("shop.Item", ITEM)),
)
refused(
    "type-of-an-extension-misspelt",
    "shelf",
    set_part(SHELF, "extension 1", type_name=".shop.State"),
    not_found(".shop.State", Place(SHELF, [7, 1, 6], "depot.state"), meant("shop.Item.State", ITEM)),
)
refused(
    "type-without-a-leading-dot-misspelt",
    "order",
    set_part(ORDER, ITEMS, type_name="Itme"),
    not_found("Itme", Place(ORDER, [4, 0, 2, 1, 6], "shop.Order.items"), meant("shop.Item", ITEM)),
)
refused(
    "type-behind-its-package-misspelt",
    "order",
    set_part(ORDER, ITEMS, type_name="shop.Itme"),
    Fault(
        "NameShadowed",
        "'shop.Itme' resolves to 'shop.Itme', which is not defined",
        "'shop' is there, and has no 'Itme'; " + meant("shop.Item", ITEM),
        Place(ORDER, [4, 0, 2, 1, 6], "shop.Order.items"),
    ),
)
for name, written, there in (
    ("type-behind-packages-misspelt", "shop.money.Mony", "'shop.money' is there, and has no 'Mony'"),
    ("package-of-a-type-misspelt", "shop.mony.Money", "'shop' is there, and has no 'mony.Money'"),
):
    refused(
        name,
        "order",
        set_part(ORDER, ITEMS, type_name=written),
        Fault(
            "NameShadowed",
            f"'{written}' resolves to '{written}', which is not defined",
            f"{there}; " + meant("shop.money.Money", MONEY, ORDER),
            Place(ORDER, [4, 0, 2, 1, 6], "shop.Order.items"),
        ),
    )
refused(
    "type-of-an-import-without-its-package",
    "item",
    set_part(ITEM, PRICE, type_name="Money"),
    not_found("Money", Place(ITEM, [4, 0, 2, 1, 6], "shop.Item.price"), meant("shop.money.Money", MONEY)),
)
refused(
    "type-of-a-file-that-is-not-imported-without-its-package",
    "order",
    set_part(ORDER, ITEMS, type_name="Money"),
    not_found(
        "Money",
        Place(ORDER, [4, 0, 2, 1, 6], "shop.Order.items"),
        meant("shop.money.Money", MONEY, ORDER),
    ),
)
refused(
    "type-that-is-like-no-other",
    "order",
    set_part(ORDER, ITEMS, type_name=".shop.Basket"),
    not_found(".shop.Basket", Place(ORDER, [4, 0, 2, 1, 6], "shop.Order.items")),
)
refused(
    "type-that-differs-by-three-letters",
    "order",
    set_part(ORDER, "service 0 method 0", input_type=".shop.OrdersRequests1"),
    not_found(".shop.OrdersRequests1", Place(ORDER, [6, 0, 2, 0, 2], "shop.Orders.Get")),
)
refused(
    "type-whose-declaration-has-a-dot-in-its-name",
    "order",
    set_part(ORDER, "message_type 0", name="Or.der"),
    not_found(
        ".shop.Order.PartsEntry",
        Place(ORDER, [4, 0, 2, 5, 6], "shop.Or.der.parts"),
        meant("shop.Or.der.PartsEntry", ORDER),
    ),
    *(
        not_found(
            ".shop.Order",
            Place(ORDER, [6, 0, 2, position, 3], f"shop.Orders.{method}"),
            meant("shop.Or.der", ORDER),
        )
        for position, method in enumerate(("Get", "Watch"))
    ),
)
refused(
    "input-of-a-method-misspelt",
    "order",
    set_part(ORDER, "service 0 method 0", input_type=".shop.OderRequest"),
    not_found(".shop.OderRequest", Place(ORDER, [6, 0, 2, 0, 2], "shop.Orders.Get"), meant("shop.OrderRequest", ORDER)),
)
refused(
    "output-of-a-method-misspelt",
    "order",
    set_part(ORDER, "service 0 method 1", output_type=".shop.Oder"),
    not_found(".shop.Oder", Place(ORDER, [6, 0, 2, 1, 3], "shop.Orders.Watch"), meant("shop.Order", ORDER)),
)
refused(
    "input-of-a-method-missing",
    "order",
    set_part(ORDER, "service 0 method 0", input_type=None),
    not_found("", Place(ORDER, [6, 0, 2, 0, 2], "shop.Orders.Get"), EMPTY_NAME),
)
refused(
    "extendee-misspelt",
    "shelf",
    set_part(SHELF, "extension 0", extendee=".depot.Shelv"),
    not_found(".depot.Shelv", Place(SHELF, [7, 0, 2], "depot.keeper"), meant("depot.Shelf", SHELF)),
)

refused(
    "extendee-misspelt-of-several-extensions",
    "shelf",
    both(
        set_part(SHELF, "extension 0", extendee=".depot.Shelv"),
        set_part(SHELF, "extension 1", extendee=".depot.Shelv"),
    ),
    *(
        not_found(
            ".depot.Shelv",
            Place(SHELF, [7, position, 2], f"depot.{element}"),
            meant("depot.Shelf", SHELF),
        )
        for position, element in enumerate(("keeper", "state"))
    ),
)
refused(
    "extension-without-an-extendee",
    "shelf",
    set_part(SHELF, "extension 0", extendee=None),
    not_found("", Place(SHELF, [7, 0, 2], "depot.keeper"), NO_EXTENDEE),
)
refused(
    "extension-in-a-message-without-an-extendee",
    "shelf",
    set_part(SHELF, "message_type 1 extension 0", extendee=None),
    not_found("", Place(SHELF, [4, 1, 6, 0, 2], "depot.Room.room"), NO_EXTENDEE),
)

# Imports.
refused(
    "import-gone",
    "item",
    set_part(ITEM, "", dependency=[]),
    not_found(
        "shop.money.Money",
        Place(ITEM, [4, 0, 2, 1, 6], "shop.Item.price"),
        not_imported("shop.money.Money", MONEY, ITEM),
    ),
)
refused(
    "import-gone-of-a-map",
    "order",
    set_part(ORDER, "", dependency=[]),
    not_found(
        "shop.Item",
        Place(ORDER, [4, 0, 2, 1, 6], "shop.Order.items"),
        not_imported("shop.Item", ITEM, ORDER),
    ),
    not_found(
        "shop.Item.State",
        Place(ORDER, [4, 0, 2, 4, 6], "shop.Order.state"),
        not_imported("shop.Item.State", ITEM, ORDER),
    ),
    not_found(
        "shop.Item",
        Place(ORDER, [4, 0, 3, 0, 2, 1, 6], "shop.Order.PartsEntry.value"),
        not_imported("shop.Item", ITEM, ORDER),
    ),
)
refused(
    "import-gone-of-an-extension",
    "shelf",
    set_part(SHELF, "", dependency=[]),
    not_found(
        "shop.Item",
        Place(SHELF, [4, 0, 2, 5, 6], "depot.Shelf.items"),
        not_imported("shop.Item", ITEM, SHELF),
    ),
    not_found(
        "shop.Item.State",
        Place(SHELF, [7, 1, 6], "depot.state"),
        not_imported("shop.Item.State", ITEM, SHELF),
    ),
)
refused(
    "import-of-an-import-is-not-seen",
    "order",
    set_part(ORDER, ITEMS, type_name=".shop.money.Money"),
    not_found(
        "shop.money.Money",
        Place(ORDER, [4, 0, 2, 1, 6], "shop.Order.items"),
        not_imported("shop.money.Money", MONEY, ORDER),
    ),
)
refused(
    "import-misspelt",
    "item",
    set_part(ITEM, "", dependency=["shop/mony.proto"]),
    Fault(
        "FileNotFound",
        "imported file 'shop/mony.proto' has not been added",
        GIVE_FILE,
        Place(ITEM, [3, 0], None),
    ),
    not_found(
        "shop.money.Money",
        Place(ITEM, [4, 0, 2, 1, 6], "shop.Item.price"),
        not_imported("shop.money.Money", MONEY, ITEM),
    ),
)
refused(
    "import-by-another-root",
    "item",
    set_part(MONEY, "", name="money.proto"),
    Fault(
        "FileNotFound",
        "imported file 'shop/money.proto' has not been added",
        GIVE_FILE,
        Place(ITEM, [3, 0], None),
    ),
    not_found(
        "shop.money.Money",
        Place(ITEM, [4, 0, 2, 1, 6], "shop.Item.price"),
        not_imported("shop.money.Money", "money.proto", ITEM),
    ),
)
ROWS.append(
    Row(
        "import-not-in-the-set",
        [ITEM],
        lambda records: None,
        [
            Fault(
                "FileNotFound",
                "imported file 'shop/money.proto' has not been added",
                GIVE_FILE,
                Place(ITEM, [3, 0], None),
            ),
            not_found(".shop.money.Money", Place(ITEM, [4, 0, 2, 1, 6], "shop.Item.price")),
        ],
    )
)


def without_import(file: str) -> Callable[[Records], None]:
    """Takes away the import of an option, which is unread. Of descriptor.proto the source goes."""

    def change(records: Records) -> None:
        records[file].ClearField("dependency")
        records[DESCRIPTOR].ClearField("source_code_info")

    return change


for name, declaring, file, counts in (
    ("import-gone-of-an-option", MARKS, LABEL, "0 services, 1 extension"),
    ("import-gone-of-an-option-of-a-message", STAMPS, PARCEL, "0 services, 2 extensions"),
    ("import-gone-of-an-option-of-a-method", STAMPS, ROUTES, "1 service, 2 extensions"),
):
    ROWS.append(
        Row(
            name,
            [DESCRIPTOR, declaring, file],
            without_import(file),
            accepted=f"3 files, 28 messages, 6 enums, {counts}",
        )
    )
refused(
    "public-index-past-the-imports",
    "order",
    set_part(ORDER, "", public_dependency=[1]),
    Fault(
        "InvalidImportIndex",
        "invalid import index",
        outside("public_dependency", 1, 1),
        Place(ORDER, [10, 0], None),
    ),
)
refused(
    "weak-index-below-0",
    "order",
    set_part(ORDER, "", weak_dependency=[-1]),
    Fault(
        "InvalidImportIndex",
        "invalid import index",
        outside("weak_dependency", -1, 1),
        Place(ORDER, [11, 0], None),
    ),
)
accepted("import-of-itself", "money", set_part(MONEY, "", dependency=[MONEY]))
accepted("import-twice", "item", set_part(ITEM, "", dependency=[MONEY, MONEY]))

# Numbers of fields.


def number_twice(number: int, place: Place, first: Place) -> Fault:
    """A number that an earlier field has."""
    return Fault(
        "DuplicateFieldNumber",
        f"field number '{number}' is already used",
        OTHER_NUMBER,
        place,
        first,
    )


refused(
    "number-twice",
    "money",
    set_part(MONEY, "message_type 0 field 1", number=1),
    number_twice(
        1,
        Place(MONEY, [4, 0, 2, 1, 3], "shop.money.Money.currency"),
        Place(MONEY, [4, 0, 2, 0, 3], "shop.money.Money.units"),
    ),
)
refused(
    "number-three-times",
    "item",
    both(
        set_part(ITEM, "message_type 0 field 1", number=1),
        set_part(ITEM, "message_type 0 field 2", number=1),
    ),
    number_twice(
        1,
        Place(ITEM, [4, 0, 2, 1, 3], "shop.Item.price"),
        Place(ITEM, [4, 0, 2, 0, 3], "shop.Item.name"),
    ),
    number_twice(
        1,
        Place(ITEM, [4, 0, 2, 2, 3], "shop.Item.tags"),
        Place(ITEM, [4, 0, 2, 1, 3], "shop.Item.price"),
    ),
)
refused(
    "number-twice-in-a-oneof",
    "order",
    set_part(ORDER, "message_type 0 field 3", number=3),
    number_twice(
        3,
        Place(ORDER, [4, 0, 2, 3, 3], "shop.Order.invoice"),
        Place(ORDER, [4, 0, 2, 2, 3], "shop.Order.card"),
    ),
)
refused(
    "number-twice-in-a-nested-message",
    "item",
    set_part(ITEM, "message_type 0 nested_type 0 field 2", number=1),
    number_twice(
        1,
        Place(ITEM, [4, 0, 3, 0, 2, 2, 3], "shop.Item.Part.state"),
        Place(ITEM, [4, 0, 3, 0, 2, 0, 3], "shop.Item.Part.label"),
    ),
)
for name, number in (
    ("number-19000", 19000),
    ("number-19999", 19999),
    ("number-past-the-last", 536870912),
    ("number-0", 0),
    ("number-below-0", -1),
):
    refused(
        name,
        "money",
        set_part(MONEY, "message_type 0 field 1", number=number),
        Fault(
            "InvalidFieldNumber",
            f"invalid field number '{number}'",
            NUMBERS,
            Place(MONEY, [4, 0, 2, 1, 3], "shop.money.Money.currency"),
        ),
    )
refused(
    "number-missing",
    "money",
    set_part(MONEY, "message_type 0 field 1", number=None),
    Fault(
        "InvalidFieldNumber",
        "invalid field number '0'",
        NUMBERS,
        Place(MONEY, [4, 0, 2, 1, 3], "shop.money.Money.currency"),
    ),
)
accepted("number-18999", "money", set_part(MONEY, "message_type 0 field 1", number=18999))
accepted("number-20000", "money", set_part(MONEY, "message_type 0 field 1", number=20000))


def in_a_range(kind: str, number: int, numbers: str, place: Place, second: Place) -> Fault:
    """A number of a field that a range holds."""
    code = "FieldNumberInReservedRange" if kind == "reserved" else "FieldNumberInExtensionRange"
    return Fault(
        code,
        f"field number '{number}' conflicts with {kind} range '{numbers}'",
        NOT_RESERVED if kind == "reserved" else NOT_EXTENSIONS,
        place,
        second,
        "the range is declared at",
    )


for name, number, numbers, position in (
    ("number-in-a-reserved-range", 7, "5 to 8", 0),
    ("number-last-of-a-reserved-range", 8, "5 to 8", 0),
    ("number-reserved-alone", 20, "20 to 20", 1),
):
    refused(
        name,
        "item",
        set_part(ITEM, "message_type 0 field 3", number=number),
        in_a_range(
            "reserved",
            number,
            numbers,
            Place(ITEM, [4, 0, 2, 3, 3], "shop.Item.unit_count"),
            Place(ITEM, [4, 0, 9, position], "shop.Item"),
        ),
    )
refused(
    "number-reserved-in-a-nested-message",
    "item",
    set_part(ITEM, "message_type 0 nested_type 0 field 0", number=4),
    in_a_range(
        "reserved",
        4,
        "4 to 4",
        Place(ITEM, [4, 0, 3, 0, 2, 0, 3], "shop.Item.Part.label"),
        Place(ITEM, [4, 0, 3, 0, 9, 0], "shop.Item.Part"),
    ),
)
accepted("number-behind-a-reserved-range", "item", set_part(ITEM, "message_type 0 field 3", number=9))
for name, number in (
    ("number-in-an-extension-range", 120),
    ("number-first-of-an-extension-range", 100),
    ("number-last-of-an-extension-range", 199),
):
    refused(
        name,
        "shelf",
        set_part(SHELF, "message_type 0 field 3", number=number),
        in_a_range(
            "extension",
            number,
            "100 to 199",
            Place(SHELF, [4, 0, 2, 3, 3], "depot.Shelf.depth"),
            Place(SHELF, [4, 0, 5, 0], "depot.Shelf"),
        ),
    )
accepted("number-behind-an-extension-range", "shelf", set_part(SHELF, "message_type 0 field 3", number=200))

# Default values.
for name, position, text, kind, element in (
    ("default-that-no-enum-has", 1, "LARG", "depot.Size", "size"),
    ("default-of-another-enum", 1, "HEAVY", "depot.Size", "size"),
    ("default-of-an-enum-by-its-number", 1, "1", "depot.Size", "size"),
    ("default-that-is-no-number", 3, "seven", "int32", "depth"),
    ("default-of-a-number-with-a-base", 3, "0x10", "int32", "depth"),
    ("default-of-a-number-behind-a-space", 3, " 7", "int32", "depth"),
    ("default-past-the-range-of-its-type", 3, "2147483648", "int32", "depth"),
    ("default-that-is-no-truth-value", 4, "yes", "bool", "is_full"),
    ("default-of-a-message", 5, "none", "message type", "items"),
):
    refused(
        name,
        "shelf",
        set_part(SHELF, f"message_type 0 field {position}", default_value=text),
        Fault(
            "InvalidFieldDefault",
            f"invalid default value '{text}' for type '{kind}'",
            NO_VALUE if kind == "message type" else VALUE,
            Place(SHELF, [4, 0, 2, position, 7], f"depot.Shelf.{element}"),
        ),
    )
refused(
    "default-of-an-extension-that-no-enum-has",
    "shelf",
    set_part(SHELF, "extension 1", default_value="STATE_LOST"),
    Fault(
        "InvalidFieldDefault",
        "invalid default value 'STATE_LOST' for type 'shop.Item.State'",
        VALUE,
        Place(SHELF, [7, 1, 7], "depot.state"),
    ),
)

# Names that are there already.


def name_twice(name: str, place: Place, first: Place, note: str = RENAME) -> Fault:
    """A name that is there already."""
    if place.file == first.file:
        return Fault("DuplicateName", f"name '{name}' is defined twice", note, place, first)
    message = f"name '{name}' is already defined in file '{first.file}'"
    over_files = RENAME_PACKAGE if [2] in (place.path, first.path) else RENAME_OVER_FILES
    return Fault("DuplicateName", message, over_files, place, first)


def camel_case(one: str, other: str, place: Place, first: Place) -> Fault:
    """A name that in proto3 is not told apart from an earlier one."""
    return Fault(
        "DuplicateFieldCamelCaseName",
        f"camel-case name of field '{one}' conflicts with field '{other}'",
        CAMEL_CASE,
        place,
        first,
    )


NAME_PLACE = Place(ITEM, [4, 0, 2, 0, 1], "shop.Item.name")
TAGS_PLACE = Place(ITEM, [4, 0, 2, 2, 1], "shop.Item.name")
refused(
    "field-twice-in-proto3",
    "item",
    set_part(ITEM, "message_type 0 field 2", name="name"),
    camel_case("name", "name", TAGS_PLACE, NAME_PLACE),
    name_twice("shop.Item.name", TAGS_PLACE, NAME_PLACE),
)
STATE_PLACE = Place(ITEM, [4, 0, 3, 0, 2, 2, 1], "shop.Item.Part.label")
LABEL_PLACE = Place(ITEM, [4, 0, 3, 0, 2, 0, 1], "shop.Item.Part.label")
refused(
    "field-twice-in-a-nested-message",
    "item",
    set_part(ITEM, "message_type 0 nested_type 0 field 2", name="label"),
    camel_case("label", "label", STATE_PLACE, LABEL_PLACE),
    name_twice("shop.Item.Part.label", STATE_PLACE, LABEL_PLACE),
)
refused(
    "field-twice-in-proto2",
    "shelf",
    set_part(SHELF, "message_type 0 field 3", name="label"),
    name_twice(
        "depot.Shelf.label",
        Place(SHELF, [4, 0, 2, 3, 1], "depot.Shelf.label"),
        Place(SHELF, [4, 0, 2, 2, 1], "depot.Shelf.label"),
    ),
)
refused(
    "field-and-oneof-of-one-name",
    "order",
    set_part(ORDER, "message_type 0 field 4", name="payment"),
    name_twice(
        "shop.Order.payment",
        Place(ORDER, [4, 0, 2, 4, 1], "shop.Order.payment"),
        Place(ORDER, [4, 0, 8, 0, 1], "shop.Order.payment"),
        RENAME_ONEOF,
    ),
)
refused(
    "fields-of-one-camel-case-name",
    "item",
    set_part(ITEM, "message_type 0 field 2", name="unitCount"),
    camel_case(
        "unitCount",
        "unit_count",
        Place(ITEM, [4, 0, 2, 3, 1], "shop.Item.unit_count"),
        Place(ITEM, [4, 0, 2, 2, 1], "shop.Item.unitCount"),
    ),
)


def json_twice(name: str, place: Place, first: Place) -> Fault:
    """A JSON name that an earlier field has."""
    message = f"a field with JSON name '{name}' is already defined"
    return Fault("DuplicateFieldJsonName", message, OTHER_JSON_NAME, place, first)


refused(
    "json-name-twice-in-proto3",
    "item",
    set_part(ITEM, "message_type 0 field 2", json_name="name"),
    json_twice("name", Place(ITEM, [4, 0, 2, 2, 1], "shop.Item.tags"), NAME_PLACE),
)
refused(
    "json-name-twice-in-proto2",
    "shelf",
    set_part(SHELF, "message_type 0 field 3", json_name="label"),
    json_twice(
        "label",
        Place(SHELF, [4, 0, 2, 3, 1], "depot.Shelf.depth"),
        Place(SHELF, [4, 0, 2, 2, 1], "depot.Shelf.label"),
    ),
)
refused(
    "json-name-of-two-spellings-in-proto2",
    "shelf",
    set_part(SHELF, "message_type 0 field 3", name="isFull", json_name="isFull"),
    json_twice(
        "isFull",
        Place(SHELF, [4, 0, 2, 4, 1], "depot.Shelf.is_full"),
        Place(SHELF, [4, 0, 2, 3, 1], "depot.Shelf.isFull"),
    ),
)
refused(
    "message-twice",
    "order",
    set_part(ORDER, "message_type 1", name="Order"),
    name_twice(
        "shop.Order",
        Place(ORDER, [4, 1, 1], "shop.Order"),
        Place(ORDER, [4, 0, 1], "shop.Order"),
        RENAME_MESSAGE,
    ),
    name_twice(
        "shop.Order.id",
        Place(ORDER, [4, 1, 2, 0, 1], "shop.Order.id"),
        Place(ORDER, [4, 0, 2, 0, 1], "shop.Order.id"),
    ),
)
refused(
    "message-of-another-file",
    "order",
    set_part(ORDER, "message_type 0", name="Item"),
    name_twice(
        "shop.Item",
        Place(ORDER, [4, 0, 1], "shop.Item"),
        Place(ITEM, [4, 0, 1], "shop.Item"),
    ),
)
refused(
    "enum-and-message-of-one-name",
    "shelf",
    set_part(SHELF, "enum_type 0", name="Shelf"),
    name_twice(
        "depot.Shelf",
        Place(SHELF, [5, 0, 1], "depot.Shelf"),
        Place(SHELF, [4, 0, 1], "depot.Shelf"),
    ),
)
refused(
    "message-and-package-of-one-name",
    "item",
    set_part(ITEM, "message_type 0", name="money"),
    name_twice(
        "shop.money",
        Place(ITEM, [4, 0, 1], "shop.money"),
        Place(MONEY, [2], None),
    ),
)


def with_second_entry(records: Records) -> None:
    """A message with the name of a map field's entries."""
    records[ORDER].message_type[0].nested_type.add(name="PartsEntry")


refused(
    "message-and-entries-of-a-map-of-one-name",
    "order",
    with_second_entry,
    name_twice(
        "shop.Order.PartsEntry",
        Place(ORDER, [4, 0, 3, 1, 1], "shop.Order.PartsEntry"),
        Place(ORDER, [4, 0, 3, 0, 1], "shop.Order.PartsEntry"),
        RENAME_MESSAGE,
    ),
)
refused(
    "service-and-message-of-one-name",
    "order",
    set_part(ORDER, "service 0", name="Order"),
    name_twice(
        "shop.Order",
        Place(ORDER, [6, 0, 1], "shop.Order"),
        Place(ORDER, [4, 0, 1], "shop.Order"),
    ),
)
refused(
    "method-twice",
    "order",
    set_part(ORDER, "service 0 method 1", name="Get"),
    name_twice(
        "shop.Orders.Get",
        Place(ORDER, [6, 0, 2, 1, 1], "shop.Orders.Get"),
        Place(ORDER, [6, 0, 2, 0, 1], "shop.Orders.Get"),
        RENAME_METHOD,
    ),
)
refused(
    "value-of-two-enums-of-a-scope",
    "shelf",
    set_part(SHELF, "enum_type 1 value 0", name="SMALL"),
    name_twice(
        "depot.SMALL",
        Place(SHELF, [5, 1, 2, 0, 1], "depot.SMALL"),
        Place(SHELF, [5, 0, 2, 0, 1], "depot.SMALL"),
        RENAME_VALUE,
    ),
)
refused(
    "value-of-two-enums-of-a-message",
    "crate",
    set_part(CRATE, "message_type 0 enum_type 1 value 1", name="OAK"),
    name_twice(
        "depot.Crate.OAK",
        Place(CRATE, [4, 0, 4, 1, 2, 1, 1], "depot.Crate.OAK"),
        Place(CRATE, [4, 0, 4, 0, 2, 1, 1], "depot.Crate.OAK"),
        RENAME_VALUE,
    ),
)
refused(
    "value-and-message-of-one-name",
    "shelf",
    set_part(SHELF, "enum_type 1 value 2", name="Room"),
    name_twice(
        "depot.Room",
        Place(SHELF, [5, 1, 2, 2, 1], "depot.Room"),
        Place(SHELF, [4, 1, 1], "depot.Room"),
        RENAME_VALUE,
    ),
)
ROWS.append(
    Row(
        "file-twice-and-not-equal",
        [MONEY],
        lambda records: None,
        [
            Fault(
                "UnequalFile",
                "file-twice-and-not-equal.pb and file-twice-and-not-equal.pb have unequal copies: "
                "import 1 'shop/item.proto'",
                "give one of them",
                Place(MONEY, [3, 0], None),
            )
        ],
        extra=lambda records: [
            descriptor_pb2.FileDescriptorProto(name=MONEY, package="shop.money", dependency=[ITEM])
        ],
    )
)
ROWS.append(
    Row(
        "file-twice-and-equal",
        [MONEY],
        lambda records: None,
        accepted=COUNTS["money"],
        extra=lambda records: [records[MONEY]],
    )
)

# Enums.


def value_number_twice(number: int, place: Place, first: Place) -> Fault:
    """A number that an earlier value has."""
    message = f"enum number '{number}' has already been used"
    return Fault("DuplicateEnumNumber", message, ALIAS, place, first)


EURO = "shop.money.CURRENCY_EURO"
KRONA = "shop.money.CURRENCY_KRONA"
for name, alias, number, position, element in (
    ("number-of-two-values", None, 1, 1, EURO),
    ("number-of-the-first-and-the-last-value", None, 0, 0, "shop.money.CURRENCY_UNKNOWN"),
    ("number-of-two-values-without-an-alias", False, 1, 1, EURO),
):
    def change(records: Records, alias: Optional[bool] = alias, number: int = number) -> None:
        """Gives the last value the number of an earlier one."""
        enum = records[MONEY].enum_type[0]
        enum.value[2].number = number
        if alias is not None:
            enum.options.allow_alias = alias

    refused(
        name,
        "money",
        change,
        value_number_twice(
            number,
            Place(MONEY, [5, 0, 2, 2, 2], KRONA),
            Place(MONEY, [5, 0, 2, position, 2], element),
        ),
    )
refused(
    "number-of-two-values-of-a-nested-enum",
    "item",
    set_part(ITEM, "message_type 0 enum_type 0 value 1", number=0),
    value_number_twice(
        0,
        Place(ITEM, [4, 0, 4, 0, 2, 1, 2], "shop.Item.STATE_SOLD"),
        Place(ITEM, [4, 0, 4, 0, 2, 0, 2], "shop.Item.STATE_UNKNOWN"),
    ),
)


def with_an_alias(records: Records) -> None:
    """Two values of one number, as `allow_alias` lets them."""
    enum = records[MONEY].enum_type[0]
    enum.value[2].number = 1
    enum.options.allow_alias = True


accepted("number-of-two-values-with-an-alias", "money", with_an_alias)
refused(
    "first-value-not-0",
    "money",
    set_part(MONEY, "enum_type 0 value 0", number=3),
    Fault(
        "InvalidProto3EnumDefault",
        "the first value for proto3 enums must be 0",
        ZERO_FIRST,
        Place(MONEY, [5, 0, 2, 0, 2], "shop.money.CURRENCY_UNKNOWN"),
    ),
)
refused(
    "first-value-of-a-nested-enum-not-0",
    "item",
    set_part(ITEM, "message_type 0 enum_type 0 value 0", number=2),
    Fault(
        "InvalidProto3EnumDefault",
        "the first value for proto3 enums must be 0",
        ZERO_FIRST,
        Place(ITEM, [4, 0, 4, 0, 2, 0, 2], "shop.Item.STATE_UNKNOWN"),
    ),
)
accepted("first-value-not-0-in-proto2", "shelf", set_part(SHELF, "enum_type 1 value 0", number=9))
refused(
    "enum-without-values",
    "money",
    set_part(MONEY, "enum_type 0", value=[]),
    Fault(
        "EmptyEnum",
        "enums must have at least one value",
        "add a value",
        Place(MONEY, [5, 0], "shop.money.Currency"),
    ),
)
for name, number in (("number-of-a-value-reserved", 40), ("number-of-a-value-reserved-last", 49)):
    refused(
        name,
        "shelf",
        set_part(SHELF, "enum_type 0 value 1", number=number),
        Fault(
            "EnumNumberInReservedRange",
            f"enum number '{number}' conflicts with reserved range '40 to 49'",
            NOT_RESERVED,
            Place(SHELF, [5, 0, 2, 1, 2], "depot.LARGE"),
            Place(SHELF, [5, 0, 4, 0], "depot.Size"),
            "the range is declared at",
        ),
    )

# Names of another kind, and names that a nearer one hides.


def of_another_kind(name: str, wanted: str, place: Place, second: Place) -> Fault:
    """A name that means something else than is wanted."""
    message = f"'{name}' is not {wanted}"
    return Fault("InvalidType", message, NEARER_NAME, place, second, "it is declared at")


refused(
    "type-that-is-a-field",
    "order",
    set_part(ORDER, ITEMS, type_name=".shop.Order.card"),
    of_another_kind(
        "shop.Order.card",
        "a message or enum type",
        Place(ORDER, [4, 0, 2, 1, 6], "shop.Order.items"),
        Place(ORDER, [4, 0, 2, 2, 1], "shop.Order.card"),
    ),
)
for name, written, position in (
    ("type-that-is-a-field-beside-it", "card", 2),
    ("type-that-is-its-own-field", "items", 1),
):
    refused(
        name,
        "order",
        set_part(ORDER, ITEMS, type_name=written),
        of_another_kind(
            f"shop.Order.{written}",
            "a message or enum type",
            Place(ORDER, [4, 0, 2, 1, 6], "shop.Order.items"),
            Place(ORDER, [4, 0, 2, position, 1], f"shop.Order.{written}"),
        ),
    )
refused(
    "type-that-is-a-package",
    "item",
    set_part(ITEM, PRICE, type_name=".shop.money"),
    of_another_kind(
        "shop.money",
        "a message or enum type",
        Place(ITEM, [4, 0, 2, 1, 6], "shop.Item.price"),
        Place(MONEY, [2], None),
    ),
)
refused(
    "input-of-a-method-that-is-an-enum",
    "order",
    set_part(ORDER, "service 0 method 0", input_type=".shop.Item.State"),
    of_another_kind(
        "shop.Item.State",
        "a message type",
        Place(ORDER, [6, 0, 2, 0, 2], "shop.Orders.Get"),
        Place(ITEM, [4, 0, 4, 0, 1], "shop.Item.State"),
    ),
)
refused(
    "type-whose-package-a-nested-message-hides",
    "item",
    both(
        set_part(ITEM, "message_type 0 nested_type 0", name="money"),
        set_part(ITEM, PRICE, type_name="money.Money"),
    ),
    Fault(
        "NameShadowed",
        "'money.Money' resolves to 'shop.Item.money.Money', which is not defined",
        "'shop.Item' has a nearer 'money': write '.shop.money.Money' to mean what "
        "'shop/money.proto' declares",
        Place(ITEM, [4, 0, 2, 1, 6], "shop.Item.price"),
    ),
)
refused(
    "full-name-whose-package-a-nested-message-hides",
    "item",
    both(
        set_part(ITEM, "message_type 0 nested_type 0", name="shop"),
        set_part(ITEM, PRICE, type_name="shop.money.Money"),
    ),
    Fault(
        "NameShadowed",
        "'shop.money.Money' resolves to 'shop.Item.shop.money.Money', which is not defined",
        "'shop.Item' has a nearer 'shop': write '.shop.money.Money' to mean what "
        "'shop/money.proto' declares",
        Place(ITEM, [4, 0, 2, 1, 6], "shop.Item.price"),
    ),
)
refused(
    "hidden-type-of-a-file-that-is-not-imported",
    "item",
    both(
        both(
            set_part(ITEM, "message_type 0 nested_type 0", name="money"),
            set_part(ITEM, PRICE, type_name="money.Money"),
        ),
        set_part(ITEM, "", dependency=[]),
    ),
    Fault(
        "NameShadowed",
        "'money.Money' resolves to 'shop.Item.money.Money', which is not defined",
        "'shop.Item' has a nearer 'money': write '.shop.money.Money' to mean what "
        "'shop/money.proto' declares, which 'shop/item.proto' does not import",
        Place(ITEM, [4, 0, 2, 1, 6], "shop.Item.price"),
    ),
)
refused(
    "hidden-type-that-no-file-declares",
    "item",
    both(
        set_part(ITEM, "message_type 0 nested_type 0", name="money"),
        set_part(ITEM, PRICE, type_name="money.Mony"),
    ),
    Fault(
        "NameShadowed",
        "'money.Mony' resolves to 'shop.Item.money.Mony', which is not defined",
        NEARER_SCOPE,
        Place(ITEM, [4, 0, 2, 1, 6], "shop.Item.price"),
    ),
)
for name, file, path, place in (
    ("message-without-a-type-name", ITEM, PRICE, Place(ITEM, [4, 0, 2, 1, 6], "shop.Item.price")),
    (
        "enum-without-a-type-name",
        ITEM,
        "message_type 0 nested_type 0 field 2",
        Place(ITEM, [4, 0, 3, 0, 2, 2, 6], "shop.Item.Part.state"),
    ),
):
    refused(
        name,
        "item",
        set_part(file, path, type_name=None),
        Fault("MissingRequiredField", f"missing required field at {place.path}", GIVE_TYPE, place),
    )

# Extensions.


def out_of_range(message: str, number: int, place: Place, note: str = OF_A_RANGE) -> Fault:
    """A number that a message does not leave to extensions."""
    text = f"message '{message}' does not define '{number}' as an extension number"
    return Fault("ExtensionNumberOutOfRange", text, note, place)


refused(
    "extension-of-a-number-past-the-range",
    "shelf",
    set_part(SHELF, "extension 0", number=200),
    out_of_range("depot.Shelf", 200, Place(SHELF, [7, 0, 3], "depot.keeper")),
)
refused(
    "extension-of-a-message-without-ranges",
    "shelf",
    set_part(SHELF, "extension 0", extendee=".shop.Item"),
    out_of_range("shop.Item", 100, Place(SHELF, [7, 0, 3], "depot.keeper")),
)
refused(
    "field-with-an-extendee",
    "item",
    set_part(ITEM, "message_type 0 field 0", extendee=".shop.Item.Part"),
    out_of_range("shop.Item", 1, Place(ITEM, [4, 0, 2, 0, 3], "shop.Item.name"), OF_A_FIELD),
)
refused(
    "extensions-gone",
    "shelf",
    set_part(SHELF, "message_type 0", extension_range=[]),
    out_of_range("depot.Shelf", 150, Place(SHELF, [4, 1, 6, 0, 3], "depot.Room.room")),
    out_of_range("depot.Shelf", 100, Place(SHELF, [7, 0, 3], "depot.keeper")),
    out_of_range("depot.Shelf", 101, Place(SHELF, [7, 1, 3], "depot.state")),
)
for name, position, number, place, first in (
    ("extensions-of-one-number", 1, 100, [7, 1, 3], Place(SHELF, [7, 0, 3], "depot.keeper")),
    (
        "extensions-of-one-number-in-two-scopes",
        0,
        150,
        [7, 0, 3],
        Place(SHELF, [4, 1, 6, 0, 3], "depot.Room.room"),
    ),
):
    refused(
        name,
        "shelf",
        set_part(SHELF, f"extension {position}", number=number),
        Fault(
            "DuplicateExtensionNumber",
            f"extension number '{number}' of message 'depot.Shelf' is already used",
            OTHER_NUMBER,
            Place(SHELF, place, ("depot.keeper", "depot.state")[position]),
            first,
        ),
    )
refused(
    "extendee-that-is-an-enum",
    "shelf",
    set_part(SHELF, "extension 0", extendee=".depot.Size"),
    of_another_kind(
        "depot.Size",
        "a message type",
        Place(SHELF, [7, 0, 2], "depot.keeper"),
        Place(SHELF, [5, 0, 1], "depot.Size"),
    ),
)

# Syntaxes and oneofs, and what protoc refuses and is accepted here.
for name, syntax in (("syntax-that-is-unknown", "proto4"), ("syntax-that-is-empty", "")):
    refused(
        name,
        "money",
        set_part(MONEY, "", syntax=syntax),
        Fault(
            "UnknownSyntax",
            f"unknown syntax '{syntax}'",
            SYNTAXES,
            Place(MONEY, [12], None),
        ),
    )


def no_oneof(place: Place, index: int, count: int) -> Fault:
    """An index of a oneof that the message does not have, of so many."""
    note = outside("oneof_index", index, count)
    return Fault("InvalidOneofIndex", "invalid oneof index", note, place)


refused(
    "oneof-index-past-the-oneofs",
    "order",
    set_part(ORDER, "message_type 0 field 2", oneof_index=1),
    no_oneof(Place(ORDER, [4, 0, 2, 2], "shop.Order.card"), 1, 1),
)
refused(
    "oneof-indexes-of-two-messages",
    "order",
    both(
        set_part(ORDER, "message_type 0 field 2", oneof_index=1),
        set_part(ORDER, "message_type 1 field 0", oneof_index=0),
    ),
    no_oneof(Place(ORDER, [4, 0, 2, 2], "shop.Order.card"), 1, 1),
    no_oneof(Place(ORDER, [4, 1, 2, 0], "shop.OrderRequest.id"), 0, 0),
)
accepted("field-of-a-reserved-name", "item", set_part(ITEM, "message_type 0 field 2", name="colour"))
accepted("value-of-a-reserved-name", "shelf", set_part(SHELF, "enum_type 0", reserved_name=["LARGE"]))
accepted(
    "name-reserved-twice",
    "item",
    set_part(ITEM, "message_type 0", reserved_name=["colour", "colour"]),
)
accepted("required-field-in-proto3", "item", set_part(ITEM, "message_type 0 field 0", label=2))


def compiled_set(files: list[str], *options: str) -> bytes:
    """The set that protoc makes of sources and of what they import."""
    with tempfile.TemporaryDirectory() as folder:
        out = Path(folder) / "set.pb"
        words = ["protoc", f"-I{SOURCES}", "--include_imports", *options]
        subprocess.run([*words, f"--descriptor_set_out={out}", *files], check=True)
        return out.read_bytes()


def compiled(files: list[str]) -> Records:
    """The records of sources and of what they import, by the names of their files."""
    made = compiled_set(files, "--include_source_info")
    return {file.name: file for file in descriptor_pb2.FileDescriptorSet.FromString(made).file}


def position(records: Records, place: Place) -> Optional[tuple[int, int]]:
    """The line and the column of a place, from 1, if protoc gave them."""
    for location in records[place.file].source_code_info.location:
        if list(location.path) == place.path:
            return location.span[0] + 1, location.span[1] + 1
    return None


def place_words(records: Records, place: Place) -> str:
    """A place for people."""
    where = position(records, place)
    if where is not None:
        return f"{place.file}:{where[0]}:{where[1]}"
    return place.file if place.element is None else f"{place.file}: {place.element}"


def fault_lines(records: Records, fault: Fault) -> str:
    """The lines of a fault, as docs/CHECK.md tells of them."""
    front = "" if fault.at is None else place_words(records, fault.at) + ": "
    lines = [front + fault.message]
    if fault.second is not None:
        words = f"  note: {fault.words} {place_words(records, fault.second)}"
        if position(records, fault.second) is not None and fault.second.element is not None:
            words += f" ('{fault.second.element}')"
        lines.append(words)
    lines.append(f"  note: {fault.note}")
    return "".join(line + "\n" for line in lines)


def place_members(records: Records, place: Optional[Place]) -> dict[str, object]:
    """The five members of a place."""
    if place is None:
        return dict.fromkeys(("file", "line", "column", "path", "element"))
    line, column = position(records, place) or (None, None)
    return {
        "file": place.file,
        "line": line,
        "column": column,
        "path": place.path,
        "element": place.element,
    }


def fault_object(records: Records, fault: Fault) -> dict[str, object]:
    """The object of a fault, as docs/CHECK.md tells of it."""
    related = [] if fault.second is None else [place_members(records, fault.second)]
    return {
        "code": fault.code,
        "message": fault.message,
        **place_members(records, fault.at),
        "related": related,
        "note": fault.note,
    }


def row_text(records: Records, row: Row) -> str:
    """What is wanted of a row for people."""
    if not row.faults:
        return f"accepted: {row.accepted}\n"
    count = len(row.faults)
    lines = ""
    for one, same in itertools.groupby(fault_lines(records, fault) for fault in row.faults):
        repeats = len(list(same))
        lines += one + (f"  note: {repeats} faults are told so\n" if repeats > 1 else "")
    return lines + f"refused: {count} {'fault' if count == 1 else 'faults'}\n"


def row_object(records: Records, row: Row) -> str:
    """What is wanted of a row as JSON."""
    counts = None
    if not row.faults:
        numbers = [int(words.split()[0]) for words in row.accepted.split(", ")]
        counts = dict(zip(("files", "messages", "enums", "services", "extensions"), numbers))
    whole = {
        "verdict": "refused" if row.faults else "accepted",
        "counts": counts,
        "too_many": None,
        "faults": [fault_object(records, fault) for fault in row.faults],
        "more": 0,
        "error": None,
    }
    return json.dumps(whole, ensure_ascii=False, separators=(",", ":")) + "\n"


def row_files(row: Row) -> dict[str, bytes]:
    """The files of a row, by the ends of their names."""
    records = compiled([name for name in row.files])
    row.change(records)
    files = [records[name] for name in row.files]
    if row.extra is not None:
        files += row.extra(records)
    made = {
        "pb": descriptor_pb2.FileDescriptorSet(file=files).SerializeToString(),
        "text": row_text({file.name: records[name] for name, file in zip(row.files, files)}, row),
        "json": row_object({file.name: records[name] for name, file in zip(row.files, files)}, row),
    }
    if row.faults:
        made["status"] = "1\n"
    return {end: text if isinstance(text, bytes) else text.encode() for end, text in made.items()}


PROTOBUF = [
    "any",
    "api",
    "compiler/plugin",
    "descriptor",
    "duration",
    "empty",
    "field_mask",
    "source_context",
    "struct",
    "timestamp",
    "type",
    "wrappers",
]
"""protobuf's own files."""


FIRST_PASS = """
file { name: "a.proto" package: "p" syntax: "proto4"
    message_type { name: "M" field { name: "f" number: 1 } oneof_decl { name: "f" }
        oneof_decl { name: "o" } oneof_decl { name: "o" } }
    message_type { name: "M" }
    enum_type { name: "E" }
    service { name: "S" }
    service { name: "S" method { name: "m" } method { name: "m" } }
    extension { name: "E" } }
file { name: "b.proto" package: "p.M" syntax: "proto3"
    enum_type { name: "E" value { name: "V" number: 1 } } }
"""
"""Faults of the first pass, in records without source info."""

SECOND_PASS = """
file { name: "a.proto" package: "p" dependency: "b.proto" public_dependency: 1 weak_dependency: -1
    message_type { name: "M"
        field { name: "f" number: 1 type: TYPE_MESSAGE }
        field { name: "g" number: 2 type: TYPE_BOOL default_value: "yes" }
        field { name: "h" number: 3 oneof_index: 3 }
        nested_type { name: "N" field { name: "f" } }
        enum_type { name: "E" value { name: "V" number: 1 } value { name: "W" number: 1 } }
        extension { name: "x" number: 1 extendee: ".p.M" } }
    service { name: "S" method { name: "m" input_type: "Nope" output_type: ".p.S" } }
    extension { name: "x" number: 1 extendee: "Nope" } }
"""
"""Faults of the second pass, in the same way."""

ODD_NAMES = """
file { name: "a:2:1" enum_type { name: "E" } }
file { name: "" package: "q" enum_type { name: "E" } }
file { name: "\\033[31m" package: "r" enum_type { name: "E" } }
file { name: "two words" package: "s" enum_type { name: "a\\nb" } }
"""
"""Names that look like a place, are empty, or would be obeyed by a terminal."""

LINE_FEEDS = """
file { name: "b.proto" package: "q\\n"
    enum_type { name: "E\\n" value { name: "V" number: -1 } } }
file { name: "c\\n.proto" }
file { name: "a.proto" dependency: "b.proto" dependency: "c\\n.proto"
    message_type { name: "M" oneof_decl { name: "o\\n" } extension_range { start: 5 end: 6 }
        field { name: "f\\n" number: 1 type: TYPE_STRING json_name: "j\\n" oneof_index: 0
            default_value: "one\\ntwo\\177" }
        field { name: "g" number: 2 type: TYPE_ENUM type_name: ".q\\n.E\\n" default_value: "V" }
        field { name: "h" number: 3 type: TYPE_FLOAT default_value: "1\\n2" }
        nested_type { name: "N\\n" extension_range { start: 7 end: 9 } } }
    extension { name: "x\\n" number: 5 extendee: ".M" type: TYPE_BOOL }
    extension { name: "y" number: 7 extendee: ".M.N\\n" type: TYPE_BOOL }
    service { name: "S" method { name: "m\\n" input_type: ".M" output_type: ".M.N\\n" } } }
"""
"""Names, JSON names and default values with line feeds."""

DEFAULTS = """
file { name: "a.proto" message_type { name: "M"
    field { name: "a" number: 1 type: TYPE_STRING default_value: "two\\nlines" }
    field { name: "b" number: 2 type: TYPE_STRING default_value: "''" }
    field { name: "c" number: 3 type: TYPE_BYTES default_value: "a\\nb" }
    field { name: "d" number: 4 type: TYPE_DOUBLE default_value: "\\n" }
    field { name: "e" number: 5 type: TYPE_BYTES default_value: "\\\\\\n" }
    field { name: "f" number: 6 type: TYPE_INT32 default_value: "1\\n" }
    field { name: "g" number: 7 type: TYPE_BOOL default_value: "''" } } }
"""
"""Four defaults that are right, and three that are wrong."""


FILES_OF_ONE_NAME = """
file { name: "a.proto"
    message_type { name: "A" field { name: "p" number: 1 type: TYPE_BOOL }
        field { name: "q" number: 2 type: TYPE_BOOL } }
    message_type { name: "B" } }
file { name: "a.proto"
    message_type { name: "B" field { name: "x" number: 1 type: TYPE_BOOL }
        field { name: "x" number: 2 type: TYPE_BOOL } } }
"""
"""Two unequal files of one name, the second of which has names that are there already."""

NAMES_WITH_DOTS = """
file { name: "d.proto" message_type { name: "a" }
    message_type { name: "a.b" nested_type { name: "c" } } }
file { name: "e.proto" message_type { name: "M"
    field { name: "f" number: 1 type: TYPE_MESSAGE type_name: ".a.b.c" } } }
"""
"""A message whose name has a dot, and a name in it that is not imported."""

INDEXES = """
file { name: "b.proto" public_dependency: 0
    message_type { name: "B" oneof_decl { name: "p" }
        field { name: "h" number: 1 type: TYPE_BOOL oneof_index: 0 }
        field { name: "i" number: 2 type: TYPE_BOOL oneof_index: -1 } } }
file { name: "a.proto" dependency: "b.proto" public_dependency: 7 public_dependency: 0
    weak_dependency: 9
    message_type { name: "A" field { name: "f" number: 1 type: TYPE_BOOL oneof_index: 0 }
        nested_type { name: "N" oneof_decl { name: "o" }
            field { name: "g" number: 1 type: TYPE_BOOL oneof_index: 1 } } } }
"""
"""Indexes of imports and of oneofs that are no positions, in two files."""


DEPRECATED = """
file { name: "d.proto" options { deprecated: true }
    message_type { name: "M" options { deprecated: true } reserved_name: "old"
        reserved_name: "gone\\n" extension_range { start: 5 end: 6 }
        field { name: "f" number: 1 type: TYPE_BOOL options { deprecated: true } } }
    enum_type { name: "E" options { deprecated: true } reserved_name: "OLD"
        value { name: "V" number: 0 options { deprecated: true } }
        value { name: "W" number: 1 } }
    service { name: "S" options { deprecated: true }
        method { name: "m" input_type: "M" output_type: "M" client_streaming: true
            options { deprecated: true } }
        method { name: "n" input_type: "M" output_type: "M" server_streaming: true } }
    extension { name: "x" number: 5 extendee: "M" type: TYPE_BOOL options { deprecated: true } } }
"""
"""An item of each kind that is deprecated, and methods that stream."""


def small_set(text: str) -> bytes:
    """A set that is written in protobuf's text format."""
    files = text_format.Parse(text, descriptor_pb2.FileDescriptorSet())
    return files.SerializeToString()


def with_option(records: Records) -> None:
    """An option that the source does not have."""
    records[MONEY].options.go_package = "other"


def broken_files(records: Records) -> None:
    """Three faults in two files."""
    records[MONEY].message_type[0].field[1].number = 1
    records[ITEM].message_type[0].field[2].number = 19000
    records[ITEM].message_type[0].field[3].number = 7


def equal_ranges(records: Records) -> None:
    """A field whose number stands in three equal reserved ranges."""
    message = records[ITEM].message_type[0]
    for _ in range(2):
        message.reserved_range.add().CopyFrom(message.reserved_range[0])
    message.field[3].number = 7


def strict_files(records: Records) -> None:
    """A field that breaks two rules of protoc, and none of the linker."""
    field = records[ITEM].message_type[0].field[2]
    field.name = "colour"
    field.label = field.LABEL_REQUIRED


BUF_FIELD = b"\xd2\xf6\x03\x02\x08\x01"
"""The field 8042 that buf's images have in each file, a message: here its field 1 is 1."""


def image(data: bytes) -> bytes:
    """A set as an image of buf's: in each file a further field."""
    files = descriptor_pb2.FileDescriptorSet.FromString(data)
    for file in files.file:
        file.MergeFromString(BUF_FIELD)
    return files.SerializeToString()


def run_sets() -> dict[str, bytes]:
    """The sets of the rows that are written by hand, by their names."""
    whole = compiled_set([ORDER, SHELF], "--include_source_info")
    broken = compiled([ITEM])
    broken_files(broken)
    equal = compiled([ITEM])
    equal_ranges(equal)
    strict = compiled([ITEM])
    strict_files(strict)
    bare = compiled([ITEM])
    broken_files(bare)
    for file in bare.values():
        file.ClearField("source_code_info")
    options = compiled([MONEY])
    with_option(options)
    return {
        "shop": whole,
        "cut": whole[:-1],
        "image": image(whole),
        "empty": b"",
        "large-tag": b"\x8a\x80\x80\x80\x10\x00",
        "money": compiled_set([MONEY], "--include_source_info"),
        "broken": descriptor_pb2.FileDescriptorSet(file=broken.values()).SerializeToString(),
        "equal-ranges": descriptor_pb2.FileDescriptorSet(file=equal.values()).SerializeToString(),
        "strict": descriptor_pb2.FileDescriptorSet(file=strict.values()).SerializeToString(),
        "broken-without-places": descriptor_pb2.FileDescriptorSet(
            file=bare.values()
        ).SerializeToString(),
        "money-without-places": compiled_set([MONEY]),
        "money-with-options": descriptor_pb2.FileDescriptorSet(
            file=options.values()
        ).SerializeToString(),
        "first-pass": small_set(FIRST_PASS),
        "second-pass": small_set(SECOND_PASS),
        "odd-names": small_set(ODD_NAMES),
        "line-feeds": small_set(LINE_FEEDS),
        "deprecated": small_set(DEPRECATED),
        "defaults": small_set(DEFAULTS),
        "files-of-one-name": small_set(FILES_OF_ONE_NAME),
        "names-with-dots": small_set(NAMES_WITH_DOTS),
        "indexes": small_set(INDEXES),
        "protobuf": compiled_set([f"google/protobuf/{name}.proto" for name in PROTOBUF]),
    }


def all_files() -> dict[Path, bytes]:
    """All files that are made."""
    made = {DATA / "runs" / f"{name}.pb": content for name, content in run_sets().items()}
    for row in ROWS:
        for end, content in row_files(row).items():
            made[DATA / "breaks" / f"{row.name}.{end}"] = content
    return made


def write() -> int:
    """Writes all files."""
    for path, content in all_files().items():
        path.parent.mkdir(exist_ok=True)
        path.write_bytes(content)
    return 0


def compare() -> int:
    """Tells which stored files are not those that are made."""
    made = all_files()
    stored = {*(DATA / "breaks").iterdir(), *(DATA / "runs").glob("*.pb")}
    other = stored - set(made)
    for path, content in made.items():
        if path not in stored or path.read_bytes() != content:
            other.add(path)
    for path in sorted(other):
        print(f"{path.relative_to(DATA)}: another one is made", file=sys.stderr)
    return 1 if other else 0


def main() -> int:
    """Does what the arguments ask."""
    parser = argparse.ArgumentParser(
        description=__doc__, formatter_class=argparse.RawDescriptionHelpFormatter
    )
    parser.add_argument("task", choices=("write", "compare"))
    return write() if parser.parse_args().task == "write" else compare()


if __name__ == "__main__":
    sys.exit(main())
