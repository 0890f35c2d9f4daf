"""Versions of a schema as plain data, and the records that describe them.

A version is two files of one package, of which the second imports the first, each of proto2 or of
proto3. `mended` makes of any version one that protobuf accepts. `real_set` is its set of files, and
`loose_file` a file by which the same bytes are read as they are: strings are bytes, enums are
numbers, the entries of a map are messages, and each field has presence.
"""

from __future__ import annotations

from dataclasses import dataclass, field
from typing import Any, Iterator, Optional

try:
    from google.protobuf import descriptor_pb2
except ImportError:
    descriptor_pb2 = None

LOW, TOP = "low.proto", "top.proto"
NUMBERS = {
    "int32": (-(2**31), 2**31),
    "int64": (-(2**63), 2**63),
    "uint32": (0, 2**32),
    "uint64": (0, 2**64),
    "sint32": (-(2**31), 2**31),
    "sint64": (-(2**63), 2**63),
    "fixed32": (0, 2**32),
    "fixed64": (0, 2**64),
    "sfixed32": (-(2**31), 2**31),
    "sfixed64": (-(2**63), 2**63),
}
"""The kinds of whole numbers, each with its least number and the first after its last one."""

TEXTS = ("string", "bytes")
SCALARS = [*NUMBERS, "bool", "float", "double", *TEXTS]
KEYS = ["int32", "uint32", "int64", "bool", "string"]
TYPES = {name: number for number, name in enumerate(
    "double float int64 uint64 int32 fixed64 fixed32 bool string group message bytes uint32 enum "
    "sfixed32 sfixed64 sint32 sint64".split(), 1)}
LABELS = {"optional": 1, "plain": 1, "required": 2, "repeated": 3, "map": 3, "entries": 3}

DEFAULTS: dict[str, list[str]] = {
    **{kind: ["0", "5", "7"] + ["-1"] * (NUMBERS[kind][0] < 0) for kind in NUMBERS},
    "bool": ["true", "false"],
    "float": ["0", "1.5", "inf"],
    "double": ["0", "1.5", "-inf"],
    "string": ["", "x", "\\377"],
    "bytes": ["", "x", "\\377"],
}
"""The texts of defaults that a field of a kind may have; that of an enum is the name of a value."""

Range = tuple[int, int]
"""The first number of a range, and the first after it."""


@dataclass
class Field:
    """A field or an extension. Its kind is the name of a scalar, of an enum or of a message; that
    of a map the kind of its values. A plain one is one of proto3 without presence. One of entries
    is repeated and holds messages under the name that the entries of a map would have."""

    name: str
    number: int
    kind: str
    label: str
    oneof: Optional[str] = None
    key: str = "int32"
    default: Optional[str] = None
    packed: Optional[bool] = None
    group: bool = False

    def is_list(self) -> bool:
        """Whether it may stand many times."""
        return LABELS[self.label] == 3

    def entry(self) -> Optional[str]:
        """The name of what it holds, if that is the entry of a map or is named like one."""
        has_one = self.label in ("map", "entries")
        return self.name[0].upper() + self.name[1:] + "Entry" if has_one else None


@dataclass
class Message:
    """A message, with the extensions of it, the ranges that it reserves and those that it leaves to
    extensions."""

    file: str
    fields: list[Field]
    extensions: list[Field] = field(default_factory=list)
    reserved: list[Range] = field(default_factory=list)
    left: list[Range] = field(default_factory=list)

    def all_fields(self) -> list[Field]:
        """The fields and the extensions."""
        return [*self.fields, *self.extensions]


@dataclass
class Enum:
    """An enum: its values by their names, in their order."""

    file: str
    values: list[tuple[str, int]]

    def numbers(self) -> list[int]:
        """The numbers of its values."""
        return [number for _, number in self.values]


@dataclass
class Version:
    """A version: the syntaxes of its files, its messages and its enums."""

    syntaxes: dict[str, str]
    messages: dict[str, Message]
    enums: dict[str, Enum]

    def is_proto3(self, file: str) -> bool:
        """Whether a file is one of proto3."""
        return self.syntaxes[file] == "proto3"

    def is_open(self, enum: str) -> bool:
        """Whether an enum is open: its own file is one of proto3."""
        return self.is_proto3(self.enums[enum].file)

    def file_of(self, name: str) -> str:
        """The file of a message or of the message around an entry."""
        return self.messages[name.split(".")[0]].file

    def held(self, name: str, one: Field) -> Optional[str]:
        """The message that a field of a message holds: an entry is named by what is around it."""
        entry = one.entry()
        if entry is not None:
            return f"{name}.{entry}"
        return one.kind if one.kind in self.messages else None

    def shapes(self) -> dict[str, list[Field]]:
        """The fields and the extensions of each message, and the two fields of each entry."""
        found: dict[str, list[Field]] = {}
        for name, message in self.messages.items():
            found[name] = message.all_fields()
            for one in message.all_fields():
                if one.entry() is not None:
                    found[f"{name}.{one.entry()}"] = self.entry_fields(name, one)
        return found

    def entry_fields(self, name: str, one: Field) -> list[Field]:
        """The two fields of the entries that a field of a message holds."""
        label = "plain" if self.is_proto3(self.file_of(name)) else "optional"
        return [Field("key", 1, one.key, label), Field("value", 2, one.kind, label)]


def without(ranges: list[Range], number: int) -> list[Range]:
    """Ranges without a number: one that has it is split."""
    found: list[Range] = []
    for start, end in ranges:
        parts = [(start, number), (number + 1, end)] if start <= number < end else [(start, end)]
        found += [(first, last) for first, last in parts if first < last]
    return found


def is_in(ranges: list[Range], number: int) -> bool:
    """Whether a number is in one of some ranges."""
    return any(start <= number < end for start, end in ranges)


def mend_enum(version: Version, enum: Enum) -> None:
    """Lets the first number of an enum of proto3 be 0."""
    if version.is_proto3(enum.file):
        zeros = [value for value in enum.values if value[1] == 0]
        others = [value for value in enum.values if value[1] != 0]
        enum.values = (zeros or [(f"{others[0][0][0]}_ZERO", 0)]) + others


def may_hold(version: Version, file: str, one: Field) -> bool:
    """Whether a field that stands in a file may have its kind."""
    if one.kind in SCALARS:
        return True
    enum = version.enums.get(one.kind)
    if enum is None:
        return one.kind in version.messages and (
            file == TOP or version.messages[one.kind].file == LOW
        )
    if one.label == "map" and enum.values[0][1] != 0:
        return False
    is_seen = file == TOP or enum.file == LOW
    return is_seen and (version.is_open(one.kind) or not version.is_proto3(file))


def mend_field(version: Version, file: str, one: Field) -> None:
    """Lets a field of a file have the kind, the label and the default that protobuf accepts."""
    if not may_hold(version, file, one):
        one.kind = "int32"
    is_proto3 = version.is_proto3(file)
    if one.label == "required" and is_proto3 or one.label == "plain" and not is_proto3:
        one.label = "optional"
    if one.label not in ("optional", "plain"):
        one.oneof = None
    elif one.oneof is not None:
        one.label = "optional"
    is_message = one.kind in version.messages
    one.group = one.group and is_message and not is_proto3 and one.entry() is None
    if one.default is not None and (is_proto3 or one.label not in ("optional", "required")):
        one.default = None
    if one.default not in defaults_of(version, one):
        one.default = None
    if one.label != "repeated" or is_message or one.kind in TEXTS:
        one.packed = None


def defaults_of(version: Version, one: Field) -> list[str]:
    """The texts of defaults that a field may have."""
    if one.kind in version.enums:
        return [name for name, _ in version.enums[one.kind].values]
    return DEFAULTS.get(one.kind, [])


def mend_ranges(version: Version, message: Message) -> None:
    """Lets extensions stand in messages of proto2 alone, each in a range that is left to it, and
    ranges beside one another and beside the fields."""
    if version.is_proto3(message.file):
        message.left, message.extensions = [], []
    for one in message.fields:
        message.reserved = without(message.reserved, one.number)
        message.left = without(message.left, one.number)
    message.extensions = [one for one in message.extensions if is_in(message.left, one.number)]
    for one in message.extensions:
        message.reserved = without(message.reserved, one.number)
    for start, end in message.reserved:
        for number in range(start, end):
            message.left = without(message.left, number)


def mend_required(version: Version, message: Message) -> None:
    """Lets no extension be required, nor a field whose message holds messages, so that a message
    with all that is required can be written."""
    for one in message.all_fields():
        held = version.messages.get(one.kind)
        is_deep = held is not None and any(it.kind in version.messages for it in held.all_fields())
        is_extension = any(one is other for other in message.extensions)
        if one.label == "required" and (is_extension or is_deep):
            one.label = "optional"


def mended(version: Version) -> Version:
    """The version, in which all stands that protobuf accepts, and as little as that takes is
    changed."""
    for enum in version.enums.values():
        mend_enum(version, enum)
    for message in version.messages.values():
        mend_ranges(version, message)
        for one in message.all_fields():
            mend_field(version, message.file, one)
    for message in version.messages.values():
        mend_required(version, message)
        message.fields.sort(key=lambda one: one.oneof or "")
    return version


class RealFiles:
    """The records of the files of a version. Enums of proto3 may be numbers in them."""

    def __init__(self, version: Version, open_as_numbers: bool) -> None:
        self.version = version
        self.open_as_numbers = open_as_numbers

    def type_of(self, record: Any, one: Field) -> None:
        """Gives the record of a field its type."""
        is_enum = one.kind in self.version.enums
        if is_enum and self.open_as_numbers and self.version.is_open(one.kind):
            record.type = TYPES["int32"]
        elif is_enum:
            record.type, record.type_name = TYPES["enum"], f".m.{one.kind}"
        elif one.kind in self.version.messages:
            record.type = TYPES["group" if one.group else "message"]
            record.type_name = f".m.{one.kind}"
        else:
            record.type = TYPES[one.kind]

    def add_entry(self, around: Any, one: Field) -> None:
        """Gives a message the entry that one of its fields holds."""
        entry = around.nested_type.add(name=one.entry())
        if one.label == "map":
            entry.options.map_entry = True
        for part in self.version.entry_fields(around.name, one):
            self.type_of(entry.field.add(name=part.name, number=part.number, label=1), part)

    def add_field(self, around: Any, record: Any, one: Field) -> None:
        """Fills the record of a field or an extension, whose entry stands in a message."""
        record.name, record.number, record.label = one.name, one.number, LABELS[one.label]
        if one.entry() is not None:
            self.add_entry(around, one)
            record.type, record.type_name = TYPES["message"], f".m.{around.name}.{one.entry()}"
            return
        self.type_of(record, one)
        if one.default is not None and not self.open_as_numbers:
            record.default_value = one.default
        if one.packed is not None:
            record.options.packed = one.packed

    def add_oneofs(self, record: Any, message: Message) -> None:
        """Gives the record of a message its oneofs, those for the presence of one field last."""
        names: list[str] = []
        for one, made in zip(message.fields, record.field):
            if one.oneof is not None:
                names += [] if one.oneof in names else [one.oneof]
                made.oneof_index = names.index(one.oneof)
        is_proto3 = self.version.is_proto3(message.file)
        for one, made in zip(message.fields, record.field):
            if one.oneof is None and one.label == "optional" and is_proto3:
                made.proto3_optional, made.oneof_index = True, len(names)
                names.append(f"_{one.name}")
        for name in names:
            record.oneof_decl.add(name=name)

    def add_message(self, file: Any, name: str) -> None:
        """Gives the record of a file a message, with the extensions of it."""
        message = self.version.messages[name]
        record = file.message_type.add(name=name)
        for one in message.fields:
            self.add_field(record, record.field.add(), one)
        self.add_oneofs(record, message)
        for start, end in message.reserved:
            record.reserved_range.add(start=start, end=end)
        for start, end in message.left:
            record.extension_range.add(start=start, end=end)
        for one in message.extensions:
            self.add_field(record, file.extension.add(extendee=f".m.{name}"), one)

    def add_enum(self, file: Any, name: str) -> None:
        """Gives the record of a file an enum."""
        enum = self.version.enums[name]
        record = file.enum_type.add(name=name)
        if len(set(enum.numbers())) < len(enum.values):
            record.options.allow_alias = True
        for value, number in enum.values:
            record.value.add(name=value, number=number)

    def made(self) -> Any:
        """The set of both files."""
        made = descriptor_pb2.FileDescriptorSet()
        for name in (LOW, TOP):
            file = made.file.add(name=name, package="m", syntax=self.version.syntaxes[name])
            file.dependency.extend([LOW] if name == TOP else [])
            for enum, one in self.version.enums.items():
                if one.file == name:
                    self.add_enum(file, enum)
            for message, it in self.version.messages.items():
                if it.file == name:
                    self.add_message(file, message)
        return made


def real_set(version: Version, open_as_numbers: bool = False) -> Any:
    """The set of the files of a version. Enums of proto3 may be numbers in it."""
    return RealFiles(version, open_as_numbers).made()


def loose_name(name: str) -> str:
    """The name in the loose file of a message or of an entry."""
    return name.replace(".", "_")


def loose_file(version: Version) -> Any:
    """The file of proto2 by which the bytes of a version are read as they are."""
    file = descriptor_pb2.FileDescriptorProto(name="loose.proto", package="m", syntax="proto2")
    for name, fields in version.shapes().items():
        record = file.message_type.add(name=loose_name(name))
        for one in fields:
            label = 3 if one.is_list() else 1
            made = record.field.add(name=f"f{one.number}", number=one.number, label=label)
            loose_type(version, made, name, one)
            if one.packed is not None:
                made.options.packed = one.packed
    return file


def loose_type(version: Version, record: Any, name: str, one: Field) -> None:
    """Gives the record of a field of a message its type in the loose file."""
    held = version.held(name, one)
    if held is not None:
        record.type = TYPES["group" if one.group else "message"]
        record.type_name = f".m.{loose_name(held)}"
    elif one.kind in version.enums:
        record.type = TYPES["int32"]
    else:
        record.type = TYPES["bytes" if one.kind == "string" else one.kind]


def names_of(version: Version) -> Iterator[tuple[str, str, Field]]:
    """The full name of each field and of each extension, with its message."""
    for name, fields in version.shapes().items():
        extensions = version.messages[name].extensions if name in version.messages else []
        for one in fields:
            is_field = all(one is not other for other in extensions)
            yield f"m.{name}.{one.name}" if is_field else f"m.{one.name}", name, one
