"""Random changes of the records of descriptor sets, field by field.

A change sets, clears, doubles, moves or takes away a part of a record that is chosen at random, with
a value that is likely to matter: a number at a bound or in use, a name in use, the name of a type.
"""

from __future__ import annotations

import copy
from collections.abc import Iterator
from random import Random

from google.protobuf import descriptor_pb2
from google.protobuf.descriptor import FieldDescriptor
from google.protobuf.message import Message

NUMBERS = (0, 1, 2, 3, 5, 9, 100, 199, 18999, 19000, 19999, 20000)
BOUNDS = (-1, -5, 536870911, 536870912, 536870913, 2147483647, -2147483648)
NAMES = ("", "x", "X", "a-b", "a.b", "1a", "x_y", "xY", "key", "value", "FEntry", "descriptor.proto")
DEFAULTS = ("", "0", "1", "-1", "07", "x", "true", "1.5", "inf", "nan", "-inf", "2147483648")
SYNTAXES = ("proto2", "proto3", "proto2", "proto3", "proto4")
UNTOUCHED = {
    "uninterpreted_option",
    "source_code_info",
    "java_package",
    "java_outer_classname",
    "go_package",
    "objc_class_prefix",
    "csharp_namespace",
    "swift_prefix",
    "php_class_prefix",
    "php_namespace",
    "php_metadata_namespace",
    "ruby_package",
}
"""Parts of records in which no rule looks."""


class Names:
    """The names in a set that a change can take."""

    def __init__(self, files: descriptor_pb2.FileDescriptorSet) -> None:
        self.files = [file.name for file in files.file]
        self.short: list[str] = list(NAMES)
        self.types: list[str] = []
        for file in files.file:
            scope = f".{file.package}" if file.package else ""
            self.add_types(scope, file.message_type, file.enum_type)

    def add_types(self, scope: str, messages, enums) -> None:
        """Adds the messages and the enums of a scope, and all in them."""
        for enum in enums:
            self.types.append(f"{scope}.{enum.name}")
            self.short.append(enum.name)
            for value in enum.value:
                self.short += [value.name, value.name.swapcase(), f"{enum.name}_{value.name}"]
        for message in messages:
            full = f"{scope}.{message.name}"
            self.types.append(full)
            self.short += [message.name, *(field.name for field in message.field)]
            self.add_types(full, message.nested_type, message.enum_type)


def records(record: Message) -> Iterator[Message]:
    """A record and all in it."""
    yield record
    for part, value in record.ListFields():
        if part.message_type is None or part.name in UNTOUCHED:
            continue
        for inner in value if part.label == FieldDescriptor.LABEL_REPEATED else [value]:
            yield from records(inner)


def value_for(part: FieldDescriptor, random: Random, names: Names) -> object:
    """A value for a part of a record that is no record."""
    if part.enum_type is not None:
        return random.choice(part.enum_type.values).number
    if part.cpp_type == FieldDescriptor.CPPTYPE_BOOL:
        return random.random() < 0.7
    if part.cpp_type == FieldDescriptor.CPPTYPE_STRING:
        if part.name in ("type_name", "extendee", "input_type", "output_type"):
            return random.choice(names.types or [".M"])
        if part.name == "dependency" or part.full_name.endswith("FileDescriptorProto.name"):
            return random.choice(names.files)
        if part.name == "syntax":
            return random.choice(SYNTAXES)
        return random.choice(DEFAULTS if part.name == "default_value" else names.short)
    if part.name in ("oneof_index", "public_dependency", "weak_dependency"):
        return random.choice((0, 0, 1, 2, -1))
    return random.choice(NUMBERS if random.random() < 0.8 else BOUNDS)


def fill(record: Message, random: Random, names: Names) -> None:
    """Sets the name, the number, the label and the type of a new record, where it has them."""
    for part in record.DESCRIPTOR.fields:
        if part.name in ("name", "number", "label", "type", "start", "end"):
            setattr(record, part.name, value_for(part, random, names))


def change_list(items, part: FieldDescriptor, random: Random, names: Names) -> None:
    """Changes a list of a record."""
    act = random.choice(("add", "double", "drop", "swap"))
    if act == "add" or not items:
        if part.message_type is not None:
            fill(items.add(), random, names)
        else:
            items.append(value_for(part, random, names))
        return
    values = list(items)
    position = random.randrange(len(values))
    if act == "double":
        values.append(values[position])
    elif act == "drop":
        del values[position]
    else:
        other = random.randrange(len(values))
        values[position], values[other] = values[other], values[position]
    copies = copy.deepcopy(values)
    del items[:]
    items.extend(copies)


def change_record(record: Message, random: Random, names: Names) -> None:
    """Changes a part of a record."""
    parts = [part for part in record.DESCRIPTOR.fields if part.name not in UNTOUCHED]
    if not parts:
        return
    set_parts = [part for part, _ in record.ListFields() if part.name not in UNTOUCHED]
    part = random.choice(set_parts if set_parts and random.random() < 0.5 else parts)
    if part.label == FieldDescriptor.LABEL_REPEATED:
        change_list(getattr(record, part.name), part, random, names)
    elif part.message_type is not None:
        if not record.HasField(part.name):
            getattr(record, part.name).SetInParent()
        change_record(getattr(record, part.name), random, names)
    elif record.HasField(part.name) and random.random() < 0.15:
        record.ClearField(part.name)
    else:
        setattr(record, part.name, value_for(part, random, names))


def changed(
    files: descriptor_pb2.FileDescriptorSet, random: Random
) -> descriptor_pb2.FileDescriptorSet:
    """A set with one to three random changes."""
    made = descriptor_pb2.FileDescriptorSet()
    made.CopyFrom(files)
    names = Names(made)
    for _ in range(random.choice((1, 1, 1, 2, 3))):
        file = random.choice(made.file)
        change_record(random.choice(list(records(file))), random, names)
    return made
