#!/usr/bin/env python3
"""Prints what protobuf's own pool has of schemas, in the form of `describe` of the crate
pool_descriptions.

    python3 describe_set.py text SOURCE..
    python3 describe_set.py write
    python3 describe_set.py compare

`text` writes the text of sources and of all that they import, after a line with the counts, as a
row has it. Each fact is asked of the linked descriptors of protobuf's Python package; asked of the
records are paths, the JSON names and the texts of fractions that were given, and whether a list is
packed, for which that package has no word. It hands out streams and reserved names as records.

Each file NAME.proto of crates/test_rows/data/items/protoc/ is a row; imported/ there has what they
import of one another. `write` writes the NAME.script and the NAME.text of each, and `compare` says
whether the stored ones are what is made, with status 1 where one is not. A script does not say
which field is a map, what is deprecated, which names are reserved, and what a method streams: the
text of a row leaves these out. They were made by protoc 3.21.12; with another version the files of
protobuf may differ.

Needed are protoc, its include directory with google/protobuf/compiler/plugin.proto, and protobuf's
Python package: protobuf-compiler, libprotoc-dev and python3-protobuf on Debian. That package
serves the system's own Python, /usr/bin/python3.
"""

from __future__ import annotations

import argparse
import json
import sys
import warnings
from collections import Counter
from collections.abc import Iterator
from pathlib import Path
from typing import TYPE_CHECKING

from descriptors_to_script import (
    COUNTED_KINDS,
    Element,
    ScriptWriter,
    ToolError,
    compiled_files,
    descriptor_records,
    script_bytes,
    write_output,
)
from hidden_characters import plain

if TYPE_CHECKING:
    from google.protobuf.descriptor import (
        Descriptor,
        DescriptorBase,
        EnumDescriptor,
        FieldDescriptor,
        FileDescriptor,
    )
    from google.protobuf.descriptor_pb2 import (
        DescriptorProto,
        EnumDescriptorProto,
        FieldDescriptorProto,
        FileDescriptorProto,
    )

ROWS = Path(__file__).resolve().parent.parent / "crates" / "test_rows" / "data" / "items" / "protoc"

LABELS = {1: "optional", 2: "required", 3: "repeated"}

REPEATED = 3

UNPACKABLE = ("string", "group", "message", "bytes")


def alone(name: str) -> str:
    """A name as a word."""
    return name or "''"


def json_string(text: str) -> str:
    """A text as a string of JSON, in which the two separators of lines are escaped too."""
    told = json.dumps(text, ensure_ascii=False)
    return told.replace("\u2028", "\\u2028").replace("\u2029", "\\u2029")


def type_word(field: FieldDescriptor) -> str:
    """The type of a field, as a .proto file has it, or `message`, `group` or `enum`."""
    name: str = descriptor_records().FieldDescriptorProto.Type.Name(field.type)
    return name[len("TYPE_") :].lower()


def kind_words(field: FieldDescriptor) -> str:
    """How often a field stands in a message, its type, and what it names."""
    named = field.message_type or field.enum_type
    words = [LABELS[field.label], type_word(field)]
    return " ".join(words + ([alone(named.full_name)] if named else []))


def is_packed(field: FieldDescriptor, record: FieldDescriptorProto) -> bool:
    """Whether the values of a field are encoded as one run of bytes."""
    if field.label != REPEATED or type_word(field) in UNPACKABLE:
        return False
    if record.options.HasField("packed"):
        return bool(record.options.packed)
    return bool(field.file.syntax == "proto3")


def default_words(field: FieldDescriptor, record: FieldDescriptorProto) -> str:
    """The default value of a field, where one was given."""
    if not record.HasField("default_value"):
        return ""
    value = field.default_value
    if isinstance(value, bool):
        told = str(value).lower()
    elif isinstance(value, str):
        told = json_string(value)
    elif isinstance(value, bytes):
        told = str(list(value))
    elif isinstance(value, float):
        told = record.default_value
    else:
        told = str(value)
    return f" default {told}"


def is_map(field: FieldDescriptor) -> bool:
    """Whether a field is repeated, and its type the entry of a map."""
    entry = field.message_type
    return field.label == REPEATED and entry is not None and entry.GetOptions().map_entry


def field_line(field: FieldDescriptor, element: Element, is_whole: bool) -> str:
    """A field of a message."""
    words = f"  {kind_words(field)} {field.full_name} = {field.number} {list(element.path)}"
    if field.containing_oneof:
        oneof = f"{field.containing_type.full_name}.{field.containing_oneof.name}"
        words += f" oneof {oneof}"
    words += " packed" * is_packed(field, element.record) + " presence" * field.has_presence
    words += " map" * (is_whole and is_map(field))
    if element.has("json_name"):
        words += f" json_name {alone(field.json_name)}"
    words += default_words(field, element.record)
    return words + " deprecated" * (is_whole and field.GetOptions().deprecated)


class PoolText:
    """What protobuf's own pool has of some files, of which each stands behind all that it
    imports. What is not whole leaves out what no script says."""

    def __init__(self, files: list[FileDescriptorProto], is_whole: bool) -> None:
        from google.protobuf import descriptor_pool

        self.files = files
        self.is_whole = is_whole
        self.pool = descriptor_pool.DescriptorPool()
        with warnings.catch_warnings():
            warnings.simplefilter("ignore")
            for file in files:
                self.pool.Add(file)
        self.declared = [
            (file.name, element)
            for file in files
            for element in Element.of_file(file).declarations()
        ]

    def of_kind(self, kind: str) -> Iterator[tuple[str, Element]]:
        """The elements of a kind, each with the name of its file."""
        for file_name, element in self.declared:
            if element.kind == kind:
                yield file_name, element

    def counts_line(self) -> str:
        """How many the pool has of each kind that is counted."""
        counts = Counter(element.kind for _, element in self.declared)
        counts["file"] = len(self.files)
        return " ".join(["ok", *(str(counts[kind[:-1]]) for kind in COUNTED_KINDS)])

    def lines(self) -> Iterator[str]:
        """All that the pool has."""
        for file in self.files:
            yield from self._file(self.pool.FindFileByName(file.name))
        for file_name, element in self.of_kind("message"):
            yield from self._message(file_name, element)
        for file_name, element in self.of_kind("enum"):
            yield from self._enum(file_name, element)
        for file_name, element in self.of_kind("service"):
            yield from self._service(file_name, element)
        for file_name, element in self.of_kind("extension"):
            yield from self._extension(file_name, element)

    def _file(self, file: FileDescriptor) -> Iterator[str]:
        """A file, what it imports and what it sees: itself, what it imports, and what is imported
        publicly by what it sees."""
        yield f"file {file.name} {file.syntax}"
        yield from self._deprecated(file)
        if file.package:
            yield f"  package {file.package}"
        for imported in file.dependencies:
            yield f"  import {imported.name}"
        seen = {file.name}
        left = list(file.dependencies)
        while left:
            imported = left.pop()
            if imported.name not in seen:
                seen.add(imported.name)
                left += imported.public_dependencies
        for other in self.files:
            if other.name in seen:
                yield f"  sees {other.name}"

    def _message(self, file_name: str, element: Element) -> Iterator[str]:
        """A message, its oneofs, its fields, and what extends it."""
        message = self.pool.FindMessageTypeByName(element.full_name)
        yield head(file_name, element)
        yield from parent(message.containing_type)
        yield from self._deprecated(message)
        for oneof, part in zip(message.oneofs, element.entries("oneof_decl")):
            fields = "".join(f" {field.full_name}" for field in oneof.fields)
            yield f"  oneof {part.full_name} {list(part.path)}{fields}"
        for field, part in zip(message.fields, element.entries("field")):
            yield field_line(field, part, self.is_whole)
        for _, extension in self.of_kind("extension"):
            linked = self.pool.FindExtensionByName(extension.full_name)
            if linked.containing_type is message:
                yield f"  extended {linked.full_name} = {linked.number}"
        yield from self._reserved(message, descriptor_records().DescriptorProto())

    def _enum(self, file_name: str, element: Element) -> Iterator[str]:
        """An enum and its values."""
        enum = self.pool.FindEnumTypeByName(element.full_name)
        yield head(file_name, element)
        yield from parent(enum.containing_type)
        yield from self._deprecated(enum)
        if enum.GetOptions().allow_alias:
            yield "  allow_alias"
        for value, part in zip(enum.values, element.entries("value")):
            told = f"  value {part.full_name} = {value.number} {list(part.path)}"
            yield told + self._deprecated_word(value)
        yield from self._reserved(enum, descriptor_records().EnumDescriptorProto())

    def _service(self, file_name: str, element: Element) -> Iterator[str]:
        """A service and its methods."""
        service = self.pool.FindServiceByName(element.full_name)
        record = descriptor_records().ServiceDescriptorProto()
        service.CopyToProto(record)
        yield head(file_name, element)
        yield from self._deprecated(service)
        parts = zip(service.methods, element.entries("method"), record.method)
        for method, part, told in parts:
            taken = "stream " * (self.is_whole and told.client_streaming)
            given = "stream " * (self.is_whole and told.server_streaming)
            types = f"({taken}{method.input_type.full_name}) returns "
            types += f"({given}{method.output_type.full_name})"
            words = f"  rpc {method.full_name} {types} {list(part.path)}"
            yield words + self._deprecated_word(method)

    def _extension(self, file_name: str, element: Element) -> Iterator[str]:
        """An extension: what it extends, and what it is as a field."""
        extension = self.pool.FindExtensionByName(element.full_name)
        yield head(file_name, element)
        yield from parent(extension.extension_scope)
        words = f"  extends {extension.containing_type.full_name} = {extension.number}"
        words += f" {kind_words(extension)}" + " packed" * is_packed(extension, element.record)
        words += f" json_name [{extension.full_name}]"
        words += default_words(extension, element.record)
        yield words + self._deprecated_word(extension)

    def _is_deprecated(self, linked: DescriptorBase) -> bool:
        """Whether the options of a linked descriptor say so, where that is told."""
        return self.is_whole and bool(linked.GetOptions().deprecated)

    def _deprecated_word(self, linked: DescriptorBase) -> str:
        """That a part is deprecated, behind what is told of it."""
        return " deprecated" * self._is_deprecated(linked)

    def _deprecated(self, linked: DescriptorBase) -> Iterator[str]:
        """That an item is deprecated."""
        if self._is_deprecated(linked):
            yield "  deprecated"

    def _reserved(
        self,
        linked: Descriptor | EnumDescriptor,
        record: DescriptorProto | EnumDescriptorProto,
    ) -> Iterator[str]:
        """The names that a message or an enum reserves, of which it makes a record."""
        linked.CopyToProto(record)
        for name in record.reserved_name if self.is_whole else ():
            yield f"  reserved_name {alone(name)}"


def head(file_name: str, element: Element) -> str:
    """The first line of an item."""
    return f"{element.kind} {element.full_name} {file_name} {list(element.path)}"


def parent(message: Descriptor) -> Iterator[str]:
    """The message around an item, where it is nested."""
    if message:
        yield f"  in {message.full_name}"


def script_lines(files: list[FileDescriptorProto]) -> Iterator[str]:
    """The script of a row."""
    writer = ScriptWriter()
    for file in files:
        yield from writer.file(file, ())
    yield "link"


def text_bytes(files: list[FileDescriptorProto], is_whole: bool) -> bytes:
    """The text of a row, or of sources: what the pool counts, and what it has."""
    text = PoolText(files, is_whole)
    return script_bytes([text.counts_line(), *map(plain, text.lines())])


def made() -> Iterator[tuple[Path, bytes]]:
    """The files of all rows, each with what is made."""
    for source in sorted(ROWS.glob("*.proto")):
        files = compiled_files([str(source)], [str(ROWS), str(ROWS / "imported")])
        yield source.with_suffix(".script"), script_bytes(script_lines(files))
        yield source.with_suffix(".text"), text_bytes(files, is_whole=False)


def compare() -> bool:
    """Tells of each stored file that is not what is made, and answers whether all are."""
    same = True
    for path, data in made():
        if not path.exists() or path.read_bytes() != data:
            print(f"{path.name}: different")
            same = False
    return same


def main() -> None:
    """Does what is asked for, or tells what is wrong with status 2."""
    parser = argparse.ArgumentParser(
        description=__doc__, formatter_class=argparse.RawDescriptionHelpFormatter
    )
    asked = parser.add_subparsers(dest="what", required=True)
    asked.add_parser("write", help="write the files of all rows")
    asked.add_parser("compare", help="print which stored files are not what is made")
    text = asked.add_parser("text", help="write the text of sources")
    text.add_argument("sources", nargs="+", metavar="SOURCE")
    text.add_argument("-I", action="append", default=[], dest="directories", metavar="DIR")
    arguments = parser.parse_args()
    try:
        if arguments.what == "text":
            files = compiled_files(arguments.sources, arguments.directories)
            write_output(text_bytes(files, is_whole=True))
        elif arguments.what == "write":
            for path, data in made():
                path.write_bytes(data)
        else:
            sys.exit(0 if compare() else 1)
    except (ToolError, OSError) as fault:
        print(f"{parser.prog}: {fault}", file=sys.stderr)
        sys.exit(2)


if __name__ == "__main__":
    main()
