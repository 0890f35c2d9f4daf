#!/usr/bin/env python3
"""Writes the line script of descriptor sets: their files in order, and then the commands.

    protoc --include_imports --include_source_info --descriptor_set_out=schema.pb schema.proto
    python3 descriptors_to_script.py schema.pb > schema.script
    python3 descriptors_to_script.py schema.pb --command link --command 'find p.M' > schema.script

It is for those who want a script to play with: for a verdict on sets there is the program
check_descriptors. Needed are protoc and protobuf's Python package: protobuf-compiler and
python3-protobuf on Debian. That package serves the system's own Python, /usr/bin/python3.

A file that is equal to the first of its name is written once, as in sets that were concatenated.

Left out, since a script has no words for them: proto3_optional, reserved names, comments, whether
a method streams, an edition, and all options but packed, and allow_alias where it is true. protoc
gives a field with proto3_optional a oneof of its own, and that oneof is carried. What else a script
cannot say is an error: a name that has a space or a line feed or is ~ or '' itself, a default value
with a line feed, and a text that is not UTF-8.

The exit status is 0 where the whole script was written, 1 where something is wrong, and 2 where
the arguments are. Where something is wrong, the standard error says it, and no script is
written.
"""

from __future__ import annotations

import argparse
import os
import subprocess
import sys
import tempfile
import warnings
from collections.abc import Iterable, Iterator
from types import ModuleType
from typing import TYPE_CHECKING, NamedTuple, Union

if TYPE_CHECKING:
    from google.protobuf.descriptor_pb2 import FileDescriptorProto
    from google.protobuf.message import Message

FieldPath = tuple[int, ...]
"""Field numbers of descriptor.proto and positions in lists, from the record of a file on."""

Location = tuple[Iterable[int], Iterable[int]]
"""The path of a part of a file, and the span where that part stands in the source."""

DECLARATION_LISTS = {
    "file": ("message_type", "enum_type", "service", "extension"),
    "message": ("oneof_decl", "field", "nested_type", "enum_type", "extension"),
    "enum": ("value",),
    "service": ("method",),
}
"""The lists of what each kind of element declares, in the order in which the linker walks."""

DECLARED_KINDS = {
    "message_type": "message",
    "nested_type": "message",
    "oneof_decl": "oneof",
    "field": "field",
    "extension": "extension",
    "enum_type": "enum",
    "value": "value",
    "service": "service",
    "method": "method",
}
"""The kind of the elements of each of these lists."""

COUNTED_KINDS = ("files", "messages", "enums", "services", "extensions")
"""What a pool counts, in the order in which the answer of a linked batch tells it."""


class ToolError(Exception):
    """What keeps a tool from its work, in one sentence."""


class Unsayable(ToolError):
    """A part of a record that no statement of a script can say."""


class Element(NamedTuple):
    """A record in a file, with its kind, its full name, the scope in which that stands, and the
    path that leads to it. A range is told of as the message or the enum that it belongs to."""

    record: Message
    kind: str
    full_name: str
    scope: str
    path: FieldPath

    @staticmethod
    def of_file(record: FileDescriptorProto) -> Element:
        """The file itself. What it declares stands in the scope of its package."""
        return Element(record, "file", str(record.package), "", ())

    def has(self, part: str) -> bool:
        """Whether the part is present."""
        return self.record.HasField(part)

    def path_of(self, part: str, *position: int) -> FieldPath:
        """The path of a part of the record, or of what stands in that part at a position."""
        return (*self.path, self.record.DESCRIPTOR.fields_by_name[part].number, *position)

    def inner_scope(self) -> str:
        """The scope of what it declares. A value is named beside its enum."""
        return self.scope if self.kind == "enum" else self.full_name

    def entries(self, part: str) -> Iterator[Element]:
        """The elements of a list."""
        scope = self.inner_scope()
        kind = DECLARED_KINDS.get(part)
        for position, entry in enumerate(getattr(self.record, part)):
            path = self.path_of(part, position)
            if kind is None:
                yield Element(entry, self.kind, self.full_name, self.scope, path)
            else:
                full_name = f"{scope}.{entry.name}" if scope else str(entry.name)
                yield Element(entry, kind, full_name, scope, path)

    def own_declarations(self) -> Iterator[Element]:
        """What it declares itself, in the order in which the linker walks."""
        for part in DECLARATION_LISTS.get(self.kind, ()):
            yield from self.entries(part)

    def declarations(self) -> Iterator[Element]:
        """All that it declares, at every depth, in that order."""
        for element in self.own_declarations():
            yield element
            yield from element.declarations()

    def told(self, part: str) -> str:
        """The element's kind and full name, and the path of a part of it, as words of a message."""
        named = "file" if self.kind == "file" else f"{self.kind} {self.full_name}"
        return f"{named}, {part} at {list(self.path_of(part))}"


def unsayable(element: Element, part: str, value: Union[str, bytes, int]) -> Unsayable:
    """The fault of a part whose value no statement can say."""
    text = repr(value)
    shown = text if len(text) <= 60 else f"{text[:57]}..."
    return Unsayable(f"{element.told(part)}: no statement of a script can say {shown}")


def printable(text: str) -> str:
    """A text without characters that a terminal would obey, line feeds among them. A name may have
    any."""
    return "".join(
        mark if mark.isprintable() else mark.encode("unicode_escape").decode() for mark in text
    )


def is_one_word(value: Union[str, bytes, int]) -> bool:
    """Whether a value can stand as one word that means it, the empty text as `''`. A text that is
    not UTF-8 comes as bytes."""
    if isinstance(value, bytes):
        return False
    text = str(value)
    return text not in ("~", "''") and " " not in text and "\n" not in text


def is_one_line(value: Union[str, bytes]) -> bool:
    """Whether a value can stand as the rest of a line that means it, the empty text as `''`."""
    return not isinstance(value, bytes) and value != "''" and "\n" not in value


def value_word(element: Element, part: str, value: Union[str, bytes, int]) -> str:
    """A value as one word."""
    if not is_one_word(value):
        raise unsayable(element, part, value)
    return str(value) or "''"


def part_word(element: Element, part: str) -> str:
    """A text or a number of an element as one word, which is `~` where it is absent."""
    if not element.has(part):
        return "~"
    return value_word(element, part, getattr(element.record, part))


def constant_word(element: Element, part: str) -> str:
    """A label or a type by its name, as `int32` for TYPE_INT32; `~` where it is absent."""
    if not element.has(part):
        return "~"
    constants = element.record.DESCRIPTOR.fields_by_name[part].enum_type.values_by_number
    return constants[getattr(element.record, part)].name.split("_")[1].lower()


def number_list(values: Iterable[int]) -> str:
    """A list of numbers as one word."""
    return ",".join(map(str, values)) or "''"


class ScriptWriter:
    """Says files as lines of a script.

    Left out are proto3_optional, reserved names, comments, whether a method streams, an edition,
    and all options but `packed`, and `allow_alias` where it is true: no statement says them.
    """

    def file(self, record: FileDescriptorProto, locations: Iterable[Location]) -> Iterator[str]:
        """The lines of a file. Its locations come last, since there are many."""
        file = Element.of_file(record)
        try:
            yield f"file {part_word(file, 'name')}"
            yield from self._head(file)
            yield from self._messages(file, "message_type")
            yield from self._enums(file)
            yield from self._services(file)
            yield from self._extensions(file)
        except Unsayable as fault:
            raise Unsayable(printable(f"{record.name}: {fault}")) from fault
        for path, span in locations:
            yield f"at {number_list(path)} {number_list(span)}"
        yield "end"

    def _head(self, file: Element) -> Iterator[str]:
        """The package, the syntax and the imports of a file."""
        for part in ("package", "syntax"):
            if file.has(part):
                yield f"{part} {part_word(file, part)}"
        for name in file.record.dependency:
            yield f"import {value_word(file, 'dependency', name)}"
        for position in file.record.public_dependency:
            yield f"public {position}"
        for position in file.record.weak_dependency:
            yield f"weak {position}"

    def _messages(self, parent: Element, part: str) -> Iterator[str]:
        """The messages that stand in a file or in a message, with all that stands in them."""
        for message in parent.entries(part):
            yield f"message {part_word(message, 'name')}"
            for oneof in message.entries("oneof_decl"):
                yield f"oneof {part_word(oneof, 'name')}"
            yield from self._fields(message)
            yield from self._ranges(message, "reserved_range", "reserved")
            yield from self._ranges(message, "extension_range", "extensions")
            yield from self._messages(message, "nested_type")
            yield from self._enums(message)
            yield from self._extensions(message)
            yield "end"

    def _fields(self, message: Element) -> Iterator[str]:
        """The fields of a message."""
        for field in message.entries("field"):
            refuse_part(field, "extendee")
            yield f"field {field_words(field)} {part_word(field, 'oneof_index')}"
            yield from self._more_of_field(field)

    def _extensions(self, parent: Element) -> Iterator[str]:
        """The extensions that stand in a file or in a message."""
        for extension in parent.entries("extension"):
            refuse_part(extension, "oneof_index")
            yield f"extend {field_words(extension)} {part_word(extension, 'extendee')}"
            yield from self._more_of_field(extension)

    def _more_of_field(self, field: Element) -> Iterator[str]:
        """What stands behind the line of a field or an extension."""
        if field.has("json_name"):
            yield f"json {part_word(field, 'json_name')}"
        if field.record.options.HasField("packed"):
            yield f"packed {str(field.record.options.packed).lower()}"
        if field.has("default_value"):
            value = field.record.default_value
            if not is_one_line(value):
                raise unsayable(field, "default_value", value)
            yield "default " + (value or "''")

    def _enums(self, parent: Element) -> Iterator[str]:
        """The enums that stand in a file or in a message."""
        for enum in parent.entries("enum_type"):
            yield f"enum {part_word(enum, 'name')}"
            if enum.record.options.allow_alias:
                yield "alias"
            for value in enum.entries("value"):
                yield f"value {part_word(value, 'name')} {part_word(value, 'number')}"
            yield from self._ranges(enum, "reserved_range", "reserved")
            yield "end"

    def _ranges(self, parent: Element, part: str, keyword: str) -> Iterator[str]:
        """The ranges of numbers of a message or an enum."""
        for entry in parent.entries(part):
            yield f"{keyword} {part_word(entry, 'start')} {part_word(entry, 'end')}"

    def _services(self, file: Element) -> Iterator[str]:
        """The services of a file, with their methods."""
        for service in file.entries("service"):
            yield f"service {part_word(service, 'name')}"
            for method in service.entries("method"):
                words = (part_word(method, part) for part in ("name", "input_type", "output_type"))
                yield f"method {' '.join(words)}"
            yield "end"


def field_words(field: Element) -> str:
    """The words that the line of a field and that of an extension have in common."""
    kind = f"{constant_word(field, 'label')} {constant_word(field, 'type')}"
    name = f"{part_word(field, 'name')} {part_word(field, 'number')}"
    return f"{name} {kind} {part_word(field, 'type_name')}"


def refuse_part(field: Element, part: str) -> None:
    """Raises where a field or an extension has a part for which its line has no word."""
    if field.has(part):
        raise unsayable(field, part, getattr(field.record, part))


def descriptor_records() -> ModuleType:
    """protobuf's module of records, or an error that says how to get it."""
    try:
        from google.protobuf import descriptor_pb2
    except ImportError as fault:
        raise ToolError(
            "protobuf's Python package is missing:"
            " apt install python3-protobuf, and run this tool by /usr/bin/python3"
        ) from fault
    return descriptor_pb2


def parsed_files(name: str, data: bytes) -> list[FileDescriptorProto]:
    """The files of a serialized FileDescriptorSet. The name is that of an error."""
    records = descriptor_records()
    from google.protobuf.message import DecodeError

    if not data:
        raise ToolError(f"{name} is empty, so it is no descriptor set")
    with warnings.catch_warnings(record=True) as told:
        warnings.simplefilter("always")
        try:
            files = list(records.FileDescriptorSet.FromString(data).file)
        except (DecodeError, UnicodeError):
            files = []
    # bytes that end too early are only warned of by some versions of the package
    if not files or any(issubclass(warning.category, RuntimeWarning) for warning in told):
        raise ToolError(
            f"{name} is no descriptor set with files in it,"
            " as protoc --descriptor_set_out=FILE writes one"
        )
    return files


def read_files(name: str) -> list[FileDescriptorProto]:
    """The files of the descriptor set in a file; - is the standard input."""
    descriptor_records()
    try:
        with open(0 if name == "-" else name, "rb", closefd=name != "-") as source:
            data = source.read()
    except OSError as fault:
        raise ToolError(f"{name} cannot be read: {fault.strerror}") from fault
    return parsed_files("the standard input" if name == "-" else name, data)


def compiled_files(sources: list[str], directories: list[str]) -> list[FileDescriptorProto]:
    """The records that protoc makes of sources, and of all that they import."""
    with tempfile.TemporaryDirectory() as directory:
        made = os.path.join(directory, "schema.pb")
        command = ["protoc", "--include_imports", "--include_source_info"]
        command += [f"--descriptor_set_out={made}", *(f"-I{path}" for path in directories)]
        try:
            done = subprocess.run(
                [*command, *map(source_argument, sources)], capture_output=True, check=False
            )
        except OSError as fault:
            raise ToolError(
                f"protoc cannot be run, which .proto files need: {fault.strerror}"
                " (apt install protobuf-compiler)"
            ) from fault
        told = done.stderr.decode("utf-8", "replace").rstrip("\n")
        if done.returncode != 0:
            raise ToolError(f"protoc failed with status {done.returncode}:\n{told}")
        if told:
            tell_error(told)
        return read_files(made)


def source_argument(source: str) -> str:
    """The name of a source as an argument of protoc, which reads options, and so programs to run,
    from a file whose name stands behind `@`."""
    return f"./{source}" if source.startswith(("@", "-")) else source


def tell_error(text: str) -> None:
    """Writes a line to the standard error. What can't be told there changes no exit status."""
    try:
        print(text, file=sys.stderr, flush=True)
    except OSError:
        os.dup2(os.open(os.devnull, os.O_WRONLY), 2)


def distinct_files(files: Iterable[FileDescriptorProto]) -> list[FileDescriptorProto]:
    """The files without those that are equal to the first of their name."""
    kept: list[FileDescriptorProto] = []
    first: dict[str, FileDescriptorProto] = {}
    for file in files:
        if file.name not in first or first[file.name] != file:
            kept.append(file)
            first.setdefault(file.name, file)
    return kept


def source_locations(file: FileDescriptorProto) -> Iterator[Location]:
    """The locations that a file tells."""
    for location in file.source_code_info.location:
        yield location.path, location.span


def script_bytes(lines: Iterable[str]) -> bytes:
    """Lines as the bytes of a script, each with a line feed."""
    try:
        return "".join(f"{line}\n" for line in lines).encode()
    except UnicodeEncodeError as fault:
        odd = fault.object[fault.start : fault.end]
        raise ToolError(f"a script is UTF-8 throughout, and cannot have {odd!r}") from fault


def write_output(data: bytes) -> None:
    """Writes to the standard output, to the last byte or with an error."""
    try:
        with open(1, "wb", closefd=False) as output:
            output.write(data)
    except OSError as fault:
        raise ToolError(f"the standard output cannot be written: {fault.strerror}") from fault


def argument_parser() -> argparse.ArgumentParser:
    """The arguments."""
    parser = argparse.ArgumentParser(
        description=__doc__,
        formatter_class=argparse.RawDescriptionHelpFormatter,
        allow_abbrev=False,
    )
    parser.add_argument(
        "sets",
        nargs="*",
        default=["-"],
        metavar="FILE",
        help="a serialized FileDescriptorSet; - is the standard input (default: -)",
    )
    parser.add_argument(
        "--command",
        action="append",
        dest="commands",
        metavar="COMMAND",
        help="a command after the files, as link or 'find p.M'; may be repeated (default: link)",
    )
    return parser


def warn_of_lost_positions(program: str, files: list[FileDescriptorProto]) -> None:
    """Tells how many files do not say where their parts stand."""
    lost = sum(not file.source_code_info.location for file in files)
    if lost:
        tell_error(
            f"{program}: warning: {lost} of {len(files)} files have no source info, so their faults"
            " will show no line and no column: protoc --include_source_info gives it"
        )


def script_lines(files: Iterable[FileDescriptorProto], commands: list[str]) -> Iterator[str]:
    """The lines of files, and then the commands."""
    writer = ScriptWriter()
    for file in files:
        yield from writer.file(file, source_locations(file))
    yield from commands


def main() -> None:
    """Writes the script once the whole of it is made, or tells what is wrong with status 1."""
    parser = argument_parser()
    asked = parser.parse_intermixed_args()
    try:
        files = distinct_files(file for name in asked.sets for file in read_files(name))
        script = script_bytes(script_lines(files, asked.commands or ["link"]))
        warn_of_lost_positions(parser.prog, files)
        write_output(script)
    except ToolError as fault:
        sys.exit(f"{parser.prog}: {fault}")


if __name__ == "__main__":
    main()
