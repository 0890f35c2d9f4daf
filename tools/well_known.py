#!/usr/bin/env python3
"""Makes the stored runs over protobuf's own files again: the script of the one and the set of the
other, or the reports that they owe; the set of which the trials of refused memory make copies; and
the sets of the stored run of check_descriptors.

    python3 well_known.py script > ../crates/test_rows/data/scripts/protoc/well_known.script
    python3 well_known.py report > ../crates/test_rows/data/scripts/protoc/well_known.report
    python3 well_known.py set > ../crates/example_pool/data/well_known.pb
    python3 well_known.py told > ../crates/example_pool/stdout
    python3 well_known.py parts > ../crates/test_trials/stdin
    python3 well_known.py accepted > ../crates/check_descriptors/data/well_known.pb
    python3 well_known.py refused > ../crates/check_descriptors/data/refused.pb
    python3 well_known.py compare

protoc describes the twelve files of protobuf that every installation has, with their locations.
The script declares them, links them in one batch, and asks. The report is computed here from what
protoc wrote, by going over its records: no linker is run. This is right for these files alone:
they are known to break no rule, and protoc has written each type name as a full name.

The set has the same files as bytes. The report says that it is written as it was read, that
a pool that is stored as a set is loaded as an equal pool, and what the files declare. Before it
is the report on two files that are built by hand, which was written by hand too.

The set with each part of a record filled is what protoc makes of crates/test_trials/data, the
file that imports the others first. It also has options of oneofs and of extension ranges, which
no source can set without options of its own, the syntax, and a field that says that it is optional
in proto3.

The set that is accepted is that of the same files, and the one that is refused is made of the text
beside it.

`compare` says whether the stored files are what is made, with status 1 where one is not. The files
that are stored were made by protoc 3.21.12; with another version its files may differ.

Needed are protoc, its include directory with google/protobuf/compiler/plugin.proto, and protobuf's
Python package: protobuf-compiler, libprotoc-dev and python3-protobuf on Debian. That package
serves the system's own Python, /usr/bin/python3.
"""

from __future__ import annotations

import argparse
import sys
from collections import Counter
from collections.abc import Iterator
from functools import lru_cache
from pathlib import Path
from typing import TYPE_CHECKING

from descriptors_to_script import (
    COUNTED_KINDS,
    Element,
    ScriptWriter,
    ToolError,
    compiled_files,
    descriptor_records,
    script_bytes,
    source_locations,
    write_output,
)

if TYPE_CHECKING:
    from google.protobuf.descriptor_pb2 import FileDescriptorProto

STORED = Path(__file__).resolve().parent.parent / "crates"

STORED_AS = {
    "parts": "test_trials/stdin",
    "accepted": "check_descriptors/data/well_known.pb",
    "refused": "check_descriptors/data/refused.pb",
    "script": "test_rows/data/scripts/protoc/well_known.script",
    "report": "test_rows/data/scripts/protoc/well_known.report",
    "set": "example_pool/data/well_known.pb",
    "told": "example_pool/stdout",
}
"""What can be asked for, and where it is stored."""

FILES = (
    "google/protobuf/any.proto",
    "google/protobuf/api.proto",
    "google/protobuf/compiler/plugin.proto",
    "google/protobuf/descriptor.proto",
    "google/protobuf/duration.proto",
    "google/protobuf/empty.proto",
    "google/protobuf/field_mask.proto",
    "google/protobuf/source_context.proto",
    "google/protobuf/struct.proto",
    "google/protobuf/timestamp.proto",
    "google/protobuf/type.proto",
    "google/protobuf/wrappers.proto",
)

COMMANDS = (
    "link",
    "relink",
    "find google",
    "find google.protobuf",
    "find google.protobuf.compiler",
    "find .google.protobuf.Any",
    "find google.protobuf.FileDescriptorProto.name",
    "find google.protobuf.FieldDescriptorProto.Type",
    "find google.protobuf.FieldDescriptorProto.TYPE_INT32",
    "find google.protobuf.FieldDescriptorProto.Type.TYPE_INT32",
    "find google.protobuf.NULL_VALUE",
    "find google.protobuf.Value.kind",
    "find google.protobuf.Struct.FieldsEntry.value",
    "find google.protobuf.compiler.CodeGeneratorResponse.File.insertion_point",
    "find google.protobuf.Missing",
    "refs google/protobuf/descriptor.proto",
    "refs google/protobuf/compiler/plugin.proto",
    "refs google/protobuf/struct.proto",
    "refs google/protobuf/api.proto",
    "refs google/protobuf/empty.proto",
    "refs missing.proto",
    "walk",
)

BUILT_BY_HAND = (
    "shop.proto: name 'Statuss' is not defined",
    "linked",
    "file shop.proto",
    "message shop.Order",
    "  id = 1: Optional string",
    "  status = 2: Optional enum shop.Status",
    "  parts = 3: Repeated message shop.Order",
    "  number 3: parts",
    "enum shop.Status: shop.NEW",
    "linked",
    "service depot.Depot: depot.Depot.Find",
    "extension depot.keeper",
    "  number: 1, shelfNumber: 1",
    "  message depot.Shelf.Box",
    "  enum depot.Shelf.Size: 2 is depot.Shelf.LARGE, SMALL is 1",
    "  extension depot.Shelf.room",
    "no pool: shop.proto: name 'Statuss' is not defined",
    "no set: Truncated at 1",
)
"""What crates/example_pool tells of the files in its src/shop.rt and src/depot.rt, and of what it does
not load."""

REFERENCES = {
    "field": ("type_name",),
    "extension": ("extendee", "type_name"),
    "method": ("input_type", "output_type"),
}
"""The parts of each kind of element that refer, in the order in which they are told."""

NUMBERED = ("file", "message", "enum", "service", "extension")
"""The kinds that are numbered in the order of the walk. Others have their place in their list."""


class Report:
    """The answers to the commands of the script."""

    def __init__(self, files: list[FileDescriptorProto]) -> None:
        self.files = {file.name: Element.of_file(file) for file in files}
        self.declared: Counter[str] = Counter()
        self.definitions: dict[str, str] = {}
        self.walked: list[str] = []
        for name, file in self.files.items():
            self._enter_packages(name, file)
            self._number("file", name, file)
            self._enter_declarations(name, file)

    def _enter_packages(self, file_name: str, file: Element) -> None:
        """Enters the package of a file, and the packages around it."""
        parts = file.full_name.split(".")
        for length in range(1, len(parts) + 1):
            package = ".".join(parts[:length])
            path = list(file.path_of("package"))
            self.definitions.setdefault(package, f"package {file_name} {path}")

    def _enter_declarations(self, file_name: str, parent: Element, holder: int = 0) -> None:
        """Enters all that a file, a message, an enum or a service declares. The holder is the
        number of what it is declared in, which look-ups answer of what has no number."""
        for element in parent.own_declarations():
            number = self._number(element.kind, element.full_name, element)
            told = number if element.kind in NUMBERED else holder
            path = list(element.path_of("name"))
            self.definitions[element.full_name] = f"{element.kind} {told} {file_name} {path}"
            self._enter_declarations(file_name, element, number)

    def _number(self, kind: str, name: str, element: Element) -> int:
        """Walks over an element, and answers its number."""
        number = self.declared[kind] if kind in NUMBERED else element.path[-1]
        self.declared[kind] += 1
        self.walked.append(f"{kind} {number} {name} {list(element.path)}")
        return number

    def answer(self, command: str) -> Iterator[str]:
        """The lines that answer a command."""
        word, _, name = command.partition(" ")
        if word == "link":
            yield " ".join(["ok", *(str(self.declared[kind[:-1]]) for kind in COUNTED_KINDS)])
        elif word == "relink":
            yield "same"
        elif word == "find":
            yield self.definitions.get(name[1:] if name.startswith(".") else name, "none")
        elif word == "refs":
            yield from self._references(name)
        else:
            yield f"walk {len(self.walked)}"
            yield from self.walked

    def _references(self, name: str) -> Iterator[str]:
        """To what the file of a name refers."""
        if name not in self.files:
            yield "none"
            return
        told = [
            f"{element.full_name} {part} {getattr(element.record, part)}"
            for element in self.files[name].declarations()
            for part in REFERENCES.get(element.kind, ())
            if element.has(part)
        ]
        yield f"refs {len(told)}"
        yield from told


def script_lines(files: list[FileDescriptorProto]) -> Iterator[str]:
    """The script."""
    writer = ScriptWriter()
    for file in files:
        yield from writer.file(file, source_locations(file))
    yield from COMMANDS


def report_lines(files: list[FileDescriptorProto]) -> Iterator[str]:
    """The report that the script owes."""
    report = Report(files)
    for command in COMMANDS:
        yield from report.answer(command)


def set_bytes(files: list[FileDescriptorProto]) -> bytes:
    """The files as the bytes of a descriptor set."""
    return descriptor_records().FileDescriptorSet(file=files).SerializeToString(deterministic=True)


def told_lines(files: list[FileDescriptorProto]) -> Iterator[str]:
    """What is told of the files that are built by hand, and of the set."""
    report = Report(files)
    yield from BUILT_BY_HAND
    yield "written: same"
    yield "loaded: same"
    yield from report.answer("link")
    yield from report.answer("walk")


def refused_set() -> bytes:
    """The set that is written down as protobuf's text format."""
    from google.protobuf import text_format

    text = (STORED / STORED_AS["refused"]).with_suffix(".textproto").read_text()
    files = text_format.Parse(text, descriptor_records().FileDescriptorSet())
    return files.SerializeToString(deterministic=True)


def filled_files() -> list[FileDescriptorProto]:
    """Files in whose records each part is filled."""
    files = compiled_files(["first.proto"], [str(STORED / "test_trials/data")])
    files.sort(key=lambda file: file.name != "first.proto")
    every = files[0].message_type[0]
    files[0].syntax = "proto2"
    every.field[0].proto3_optional = True
    for options in (every.oneof_decl[0].options, every.extension_range[0].options):
        options.uninterpreted_option.add(identifier_value="VALUE").name.add(
            name_part="option", is_extension=False
        )
    return files


@lru_cache(maxsize=None)
def well_known_files(directories: tuple[str, ...]) -> list[FileDescriptorProto]:
    """protobuf's own files, as protoc describes them once."""
    return compiled_files(list(FILES), list(directories))


def made(what: str, directories: tuple[str, ...]) -> bytes:
    """What is asked for by a word."""
    if what == "parts":
        return set_bytes(filled_files())
    if what == "refused":
        return refused_set()
    files = well_known_files(directories)
    if what in ("set", "accepted"):
        return set_bytes(files)
    makers = {"script": script_lines, "report": report_lines, "told": told_lines}
    return script_bytes(makers[what](files))


def compare(directories: tuple[str, ...]) -> bool:
    """Tells of each stored file whether it is what is made, and answers whether all are."""
    same = True
    for what, name in STORED_AS.items():
        is_same = (STORED / name).read_bytes() == made(what, directories)
        print(f"crates/{name}: {'the same' if is_same else 'different'}")
        same = same and is_same
    return same


def main() -> None:
    """Writes what is asked for, or tells what is wrong with status 2."""
    parser = argparse.ArgumentParser(
        description=__doc__, formatter_class=argparse.RawDescriptionHelpFormatter
    )
    parser.add_argument("what", choices=(*STORED_AS, "compare"))
    parser.add_argument(
        "-I",
        action="append",
        default=[],
        dest="directories",
        metavar="DIR",
        help="a directory in which protoc looks for the files (default: its own)",
    )
    asked = parser.parse_args()
    try:
        directories = tuple(asked.directories)
        if asked.what == "compare":
            sys.exit(0 if compare(directories) else 1)
        write_output(made(asked.what, directories))
    except (ToolError, OSError) as fault:
        print(f"{parser.prog}: {fault}", file=sys.stderr)
        sys.exit(2)


if __name__ == "__main__":
    main()
