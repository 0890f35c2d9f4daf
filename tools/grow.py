#!/usr/bin/env python3
"""Shows how the time of check_descriptors grows where a set is twice as large.

    python3 grow.py CHECK                       each shape of --list, at its own size
    python3 grow.py CHECK against_methods=400   one shape, at another size
    python3 grow.py --most 2.6 CHECK strict     those whose name begins so; a factor above 2.6 fails

CHECK is the program, as `rt run` or tools/unproved.py builds it. A shape is a set, or two versions of
one, that has so many of what its words name. It is run at a size and at twice that size. A row has
the size, the bytes of what is read, the seconds of processor time and the million instructions of
the whole program, as valgrind's callgrind counts them; below it are those of twice the size, and
their factors. Linear growth has the factor 2, the square 4. With --seconds, or without valgrind,
nothing is counted.

Exit status: 0; 1 where a factor is above --most, of the instructions if they are counted; or 2 where
the program gives no verdict. Needed is protobuf's Python package (python3-protobuf on Debian, for
/usr/bin/python3).
"""

from __future__ import annotations

import argparse
import shutil
import subprocess
import sys
import tempfile
from collections.abc import Callable
from pathlib import Path
from typing import NamedTuple, Optional

from google.protobuf.descriptor_pb2 import DescriptorProto, EnumDescriptorProto
from google.protobuf.descriptor_pb2 import FieldDescriptorProto, FileDescriptorProto
from google.protobuf.descriptor_pb2 import FileDescriptorSet, MessageOptions

from library_speed import ToolError, collected
from library_uses import timed

UNKNOWN = bytes((0xF8, 0x3E, 0x01))
"""An option that no version knows: number 1007, the value 1."""

INT32, INT64, ENUM, MESSAGE = (
    FieldDescriptorProto.TYPE_INT32,
    FieldDescriptorProto.TYPE_INT64,
    FieldDescriptorProto.TYPE_ENUM,
    FieldDescriptorProto.TYPE_MESSAGE,
)


class Shape(NamedTuple):
    """Arguments, the size to begin with, and what makes the sets of a size: of one version, or of an
    older and a newer one."""

    arguments: list[str]
    size: int
    made: Callable[[int], list[list[FileDescriptorProto]]]
    words: str


def a_file(name: str = "m.proto", **parts: object) -> FileDescriptorProto:
    return FileDescriptorProto(name=name, **parts)


def message(name: str, kind: int, count: int, type_name: Optional[str] = None) -> DescriptorProto:
    """A message of optional fields of one type, without the numbers that protobuf keeps."""
    result = DescriptorProto(name=name)
    for place in range(1, count + 1):
        number = place if place < 19000 else place + 1000
        result.field.add(
            name=f"f{number}", number=number, label=1, type=kind, type_name=type_name
        )
    return result


def enum(count: int, backward: bool = False) -> EnumDescriptorProto:
    result = EnumDescriptorProto(name="E")
    for number in reversed(range(count)) if backward else range(count):
        result.value.add(name=f"V{number}", number=number)
    return result


def with_options(made: DescriptorProto, count: int) -> DescriptorProto:
    """A message with so many options that no version knows."""
    made.options.CopyFrom(MessageOptions.FromString(UNKNOWN * count))
    return made


def renamed_enum_fields(n: int) -> list[list[FileDescriptorProto]]:
    def version(name: str, backward: bool) -> list[FileDescriptorProto]:
        held = message(name, ENUM, n, ".E")
        holder = message("M", MESSAGE, n, f".{name}")
        return [a_file(message_type=[holder, held], enum_type=[enum(n, backward)])]

    return [version("A", False), version("B", True)]


def enum_fields(n: int) -> list[list[FileDescriptorProto]]:
    holder = message("M", ENUM, n, ".E")
    return [[a_file(message_type=[holder], enum_type=[enum(n, back)])] for back in (False, True)]


def option_fields(n: int, fields: int) -> list[FileDescriptorProto]:
    held = with_options(message("T", INT32, fields), n)
    return [a_file(message_type=[message("M", MESSAGE, n, ".T"), held])]


def option_extensions(n: int) -> list[FileDescriptorProto]:
    held = with_options(DescriptorProto(name="T"), n)
    held.extension_range.add(start=1, end=n + 1)
    result = a_file(message_type=[held])
    for number in range(1, n + 1):
        result.extension.add(name=f"x{number}", number=number, label=1, type=INT32, extendee=".T")
    return [result]


def renamed_fields(n: int) -> list[list[FileDescriptorProto]]:
    return [
        [a_file(message_type=[message("M", MESSAGE, n, f".{name}"), message(name, INT32, n)])]
        for name in ("A", "B")
    ]


def other_kinds(n: int) -> list[list[FileDescriptorProto]]:
    kinds = (INT64, FieldDescriptorProto.TYPE_FIXED64)
    return [[a_file(message_type=[message("M", kind, n)])] for kind in kinds]


def methods(n: int) -> list[list[FileDescriptorProto]]:
    def version(backward: bool) -> list[FileDescriptorProto]:
        result = a_file(message_type=[DescriptorProto(name="M")])
        service = result.service.add(name="S")
        for number in reversed(range(n)) if backward else range(n):
            service.method.add(name=f"Call{number}", input_type=".M", output_type=".M")
        return [result]

    return [version(False), version(True)]


def reserved_names(n: int) -> list[FileDescriptorProto]:
    names = [f"the_reserved_name_{number}" for number in range(n)]
    return [a_file(message_type=[DescriptorProto(name="M", reserved_name=names)])]


def import_chain(n: int) -> list[FileDescriptorProto]:
    first = [a_file("f0.proto")]
    later = [a_file(f"f{k}.proto", dependency=[f"f{k - 1}.proto"]) for k in range(1, n)]
    return first + later


def imports(n: int) -> list[FileDescriptorProto]:
    files = [a_file(f"the_imported_file_{number}.proto") for number in range(n)]
    return [*files, a_file(dependency=[file.name for file in files])]


def ranges(n: int) -> list[FileDescriptorProto]:
    holder = DescriptorProto(name="M")
    for number in range(n):
        holder.reserved_range.add(start=3 * number + 1, end=3 * number + 3)
    holder.reserved_range.add(start=1, end=3)
    return [a_file(message_type=[holder])]


def proto3_values(n: int) -> list[FileDescriptorProto]:
    return [a_file(syntax="proto3", enum_type=[enum(n)])]


AGAINST, STRICT = ["--against"], ["--strict"]
SHAPES = {
    "against_renamed_enum_fields": Shape(
        AGAINST, 40, renamed_enum_fields, "fields that hold a renamed message, and its fields, "
        "each of a closed enum, and the values of that enum, which are turned round",
    ),
    "against_enum_fields": Shape(
        AGAINST, 150, enum_fields, "fields of a closed enum, and its values, turned round"
    ),
    "against_map_options": Shape(
        AGAINST, 600, lambda n: [option_fields(n, 2)] * 2,
        "fields that hold a message of two fields, and the options of that message",
    ),
    "against_renamed_fields": Shape(
        AGAINST, 400, renamed_fields, "fields that hold a renamed message, and its fields"
    ),
    "against_kinds_source": Shape(
        ["--level", "source", *AGAINST], 1000, other_kinds, "fields of which each has another kind"
    ),
    "against_methods": Shape(AGAINST, 1000, methods, "methods of a service, turned round"),
    "strict_reserved_names": Shape(
        STRICT, 1000, lambda n: [reserved_names(n)], "reserved names of a message"
    ),
    "strict_map_options": Shape(
        STRICT, 600, lambda n: [option_fields(n, 0)],
        "fields that hold a message, and the options of that message",
    ),
    "strict_extension_options": Shape(
        STRICT, 600, lambda n: [option_extensions(n)],
        "extensions of a message, and the options of that message",
    ),
    "strict_import_chain": Shape(
        STRICT, 400, lambda n: [import_chain(n)], "files of which each imports the one before"
    ),
    "strict_ranges": Shape(
        STRICT, 1000, lambda n: [ranges(n)], "reserved ranges of a message, two of them the same"
    ),
    "strict_values": Shape(
        STRICT, 1000, lambda n: [proto3_values(n)], "values of an enum of proto3"
    ),
    "strict_imports": Shape(
        STRICT, 1000, lambda n: [imports(n)], "files that one file imports"
    ),
}


class Figures(NamedTuple):
    """What a run takes; without a count the last is none."""

    read: int
    seconds: float
    million: Optional[float]


def command(check: Path, shape: Shape, size: int, room: Path) -> tuple[list[str], int]:
    """The words of a run, whose sets are written to a folder, and the bytes of these."""
    paths = []
    for version, files in enumerate(shape.made(size)):
        path = room / f"{version}.pb"
        path.write_bytes(FileDescriptorSet(file=files).SerializeToString())
        paths.append(path)
    words = [str(check), *shape.arguments, *map(str, paths)]
    return words, sum(path.stat().st_size for path in paths)


def seconds_of(words: list[str]) -> float:
    """The processor time of a run, which must give a verdict."""
    seconds, done = timed(words, stderr=subprocess.PIPE)
    if done.returncode not in (0, 1):
        raise ToolError(f"status {done.returncode}: {done.stderr.strip().splitlines()[-1:]}")
    return seconds


def counted(words: list[str]) -> float:
    """The instructions of a run, in millions."""
    valgrind = ["valgrind", "--tool=callgrind", "--callgrind-out-file=/dev/null"]
    done = subprocess.run([*valgrind, *words], capture_output=True, text=True, errors="replace")
    return collected(done.stderr)


def figures(check: Path, shape: Shape, size: int, counts: bool) -> Figures:
    with tempfile.TemporaryDirectory() as room:
        words, read = command(check, shape, size, Path(room))
        return Figures(read, seconds_of(words), counted(words) if counts else None)


def row(name: str, size: object, read: object, seconds: str, million: str) -> str:
    return f"{name:30}{size:>8}{read:>11}{seconds:>9}{million:>11}"


def shown(name: str, size: int, found: Figures) -> str:
    million = "" if found.million is None else f"{found.million:,.1f}"
    return row(name, f"{size:,}", f"{found.read:,}", f"{found.seconds:.2f}", million)


def factor(first: Optional[float], second: Optional[float]) -> Optional[float]:
    return second / first if first and second else None


def words_of(value: Optional[float]) -> str:
    return "" if value is None else f"x {value:.2f}"


def grows(check: Path, name: str, size: int, counts: bool) -> Optional[float]:
    """Prints what a shape takes, and gives the factor for twice the size."""
    shape = SHAPES[name]
    once = figures(check, shape, size, counts)
    print(shown(name, size, once), flush=True)
    twice = figures(check, shape, 2 * size, counts)
    print(shown("", 2 * size, twice))
    seconds = factor(once.seconds, twice.seconds)
    million = factor(once.million, twice.million)
    read = factor(once.read, twice.read)
    print(row("", "", words_of(read), words_of(seconds), words_of(million)), flush=True)
    return million if counts else seconds


def wanted(words: list[str]) -> dict[str, int]:
    """The shapes that are asked for, each with its size."""
    if not words:
        return {name: shape.size for name, shape in SHAPES.items()}
    result = {}
    for word in words:
        begin, _, size = word.partition("=")
        names = [name for name in SHAPES if name.startswith(begin)]
        if not names or (size and not size.isdecimal()):
            raise ToolError(f"no shape {word}")
        result.update({name: int(size) if size else SHAPES[name].size for name in names})
    return result


def asked() -> argparse.Namespace:
    parser = argparse.ArgumentParser(
        description=__doc__, formatter_class=argparse.RawDescriptionHelpFormatter
    )
    parser.add_argument("--list", action="store_true", help="print the shapes alone")
    parser.add_argument("--most", type=float, help="the highest factor that passes")
    parser.add_argument("--seconds", action="store_true", help="count no instructions")
    parser.add_argument("check", nargs="?", type=Path, metavar="CHECK")
    parser.add_argument("shapes", nargs="*", metavar="SHAPE[=SIZE]")
    return parser.parse_args()


def run(words: argparse.Namespace) -> int:
    counts = not words.seconds and shutil.which("valgrind") is not None
    print(row("shape", "size", "bytes", "seconds", "million"))
    factors = [grows(words.check, name, size, counts) for name, size in wanted(words.shapes).items()]
    above = [it for it in factors if words.most and it is not None and it > words.most]
    return 1 if above else 0


def main() -> int:
    words = asked()
    if words.list:
        for name, shape in SHAPES.items():
            print(f"{name}={shape.size}\n    {shape.words}")
        return 0
    if words.check is None:
        print("grow.py: no program is given; --help says more", file=sys.stderr)
        return 2
    try:
        return run(words)
    except (ToolError, OSError) as fault:
        print(f"grow.py: {fault}", file=sys.stderr)
        return 2


if __name__ == "__main__":
    sys.exit(main())
