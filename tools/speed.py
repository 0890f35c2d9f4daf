#!/usr/bin/env python3
"""Counts what linking takes on the batches of docs/SPEED.md, and prints the table of them.

    python3 speed.py ../crates/protolink/out/protolink
    python3 speed.py --sets ../crates/example_pool/out/example_pool
    python3 speed.py --library ../dist/lib/libprotolink.a
    python3 speed.py --only '4,000 files' ../crates/protolink/out/protolink
    python3 speed.py --short --library ../dist/lib/libprotolink.a ../crates/protolink/out/protolink
    python3 speed.py --script '4,000 files' > files.script

For each script: the instructions of `build_files` and of the whole program, in millions, as
valgrind's callgrind counts them; and the requests for memory and the peak of the heap in kB, of the
whole program, as its dhat counts them. Of sets as bytes: the instructions of what reads them and
of what writes them, in the example of sets; and of the calls of the library for C that link a set,
write it, compare it with itself, and free it (library_speed.py has its peers). Instructions repeat
themselves, whatever else a machine does. On the standard error each row is beside the figures
that docs/SPEED.md has, which are of the last tree.

With --short the instructions of `build_files` alone are counted, and of `add_set`, of six rows in
all, which takes two minutes. The gate runs that.

The last line counts the rows of which no figure, and those of which one, is more than 2 % above
that page: `N passed, M failed`. Exit status: 0, 1 where a row failed, or 2 where something could
not be counted, as a script with a fault, or the page has no such row.

Needed are valgrind, and the program, which `rt run` or the gate builds.
"""

from __future__ import annotations

import argparse
import json
import random
import re
import subprocess
import sys
import tempfile
from collections.abc import Callable
from pathlib import Path
from typing import Optional

import library_speed
from library_speed import ToolError, collected

TOP = Path(__file__).resolve().parent.parent
TWELVE_FILES = TOP / "crates/test_rows/data/scripts/protoc/well_known.script"
SET = TOP / "crates/example_pool/data/well_known.pb"
PAGE = TOP / "docs/SPEED.md"
MORE = 1.02
"""How many times what the page tells is seen as dearer."""
LINKED = "*DescriptorPool::build_files*"
SET_CALLS = {"three times `decode`": "*decoding::decode", "twice `encode`": "*encoding::encode"}


FIGURES = ("million", "million of the whole", "requests", "kB")
"""What the figures of a row are, behind its two names."""

CALLS = tuple(f"million of {call}" for call in library_speed.CALLS)
"""What they are of a set that the library links."""

SHORT = (
    "protobuf's twelve files, linked",
    "400 files of messages, an enum and a service, each with two imports",
    "16,000 fields of one message, each of its type",
    "20,000 extensions of one message, with rising numbers",
)
"""The scripts that the gate counts."""

SHORT_SETS = (
    "the same, with their places in the source",
    "2,000 files of a service, each with 4 messages, 32 fields, an enum and an import",
)
"""The sets that the gate counts."""


def figures(row: str) -> tuple[tuple[str, ...], list[Optional[float]]]:
    """What a row of the table is of, and its figures; none where a cell has no number."""
    cells = [cell.strip() for cell in row.strip().strip("|").split("|")]
    numbers = [cell.replace(",", "") for cell in cells[2:]]
    is_number = [re.fullmatch(r"[\d.]+", number) for number in numbers]
    return tuple(cells[:2]), [float(it) if found else None for it, found in zip(numbers, is_number)]


class Table:
    """The table, row by row, beside that of the page."""

    def __init__(self, page: str) -> None:
        self.before = dict(figures(line) for line in page.splitlines() if line.startswith("| "))
        self.passed = self.failed = 0
        self.unknown: list[str] = []

    def tell(self, row: str, what: tuple[str, ...] = FIGURES) -> None:
        """Prints a row, and on the standard error how it compares with that of the page. Where the
        row has fewer figures, these are the first ones."""
        print(row, flush=True)
        names, now = figures(row)
        before = self.before.get(names, [])
        if [old is None for old in before[: len(now)]] != [new is None for new in now]:
            self.unknown.append(names[0])
            print(f"  {PAGE.name} has no such row with these figures", file=sys.stderr)
            return
        is_dearer = [self.compare(*figure) for figure in zip(what, before, now)]
        self.failed += any(is_dearer)
        self.passed += not any(is_dearer)

    @staticmethod
    def compare(what: str, old: Optional[float], new: Optional[float]) -> bool:
        """Tells a figure beside that of the page, and answers whether it is dearer."""
        if old is None or new is None:
            return False
        is_dearer = new > old * MORE
        word = ", dearer" if is_dearer else ""
        print(f"  {old:,.10g} before, {new:,.10g} now, {what}{word}", file=sys.stderr)
        return is_dearer


def field(name: str, number: int, type_: str = "int32", type_name: str = "~") -> str:
    return f"field {name} {number} optional {type_} {type_name} ~\n"


def message(name: str, inner: str = "") -> str:
    return f"message {name}\n{inner}end\n"


def file(name: str, inner: str) -> str:
    return f"file {name}\n{inner}end\n"


def twelve_files() -> str:
    """protobuf's own files, linked, and linked again from what that gave."""
    files = TWELVE_FILES.read_text().split("\nlink\n")[0]
    return f"{files}\nlink\nrelink\n"


def twelve_files_once() -> str:
    """protobuf's own files, linked."""
    return twelve_files().removesuffix("relink\n")


def many_files(count: int) -> str:
    """Files, each with a package, a message and a field that names the message."""
    files = (
        file(f"f{n}.proto", f"package p{n}\n" + message("M", field("f", 1, "message", f".p{n}.M")))
        for n in range(count)
    )
    return "".join(files) + "link\n"


def many_messages(count: int) -> str:
    inner = (message(f"M{n}", field("f", 1, "message", f".p.M{n}")) for n in range(count))
    return file("a.proto", "package p\n" + "".join(inner)) + "link\n"


def reserved_ranges(count: int, is_one_wide: bool) -> str:
    """Fields of one message that reserves as many ranges, one of which may cover all others."""
    ranges = [f"reserved {count + 10 + 3 * n} {count + 11 + 3 * n}\n" for n in range(count)]
    if is_one_wide:
        ranges[0] = f"reserved {count + 10} {count + 20 + 3 * count}\n"
    fields = (field(f"f{n}", n + 1) for n in range(count))
    return file("a.proto", message("M", "".join(ranges) + "".join(fields))) + "link\n"


def fields_of_one_message(count: int) -> str:
    """Fields of one message, each of the message's type."""
    fields = (field(f"f{n}", n + 1, "message", ".p.M") for n in range(count))
    return file("a.proto", "package p\n" + message("M", "".join(fields))) + "link\n"


def importing_files(count: int) -> str:
    """Files that each import one, and have a message of five fields, one of its type."""
    base = file("base.proto", "package base\n" + message("B", field("x", 1)))
    files = (
        file(
            f"w{n}.proto",
            f"package w.p{n % 7}\nimport base.proto\n"
            + message(
                f"W{n}",
                field("b", 1, "message", ".base.B")
                + "".join(field(f"f{k}", k + 2) for k in range(4)),
            ),
        )
        for n in range(count)
    )
    return base + "".join(files) + "link\n"


def umbrella(count: int) -> str:
    """Files, one that imports all of them publicly, and as many that import that one."""
    own = (
        file(f"s{n}.proto", f"package s{n}\n" + message("S", field("x", 1))) for n in range(count)
    )
    imports = "".join(f"import s{n}.proto\npublic {n}\n" for n in range(count))
    users = (
        file(
            f"u{n}.proto",
            f"package u{n}\nimport umbrella.proto\n"
            + message("U", field("s", 1, "message", f".s{n}.S")),
        )
        for n in range(count)
    )
    return "".join(own) + file("umbrella.proto", imports) + "".join(users) + "link\n"


def mixed_file(number: int) -> str:
    """A file of four messages of nine fields, each with one inside, an enum and a service."""
    scope = f"org.mixed.v{number % 20}.p{number}"
    before = f"org.mixed.v{(number - 1) % 20}.p{number - 1}"
    body = f"package {scope}\nsyntax proto{2 + number % 2}\n"
    body += "".join(f"import mixed/f{number - d}.proto\n" for d in (1, 2) if number >= d)
    for m in range(4):
        kinds = ("int32", "string", "bool", "bytes", "int32", "string")
        inner = "".join(field(f"field_{k}_value", k + 1, kind) for k, kind in enumerate(kinds))
        inner += field("self_reference", 7, "message", f".{scope}.Message{m}")
        if number:
            inner += field("other_reference", 8, "message", f".{before}.Message{m}")
        inner += field("kind", 9, "enum", f".{scope}.Kind")
        nested = field("inner_value", 1) + field("outer", 2, "message", f".{scope}.Message{m}")
        inner += message("Nested", nested) + "reserved 100 110\n"
        body += message(f"Message{m}", inner + "extensions 1000 2000\n" * (number % 2 == 0))
    body += "enum Kind\n" + "".join(f"value KIND_{k} {k}\n" for k in range(6)) + "end\n"
    methods = (
        f"method Call{k} .{scope}.Message{k} .{scope}.Message{k + 1}\n" for k in range(3)
    )
    body += f"service Service\n{''.join(methods)}end\n"
    if number % 2 == 0:
        body += f"extend extra 1000 optional string ~ .{scope}.Message0\n"
    return file(f"mixed/f{number}.proto", body)


def mixed_files(count: int) -> str:
    return "".join(mixed_file(number) for number in range(count)) + "link\n"


def one_more(before: int, type_name: str) -> str:
    """One file in a batch of its own, whose field names a type, behind other files."""
    last = file("last.proto", message("L", field("f", 1, "message", type_name)))
    return f"{many_files(before)}{last}link\n"


def missing_types(count: int) -> str:
    """Fields of types that are not defined; each has two locations, of its name and of its type."""
    fields = "".join(field(f"f{n}", n + 1, "message", ".none") for n in range(count))
    places = (
        f"at 4,0,2,{n},1 {n},16,18\nat 4,0,2,{n},6 {n},9,14\n" for n in range(count)
    )
    return file("a.proto", message("M", fields) + "".join(places)) + "link\n"


def extensions(count: int, order: str, messages: int) -> str:
    """Extensions, of one message or of as many, with numbers in an order."""
    numbers = list(range(20000, 20000 + count))
    if order == "falling":
        numbers.reverse()
    if order == "mixed":
        random.Random(1).shuffle(numbers)
    extended = (message(f"M{n}", f"extensions 20000 {20000 + count}\n") for n in range(messages))
    each = (
        f"extend x{n} {number} optional int32 ~ .M{n % messages}\n"
        for n, number in enumerate(numbers)
    )
    return file("a.proto", "".join(extended) + "".join(each)) + "link\n"


def nested_scopes(count: int, type_name: str) -> str:
    """Fields of a message seven scopes deep."""
    inner = message("Near") + "".join(
        field(f"f{n}", n + 1, "message", type_name) for n in range(count)
    )
    for depth in range(6):
        inner = message(f"S{depth}", inner)
    return file("a.proto", f"package p\n{message('Outer')}{inner}") + "link\n"


def relative_names(count: int) -> str:
    """Files of packages of two parts, with two fields of types without a leading dot."""
    files = (
        file(
            f"f{n}.proto",
            f"package p.q{n}\n"
            + message("M", field("a", 1, "message", "M") + field("b", 2, "message", f"q{n}.M")),
        )
        for n in range(count)
    )
    return "".join(files) + "link\n"


def enum_values(count: int) -> str:
    values = "".join(f"value V{n} {n}\n" for n in range(count))
    return file("a.proto", f"enum E\n{values}end\n") + "link\n"


def long_package(parts: int) -> str:
    return file("a.proto", f"package {'.'.join('a' * parts)}\n") + "link\n"


SCRIPTS: dict[str, Callable[[], str]] = {
    "protobuf's twelve files, linked": twelve_files_once,
    "protobuf's twelve files, linked and linked again": twelve_files,
    "400 files of messages, an enum and a service, each with two imports": (
        lambda: mixed_files(400)
    ),
    "2,000 files that each import one": lambda: importing_files(2000),
    "4,000 files, each with a package, a message and a field that names it": (
        lambda: many_files(4000)
    ),
    "4,000 messages of one file, each with a field that names it": lambda: many_messages(4000),
    "16,000 fields of one message, each of its type": lambda: fields_of_one_message(16000),
    "4,000 fields of one message that reserves 4,000 ranges": lambda: reserved_ranges(4000, False),
    "the same, where one of the ranges covers all others": lambda: reserved_ranges(4000, True),
    "2,865 files, each with a package, a message and a field that names it": (
        lambda: many_files(2865)
    ),
    "2,865 files, and one more in a batch of its own": lambda: one_more(2865, ".last.none"),
    "4,000 faults, each with a place among 8,000 locations": lambda: missing_types(4000),
    "5,000 fields seven scopes deep, of a type in the outermost": (
        lambda: nested_scopes(5000, "Outer")
    ),
    "the same, of a type in the innermost but one": lambda: nested_scopes(5000, "Near"),
    "2,000 files of packages of two parts, with types without a leading dot": (
        lambda: relative_names(2000)
    ),
    "800 files that import one, which imports 800 others publicly": lambda: umbrella(800),
    "64,000 values of one enum": lambda: enum_values(64000),
    "a package of 50,000 parts": lambda: long_package(50000),
}
for order in ("rising", "falling", "mixed"):
    SCRIPTS[f"20,000 extensions of one message, with {order} numbers"] = (
        lambda order=order: extensions(20000, order, 1)
    )
SCRIPTS["20,000 extensions of as many messages"] = lambda: extensions(20000, "rising", 20000)


def run(words: list[str], given: Path) -> str:
    """What valgrind says of a run of a program on a file, in the folder of the file."""
    try:
        with given.open("rb") as input_:
            done = subprocess.run(
                words, stdin=input_, capture_output=True, check=False, cwd=given.parent
            )
    except OSError as error:
        raise ToolError(f"{words[0]}: {error.strerror}") from error
    first = done.stdout.split(b"\n")[0].decode(errors="replace")
    if done.returncode != 0 or not first:
        raise ToolError(f"{words[-1]} ended with status {done.returncode}")
    print(first, file=sys.stderr)
    return done.stderr.decode(errors="replace")


def instructions(words: list[str], counted: str, given: Path, folder: Path) -> float:
    """The instructions, in millions, of what is counted in a run of a program."""
    out = folder / "callgrind.out"
    valgrind = ["valgrind", "--tool=callgrind", f"--callgrind-out-file={out}"]
    if counted:
        valgrind.append(f"--toggle-collect={counted}")
    return collected(run([*valgrind, *words], given))


def heap(program: str, script: Path, folder: Path) -> tuple[int, int]:
    """The requests for memory of a whole run, and the peak of the heap in bytes."""
    out = folder / "dhat.out"
    run(["valgrind", "--tool=dhat", f"--dhat-out-file={out}", program], script)
    told = json.loads(out.read_text())
    requests = sum(point["tbk"] for point in told["pps"])
    peak = sum(point["gb"] for point in told["pps"])
    return requests, peak


def main() -> None:
    parser = argparse.ArgumentParser(description=__doc__.split("\n\n")[0])
    parser.add_argument("program", nargs="?", help="the built program protolink")
    parser.add_argument("--sets", metavar="PROGRAM", help="the built program example_pool")
    parser.add_argument("--library", metavar="ARCHIVE", help="the built library for C")
    parser.add_argument("--short", action="store_true", help="the six rows of the gate alone")
    parser.add_argument("--only", metavar="WORDS", help="the rows with these words alone")
    parser.add_argument("--script", metavar="WORDS", help="print the script of a row, and end")
    options = parser.parse_args()
    wanted = options.script or options.only or ""
    names = SHORT if options.short else SCRIPTS
    rows = {name: SCRIPTS[name] for name in names if wanted in name}
    try:
        if not rows:
            raise ToolError(f"no row has the words '{wanted}'")
        if options.script:
            sys.stdout.write(next(iter(rows.values()))())
            return
        if not (options.program or options.sets or options.library):
            raise ToolError("which program? see --help")
        table = Table(PAGE.read_text())
        with tempfile.TemporaryDirectory() as name:
            tell(options, rows, table, Path(name))
        if table.unknown:
            raise ToolError(f"the page lacks {len(table.unknown)} rows: {'; '.join(table.unknown)}")
        print(f"{table.passed} passed, {table.failed} failed")
        sys.exit(1 if table.failed else 0)
    except (ToolError, OSError) as error:
        print(f"speed.py: {error}", file=sys.stderr)
        sys.exit(2)


def tell(
    options: argparse.Namespace,
    rows: dict[str, Callable[[], str]],
    table: Table,
    folder: Path,
) -> None:
    """Prints the tables: of scripts and of sets, and of the library, of what is given."""
    if options.program or options.sets:
        columns = ("million", "of the whole", "requests for memory", "peak in kB")
        print(library_speed.head("batch", "counted", *columns))
    if options.program:
        tell_scripts(options, rows, table, folder)
    if options.sets:
        tell_sets(str(Path(options.sets).resolve()), table, folder)
    if options.library:
        tell_library(Path(options.library).resolve(), table, options.short)


def tell_scripts(
    options: argparse.Namespace,
    rows: dict[str, Callable[[], str]],
    table: Table,
    folder: Path,
) -> None:
    """Each script: its instructions, or where it is not short, all figures."""
    program, script = str(Path(options.program).resolve()), folder / "script"
    for row, make in rows.items():
        script.write_text(make())
        linked = instructions([program], LINKED, script, folder)
        told = f"| {row} | `build_files` | {linked:.2f} |"
        if not options.short:
            whole = instructions([program], "", script, folder)
            requests, peak = heap(program, script, folder)
            told += f" {whole:.2f} | {requests:,} | {peak / 1000:,.0f} |"
        table.tell(told)


def tell_sets(program: str, table: Table, folder: Path) -> None:
    """The example of sets reads a set of protobuf's files three times, and writes it twice."""
    whole = instructions([program], "", SET, folder)
    requests, peak = heap(program, SET, folder)
    for words, counted in SET_CALLS.items():
        count = instructions([program], counted, SET, folder)
        table.tell(
            f"| the example of sets: twelve files with their places, 116 kB | {words} "
            f"| {count:.2f} | {whole:.2f} | {requests:,} | {peak / 1000:,.0f} |"
        )


def tell_library(archive: Path, table: Table, is_short: bool) -> None:
    """Each call over each set, or where it is short, what links two of them."""
    calls, sets = (library_speed.CALLS[:1], SHORT_SETS) if is_short else (library_speed.CALLS, None)
    print(library_speed.own_head(calls))
    for row in library_speed.own_rows(archive, calls, sets):
        table.tell(row, CALLS)


if __name__ == "__main__":
    main()
