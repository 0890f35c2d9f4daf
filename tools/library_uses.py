#!/usr/bin/env python3
"""Measures uses of the library in Python, Rust and C++, and prints the tables of docs/SPEED.md.

    python3 library_uses.py            over dist/, which tools/library has built
    python3 library_uses.py SET...     and services.cc over further sets (googleapis.py makes one)

Look-ups in Python are those of protobuf's descriptor_pool, with the extension of the module and by
ctypes alone, beside protobuf's own package. The uses are the examples registry.py, gateway.rs and
services.cc of bindings/. The files are those of library_speed.py that have services; the registry
judges 200 versions of a schema, each of which is the last right one with one change.

The tables have processor time, of the gateway time by the clock; of each the best of five runs. The
registry has to take the versions that are right, and services.cc has to print what protobuf's
package has of the services: else it is an error.

Needed are cargo, g++ and on Debian python3-protobuf. Exit status: 0, or 2 where something could not
be measured.
"""

from __future__ import annotations

import json
import os
import re
import resource
import shutil
import subprocess
import sys
import tempfile
from collections.abc import Iterator
from pathlib import Path

sys.dont_write_bytecode = True

import needs
from abi import SONAME
from library_speed import ToolError, field, message, must, run_of, service_files

TOP = Path(__file__).resolve().parent.parent
BINDINGS = TOP / "bindings"
DIST = TOP / "dist"
LIB = DIST / "lib"
RUNS = 5
VERSIONS = 200

LOOK_UPS = """\
import json, sys, time
from google.protobuf import descriptor_pb2, descriptor_pool
import protolink

data = open(sys.argv[1], "rb").read()
files = descriptor_pb2.FileDescriptorSet.FromString(data).file
names = [f"{file.package}.{it.name}" for file in files for it in file.message_type]
paths = [file.name for file in files]
records = [file.SerializeToString() for file in files]
ours = protolink.Pool()
ours.add_set(data)

def another():
    made = descriptor_pool.DescriptorPool()
    for record in records:
        made.AddSerializedFile(record)
    return made

theirs = another()

def rate(pool, call, asked):
    find = getattr(pool, call)
    begun = time.process_time()
    for name in asked:
        find(name)
    return len(asked) / (time.process_time() - begun)

def best(make, call, asked):
    return max(rate(make(), call, asked) for _ in range(int(sys.argv[2])))

rate(theirs, "FindMessageTypeByName", names)
rows = (
    ("FindMessageTypeByName", names, True),
    ("FindMessageTypeByName", names, False),
    ("FindFileContainingSymbol", names, False),
    ("FindFileByName", paths, True),
    ("FindFileByName", paths, False),
)
for call, asked, is_new in rows:
    pools = (ours.clone, another) if is_new else (lambda: ours, lambda: theirs)
    print(json.dumps([best(make, call, asked) for make in pools]))
"""
"""Look-ups a second, here and by protobuf."""

ROWS = (
    "`FindMessageTypeByName` of a name that was not asked for before",
    "the same name again, while the pool keeps it (10,000 of them)",
    "`FindFileContainingSymbol`",
    "`FindFileByName` of a name that was not asked for before",
    "the same name again, while the pool keeps it (10,000 of them)",
)

SERVICES = """\
import sys
from google.protobuf import descriptor_pb2

def side(name, streams):
    return f"({'stream ' if streams else ''}{name[1:]})"

for file in descriptor_pb2.FileDescriptorSet.FromString(open(sys.argv[1], "rb").read()).file:
    for service in file.service:
        print(f"service {file.package}.{service.name} {{")
        for it in service.method:
            taken = side(it.input_type, it.client_streaming)
            given = side(it.output_type, it.server_streaming)
            mark = " // deprecated" if it.options.deprecated else ""
            print(f"  rpc {it.name}{taken} returns {given};{mark}")
        print("}")
"""
"""What services.cc has to print."""


def timed(words: list[str], **how: object) -> tuple[float, subprocess.CompletedProcess]:
    """The processor time of a command, in seconds, and what it wrote."""
    before = resource.getrusage(resource.RUSAGE_CHILDREN)
    try:
        said = subprocess.run(words, stdout=subprocess.PIPE, text=True, check=False, **how)
    except OSError as fault:
        raise ToolError(f"{words[0]}: {fault.strerror}") from fault
    after = resource.getrusage(resource.RUSAGE_CHILDREN)
    return after.ru_utime + after.ru_stime - before.ru_utime - before.ru_stime, said


def best_time(words: list[str], wanted: str, **how: object) -> float:
    """The least processor time of some runs of a command, whose writing ends with a text."""
    times = []
    for _ in range(RUNS):
        seconds, said = timed(words, **how)
        if not said.stdout.endswith(wanted):
            raise ToolError(f"{' '.join(words[:3])} .. wrote\n{said.stdout[-1000:]}")
        times.append(seconds)
    return min(times)


def python() -> str:
    name = needs.python()
    if name is None:
        raise ToolError("protobuf's package for Python is missing")
    return name


def environment(library: Path) -> dict[str, str]:
    return {**os.environ, "PROTOLINK_LIB_DIR": str(library), "PYTHONPATH": str(BINDINGS / "python")}


# Python


def look_ups(room: Path, set_: Path) -> None:
    """Prints the table of look-ups in Python."""
    alone = room / "alone"
    alone.mkdir()
    shutil.copy(LIB / SONAME, alone)
    words = [python(), "-B", "-c", LOOK_UPS, str(set_), str(RUNS)]
    best = [[0.0, 0.0, 0.0] for _ in ROWS]
    for run in range(2 * RUNS):
        _, said = timed(words, env=environment((LIB, alone)[run % 2]))
        if said.returncode:
            raise ToolError("look-ups in Python failed")
        for row, (ours, theirs) in zip(best, map(json.loads, said.stdout.splitlines())):
            row[run % 2], row[2] = max(row[run % 2], ours), max(row[2], theirs)
    print("| a second | with the extension | by `ctypes` | protobuf |")
    print("|---|---|---|---|")
    for row, rates in zip(ROWS, best):
        print(f"| {row} | {' | '.join(f'{rate:,.0f}' for rate in rates)} |")


def version(fields: list[tuple[str, int, int, str]]) -> bytes:
    """A version of a schema: a file with a message, which has fields."""
    body = run_of(1, "order.proto") + run_of(2, "shop") + run_of(3, "common.proto")
    body += run_of(4, message("Order", (field(*it) for it in fields)))
    return run_of(1, body)


def versions() -> Iterator[tuple[bytes, bool]]:
    """Versions, each of which is the last right one with one change, and whether it is right. Wrong
    are a type that is not there, a number that is there twice, a field with another type, and one
    that is gone."""
    fields = [("field0", 1, 9, "")]
    for number in range(VERSIONS):
        at = len(fields) + 1
        wrong = (
            [*fields, (f"field{at}", at, 11, ".shop.None")],
            [*fields, (f"field{at}", 1, 9, "")],
            [("field0", 1, 5, ""), *fields[1:]],
            fields[1:],
        )
        if number % 3 == 2:
            yield version(wrong[number // 3 % len(wrong)]), False
            continue
        type_ = (5, "") if number % 2 else (11, ".shop.Page")
        fields.append((f"field{at}", at, *type_))
        yield version(fields), True


def common() -> bytes:
    """The set of the file that all versions import."""
    page = message("Page", iter(()))
    return run_of(1, run_of(1, "common.proto") + run_of(2, "shop") + run_of(4, page))


def registry(room: Path) -> str:
    """The row of the registry."""
    (room / "common.pb").write_bytes(common())
    words = [python(), "-B", str(BINDINGS / "python/examples/registry.py"), str(room / "common.pb")]
    taken = 0
    for number, (data, is_right) in enumerate(versions()):
        (room / f"{number}.pb").write_bytes(data)
        words.append(str(room / f"{number}.pb"))
        taken += is_right
    wanted = f"{taken} taken, {VERSIONS - taken} not taken\n"
    seconds = best_time(words, wanted, env=environment(LIB))
    return f"{VERSIONS} versions, of which {taken} are taken | {seconds:.2f} s"


# Rust and C++


def gateway(room: Path, set_: Path) -> str:
    """The row of the gateway."""
    settings = {**environment(LIB), "CARGO_TARGET_DIR": str(room / "target")}
    words = ["cargo", "run", "--offline", "--quiet", "--release", "--example", "gateway", "--"]
    most = 0
    for _ in range(RUNS):
        _, said = timed([*words, str(set_)], cwd=BINDINGS / "rust", env=settings)
        wanted = r"\d+ paths, 4 threads, (\d+) look-ups a second, 0 wrong\n"
        found = re.fullmatch(wanted, said.stdout)
        if found is None:
            raise ToolError(f"the gateway wrote\n{said.stdout}")
        most = max(most, int(found[1]))
    return f"look-ups on four threads together | {most:,} a second"


def services(room: Path, set_: Path) -> str:
    """The row of services.cc."""
    program = str(room / "services")
    archive = str(LIB / "libprotolink.a")
    source = str(BINDINGS / "c/services.cc")
    must(["g++", "-std=c++17", "-O2", f"-I{TOP}/include", source, archive, "-o", program])
    _, said = timed([python(), "-B", "-c", SERVICES, str(set_)])
    seconds = best_time([program, str(set_)], said.stdout)
    count, methods = said.stdout.count("service "), said.stdout.count("  rpc ")
    does = f"links the set, and prints {count:,} services with {methods:,} methods"
    return f"{does} | {seconds:.2f} s"


def tell(sets: list[Path]) -> None:
    """Prints the tables, with a row of services.cc for each of some sets."""
    if not (LIB / SONAME).is_file():
        raise ToolError(f"{LIB / SONAME} is not built")
    with tempfile.TemporaryDirectory() as name:
        room = Path(name)
        set_ = room / "set.pb"
        set_.write_bytes(service_files(2000))
        look_ups(room, set_)
        print("\n| use | what it does | |\n|---|---|---|")
        print(f"| a registry: registry.py | {registry(room)} |")
        print(f"| a gateway: gateway.rs | {gateway(room, set_)} |")
        for file in (set_, *sets):
            print(f"| a generator: services.cc | {services(room, file)} |")


def main() -> int:
    if any(argument.startswith("-") for argument in sys.argv[1:]):
        print((__doc__ or "").strip())
        return 0 if sys.argv[1:] in (["-h"], ["--help"]) else 2
    try:
        tell([Path(argument) for argument in sys.argv[1:]])
    except (ToolError, OSError) as fault:
        print(f"library_uses.py: {fault}", file=sys.stderr)
        return 2
    return 0


if __name__ == "__main__":
    sys.exit(main())
