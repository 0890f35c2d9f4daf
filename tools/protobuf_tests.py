#!/usr/bin/env python3
"""Runs protobuf's own tests of its pools in Python with the pool of the module protolink in the place
of protobuf's.

    python3 protobuf_tests.py            fetches protobuf's source by apt-get
    python3 protobuf_tests.py FOLDER     takes it from there, where it is unpacked

Debian's package python3-protobuf has no tests, but its source package has them. Nothing of it is
kept. protoc makes the modules that the tests want. The tests run twice: once with a second pool of
protobuf's own in the place of its first one, which shows what fails only since another pool is there,
and once with a `protolink.Pool`. The classes of descriptors are then those of protolink, and a
message factory works by `Pool.to_protobuf`.

It prints how many tests pass in both runs, and names those that pass in the first run alone. Exit
status: 0 where at most as many as MOST_LOST do, 1 where more do, 2 where the tests can't be run.

Needed are protoc, dpkg-dev, protobuf's Python package, and dist/lib, which tools/library makes.
PROTOLINK_LIB_DIR may name another folder of the library.
"""

from __future__ import annotations

import importlib
import json
import os
import subprocess
import sys
import tempfile
import types
import unittest
from collections.abc import Iterator
from pathlib import Path
from typing import Any

sys.dont_write_bytecode = True

import needs
from library_speed import ToolError, must

TOP = Path(__file__).resolve().parent.parent
MODULE = TOP / "bindings/python"
LIB = TOP / "dist/lib"

TESTS = (
    *("descriptor_pool_test", "descriptor_test", "symbol_database_test"),
    *("message_factory_test", "descriptor_database_test"),
)
"""The modules of google.protobuf.internal that have the tests."""

SCHEMAS = (
    *("src/google/protobuf/unittest*.proto", "src/google/protobuf/map_*unittest.proto"),
    "python/google/protobuf/internal/*.proto",
)
"""The files of which the tests want modules, below the source."""

MOST_LOST = 7
"""How many tests may pass with protobuf's own second pool alone."""

SOURCES = """\
Types: deb-src
URIs: http://deb.debian.org/debian
Suites: {suite}
Components: main
Signed-By: /usr/share/keyrings/debian-archive-keyring.gpg
"""
"""The list of the source packages of a version of Debian."""


# The source and its modules


def fetched(room: Path) -> Path:
    """The folder of protobuf's source, which is fetched. The lists of apt-get of the machine stay."""
    told = dict(line.split("=", 1) for line in Path("/etc/os-release").read_text().splitlines())
    (room / "parts").mkdir()
    (room / "lists/partial").mkdir(parents=True)
    suite = told.get("VERSION_CODENAME", "stable")
    (room / "parts/debian.sources").write_text(SOURCES.format(suite=suite))
    places = (
        *("Dir::Etc::sourcelist=/dev/null", f"Dir::Etc::sourceparts={room}/parts"),
        *(f"Dir::State::lists={room}/lists", "APT::Sandbox::User=root"),
    )
    flags = " ".join(f"-o {place}" for place in places)
    must(["sh", "-c", f"cd '{room}' && apt-get {flags} update && apt-get {flags} source protobuf"])
    return next(path for path in room.glob("protobuf-*") if path.is_dir())


def make_modules(source: Path, room: Path) -> None:
    """Makes the modules of the schemas that the tests want."""
    found = [path for pattern in SCHEMAS for path in sorted(source.glob(pattern))]
    roots = (source / "src", source / "python")
    names = [str(path.relative_to(root)) for path in found for root in roots if root in path.parents]
    if not names:
        raise ToolError(f"{source} has no schemas of tests")
    must(["protoc", *(f"-I{root}" for root in roots), f"--python_out={room}", *names])


# One run, in a process of its own


class Handed:
    """A pool of protolink for a message factory, which wants descriptors of protobuf's own pool."""

    def __init__(self, ours: Any) -> None:
        self.ours = ours

    def Add(self, file: Any) -> None:
        self.ours.Add(file)

    def FindFileByName(self, name: str) -> Any:
        self.ours.FindFileByName(name)
        return self.ours.to_protobuf().FindFileByName(name)


def factory_of(theirs: type, pool: type) -> type:
    """protobuf's message factory, which takes the descriptors of pools of protolink."""

    class Factory(theirs):  # type: ignore[misc]
        def __init__(self, ours: Any = None, **named: Any) -> None:
            super().__init__(Handed(ours or named.get("pool") or pool()))

        def GetPrototype(self, descriptor: Any) -> Any:
            if hasattr(descriptor.file.pool, "to_protobuf"):
                whole = descriptor.file.pool.to_protobuf()
                descriptor = whole.FindMessageTypeByName(descriptor.full_name)
            return super().GetPrototype(descriptor)

    return Factory


def as_module(module: types.ModuleType, **others: Any) -> types.SimpleNamespace:
    """A module for a test, some of whose names mean others."""
    return types.SimpleNamespace(**{**vars(module), **others})


def generated() -> Iterator[Any]:
    """The files of all modules that are there, each behind those that it imports."""
    seen: set[str] = set()

    def walk(file: Any) -> Iterator[Any]:
        if file.name not in seen:
            seen.add(file.name)
            for imported in file.dependencies:
                yield from walk(imported)
            yield file

    for name, module in sorted(sys.modules.items()):
        if name.endswith("_pb2"):
            yield from walk(module.DESCRIPTOR)


def put(test: Any, place: str) -> None:
    """Puts another pool into the place of protobuf's in a module of tests."""
    from google.protobuf import descriptor, descriptor_pool, message_factory

    pool: Any = descriptor_pool.DescriptorPool
    if place == "ours":
        import protolink

        pool = protolink.Pool
        classes = {
            name: getattr(protolink, name, theirs)
            for name, theirs in vars(descriptor).items()
            if name.endswith("Descriptor")
        }
        test.descriptor = as_module(descriptor, **classes)
        factory = factory_of(message_factory.MessageFactory, pool)
        whole = types.ModuleType("message_factory")
        source = Path(message_factory.__file__).read_text()
        exec(compile(source, message_factory.__file__, "exec"), vars(whole))
        vars(whole).update(MessageFactory=factory, _FACTORY=factory())
        test.message_factory = whole
    default = pool()
    for file in generated():
        default.AddSerializedFile(file.serialized_pb)
    test.descriptor_pool = as_module(
        descriptor_pool, DescriptorPool=pool, Default=lambda: default
    )
    if hasattr(test, "DescriptorTest"):
        test.DescriptorTest.GetDescriptorPool = lambda _: default


def run_tests(place: str, source: Path, room: Path) -> dict[str, str]:
    """Runs the tests with a pool in the place of protobuf's: what became of each."""
    protobuf = importlib.import_module("google.protobuf")
    internal = importlib.import_module("google.protobuf.internal")
    protobuf.__path__.append(str(room / "google/protobuf"))
    internal.__path__.append(str(room / "google/protobuf/internal"))
    internal.__path__.append(str(source / "python/google/protobuf/internal"))
    tests = [importlib.import_module(f"google.protobuf.internal.{name}") for name in TESTS]
    for test in tests:
        put(test, place)
    suite = unittest.TestSuite(map(unittest.defaultTestLoader.loadTestsFromModule, tests))
    names = [it.id() for it in each(suite)]
    result = unittest.TestResult()
    suite.run(result)
    ends = dict.fromkeys(names, "")
    for test, told in [*result.errors, *result.failures]:
        ends[test.id()] = told.strip().splitlines()[-1]
    for test, _ in result.skipped:
        del ends[test.id()]
    return ends


def each(suite: Any) -> Iterator[unittest.TestCase]:
    """The tests of a suite."""
    for it in suite:
        if isinstance(it, unittest.TestSuite):
            yield from each(it)
        else:
            yield it


# Both


def ends_of(place: str, source: Path, room: Path) -> dict[str, str]:
    """The same of a process of its own: of each test that was run why it failed, or nothing."""
    python = needs.python()
    if python is None:
        raise ToolError("protobuf's Python package is missing")
    environment = {**os.environ, "PYTHONPATH": str(MODULE)}
    environment.setdefault("PROTOLINK_LIB_DIR", str(LIB))
    words = [python, "-B", str(Path(__file__).resolve()), place, str(source), str(room)]
    said = subprocess.run(words, env=environment, stdout=subprocess.PIPE, text=True, check=False)
    try:
        ends: dict[str, str] = json.loads(said.stdout.splitlines()[-1])
        return ends
    except (IndexError, ValueError) as fault:
        raise ToolError(f"the tests did not run to their end: {fault}") from fault


def compare(source: Path, room: Path) -> int:
    """Runs the tests in both places, and answers the exit status."""
    make_modules(source, room)
    theirs, ours = (ends_of(place, source, room) for place in ("theirs", "ours"))
    passed = [name for name, why in theirs.items() if not why]
    lost = [name for name in passed if ours.get(name, "it is not run")]
    for name in lost:
        print(f"{name.split('.internal.')[-1]}: {ours.get(name, 'it is not run')}")
    print(f"{len(passed)} of {len(theirs)} tests pass with protobuf's own second pool")
    print(f"{len(passed) - len(lost)} of these {len(passed)} pass with protolink.Pool")
    return 1 if len(lost) > MOST_LOST else 0


def main() -> int:
    """Runs the tests, and answers the exit status."""
    given = sys.argv[1:]
    if len(given) == 3:
        print(json.dumps(run_tests(given[0], Path(given[1]), Path(given[2]))))
        return 0
    if len(given) > 1 or any(it.startswith("-") for it in given):
        print((__doc__ or "").strip())
        return 2
    with tempfile.TemporaryDirectory() as name:
        room = Path(name)
        (room / "modules").mkdir()
        try:
            source = Path(given[0]).resolve() if given else fetched(room)
            return compare(source, room / "modules")
        except ToolError as fault:
            print(f"protobuf_tests.py: {fault}", file=sys.stderr)
            return 2


if __name__ == "__main__":
    sys.exit(main())
