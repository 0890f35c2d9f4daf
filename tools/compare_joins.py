#!/usr/bin/env python3
"""Compares what the check reports of pairs of real sets that were built apart with what they hold.

    python3 compare_joins.py ../crates/check_descriptors/out/check_descriptors
    python3 compare_joins.py --pairs 100 --root FOLDER PROGRAM

Each `.proto` file below the roots that `protoc` compiles gives a set, with all that it imports. The
root is /usr/include where none is named, which has protobuf's own files. A root is searched for the
imports of its files, and /usr/include too. Sets that the program refuses alone are counted, and not
paired.

Pairs of these sets are drawn by a fixed seed (--seed), mostly of two that have files of one name,
each with source info or without it. In two of three the second set has other versions of some
files, of those that both have where they share any: with another option `go_package`, or with a
message more.

What should be, by docs/CHECK.md: files of one name that are equal but for their source info count
once, and the verdict is that of protobuf's Python package on all of them. Where some differ, each
has one line, with both sets, in the order of the second; and with `--first` the verdict is that of
protobuf on the first of each name. Anything else is printed, and is a fault.

The last line counts the pairs: `N passed, M failed`. Exit status: 0 where none failed, or `protoc`
or protobuf's Python package is missing (protobuf-compiler, libprotobuf-dev and python3-protobuf on
Debian, for /usr/bin/python3), which is said; else 1.
"""

from __future__ import annotations

import argparse
import json
import random
import shutil
import subprocess
import sys
import tempfile
from dataclasses import dataclass
from pathlib import Path
from typing import Iterator, Optional

try:
    from google.protobuf import descriptor_pb2, descriptor_pool
except ImportError:
    descriptor_pb2 = None

INCLUDE = Path("/usr/include")
FIRST, SECOND = "first.pb", "second.pb"


def compiled(root: Path, file: Path) -> Optional[descriptor_pb2.FileDescriptorSet]:
    """The set of a file below a root, with what it imports, or nothing where protoc refuses it."""
    command = ["protoc", f"-I{root}", f"-I{INCLUDE}", "--include_imports", "--include_source_info"]
    made = subprocess.run(
        [*command, "-o/dev/stdout", str(file.relative_to(root))], capture_output=True
    )
    if made.returncode != 0:
        return None
    return descriptor_pb2.FileDescriptorSet.FromString(made.stdout)


def bare(file: descriptor_pb2.FileDescriptorProto) -> descriptor_pb2.FileDescriptorProto:
    """A file without its source info."""
    copy = descriptor_pb2.FileDescriptorProto()
    copy.CopyFrom(file)
    copy.ClearField("source_code_info")
    return copy


def changed(file: descriptor_pb2.FileDescriptorProto, draw: random.Random) -> None:
    """Makes another version of a file."""
    if draw.random() < 0.5:
        file.options.go_package = "example.com/another"
    else:
        file.message_type.add(name="MessageOfAnotherVersion")


@dataclass
class Pair:
    """Two sets, and the names of the files that differ, in the order of the second."""

    first: descriptor_pb2.FileDescriptorSet
    second: descriptor_pb2.FileDescriptorSet

    def unequal(self) -> list[str]:
        held = {file.name: bare(file) for file in self.first.file}
        return [
            file.name
            for file in self.second.file
            if file.name in held and bare(file) != held[file.name]
        ]

    def joined(self) -> list[descriptor_pb2.FileDescriptorProto]:
        """The first file of each name."""
        held = {}
        for file in [*self.first.file, *self.second.file]:
            held.setdefault(file.name, bare(file))
        return list(held.values())


def share(first: descriptor_pb2.FileDescriptorSet, second: descriptor_pb2.FileDescriptorSet) -> bool:
    """Whether two sets have files of one name."""
    return bool({file.name for file in first.file} & {file.name for file in second.file})


def drawn(sets: list[descriptor_pb2.FileDescriptorSet], draw: random.Random) -> Pair:
    """A pair of sets, as they might be built apart: mostly of two that have files of one name."""
    drawings = [draw.sample(sets, 2) for _ in range(20)]
    sources = next((both for both in drawings if share(*both)), drawings[0])
    pair = Pair(descriptor_pb2.FileDescriptorSet(), descriptor_pb2.FileDescriptorSet())
    for made, source in zip((pair.first, pair.second), sources):
        has_places = draw.random() < 0.5
        made.file.extend(file if has_places else bare(file) for file in source.file)
    if draw.random() < 2 / 3:
        held = {file.name for file in pair.first.file}
        shared = [file for file in pair.second.file if file.name in held] or list(pair.second.file)
        for file in draw.sample(shared, draw.randint(1, min(3, len(shared)))):
            changed(file, draw)
    return pair


def is_accepted(files: list[descriptor_pb2.FileDescriptorProto]) -> bool:
    """Whether protobuf accepts files, of which each stands behind what it imports."""
    pool = descriptor_pool.DescriptorPool()
    left = {file.name: file for file in files}
    try:
        while left:
            ready = [file for file in left.values() if not set(file.dependency) & set(left)]
            for file in ready:
                pool.AddSerializedFile(file.SerializeToString())
                pool.FindFileByName(file.name)
                del left[file.name]
            if not ready:
                return False
    except (KeyError, TypeError):
        return False
    return True


class Program:
    """The check, run in a folder of its own on two sets."""

    def __init__(self, program: Path, folder: Path) -> None:
        self.program, self.folder = program, folder

    def run(self, *words: str) -> subprocess.CompletedProcess:
        return subprocess.run(
            [self.program, *words], cwd=self.folder, capture_output=True, text=True, timeout=60
        )

    def takes(self, made: descriptor_pb2.FileDescriptorSet) -> bool:
        (self.folder / FIRST).write_bytes(made.SerializeToString())
        return self.run(FIRST).returncode == 0

    def faults(self, pair: Pair) -> Iterator[str]:
        """What the check tells of a pair that it should not."""
        (self.folder / FIRST).write_bytes(pair.first.SerializeToString())
        (self.folder / SECOND).write_bytes(pair.second.SerializeToString())
        unequal, accepts = pair.unequal(), is_accepted(pair.joined())
        if unequal:
            yield from self.faults_of_unequal(unequal)
        whole = self.run("--json", "--first", FIRST, SECOND)
        told = json.loads(whole.stdout)
        if (told["verdict"] == "accepted") != accepts or whole.returncode != (0 if accepts else 1):
            yield f"status {whole.returncode}, and protobuf accepts: {accepts}"
        if accepts and told["counts"]["files"] != len(pair.joined()):
            yield f"{told['counts']['files']} files of {len(pair.joined())}"
        passed = [line for line in whole.stderr.splitlines() if " is passed over, since " in line]
        if len(passed) != len(unequal):
            yield f"{len(passed)} files of {len(unequal)} are passed over"
        if not unequal and self.run(FIRST, SECOND).returncode != whole.returncode:
            yield "another status with --first"

    def faults_of_unequal(self, unequal: list[str]) -> Iterator[str]:
        """What the check tells otherwise of sets with unequal files."""
        told = self.run(FIRST, SECOND)
        lines = [line for line in told.stdout.splitlines() if not line.startswith("  ")]
        heads = [f"{name}: {FIRST} and {SECOND} have unequal copies: " for name in unequal]
        count = "1 fault" if len(unequal) == 1 else f"{len(unequal)} faults"
        if told.returncode != 1 or len(lines) != len(heads) + 1 or lines[-1] != f"refused: {count}":
            yield f"of {unequal}: {told.stdout}"
        elif not all(line.startswith(head) for line, head in zip(lines, heads)):
            yield f"of {unequal} in this order: {told.stdout}"


def compare(program: Program, roots: list[Path], pairs: int, draw: random.Random) -> int:
    """Tries pairs, and tells what differs. The answer is the exit status."""
    files = [(root, file) for root in roots for file in sorted(root.rglob("*.proto"))]
    sets = [made for made in (compiled(*place) for place in files) if made is not None]
    taken = [made for made in sets if program.takes(made)]
    print(f"{len(files)} files, {len(sets)} sets, {len(taken)} accepted alone")
    if len(taken) < 2:
        print("0 passed, 1 failed")
        return 1
    joined = failed = 0
    for number in range(pairs):
        pair = drawn(taken, draw)
        joined += not pair.unequal()
        found = list(program.faults(pair))
        failed += bool(found)
        for words in found:
            print(f"pair {number}: {words}")
    print(f"{joined} pairs join, {pairs - joined} have unequal files")
    print(f"{pairs - failed} passed, {failed} failed")
    return 1 if failed else 0


def main() -> int:
    parser = argparse.ArgumentParser(description=__doc__.split("\n\n")[0])
    parser.add_argument("program", type=Path)
    parser.add_argument("--pairs", type=int, default=1500)
    parser.add_argument("--seed", type=int, default=1)
    parser.add_argument("--root", type=Path, action="append", default=[])
    words = parser.parse_args()
    if descriptor_pb2 is None or shutil.which("protoc") is None:
        print("left out: the comparison of joins, since protobuf or protoc is missing")
        return 0
    with tempfile.TemporaryDirectory() as folder:
        program = Program(words.program.resolve(), Path(folder))
        roots = [root.resolve() for root in words.root] or [INCLUDE]
        return compare(program, roots, words.pairs, random.Random(words.seed))


if __name__ == "__main__":
    sys.exit(main())
