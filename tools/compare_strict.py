#!/usr/bin/env python3
"""Asks of each rule in strict_rules.txt whether protobuf refuses what breaks it, and nothing else.

    python3 compare_strict.py [--changes N] [--seed S] CHECK

CHECK is the program check_descriptors, as `rt run` builds it.

For each rule there are sets that break it alone, and sets that nearly do. protobuf's own pool and
`protoc` must refuse the first and accept the second. The program, with `--strict`, must refuse the
first with faults of that rule alone, and accept the second; without it, it must accept both. Without
a program protobuf is asked alone.

Then N random changes of real sets (500 where nothing is said; random_changes.py makes them) are asked
of protobuf's own pool and of the program with `--strict`: both must refuse them, or both accept
them, but for the ways that docs/RULES.md states. How often each of these was met is printed.

Each difference is printed. The last line counts the sets: `N passed, M failed, K left out`. Exit
status: 0 where none failed, or protobuf's Python package is missing (python3-protobuf on Debian, for
/usr/bin/python3), which is said; else 1.
"""

from __future__ import annotations

import argparse
import json
import random
import re
import subprocess
import sys
import tempfile
from collections import Counter
from pathlib import Path
from typing import Iterator, NamedTuple, Optional

try:
    from google.protobuf import descriptor_pb2, descriptor_pool, text_format

    import random_changes
except ImportError:
    descriptor_pb2 = None

TOOLS = Path(__file__).resolve().parent
ROWS = TOOLS / "strict_rules.txt"
DATA = TOOLS.parent / "crates/test_rows/data"
ROOTS = (DATA / "checks/sources", DATA / "items/protoc", Path("/usr/include"))
"""Where the sources stand whose sets are changed at random: in the first two all are taken, in the
last protobuf's own."""

REFUSED_BY_PROTOBUF = {
    "a default of double or float": r"Couldn't parse default value",
    "lazy": r"\[lazy = true\] can only be specified|\[unverified_lazy",
    "jstype": r"jstype is only allowed on|Illegal jstype",
    "light files": r"LITE_RUNTIME|non-lite",
}
"""What docs/RULES.md leaves out, by the words of protobuf's pool."""

REFUSED_HERE = {
    "DuplicateFieldJsonName",
    "DuplicateExtensionNumber",
    "FileNotFound",
    "ImportCycle",
    "InvalidFieldDefault",
    "InvalidFieldNumber",
    "UnknownSyntax",
}
"""What docs/RULES.md says that protobuf's pool accepts: the codes of the check."""


class Row(NamedTuple):
    """A set of a rule, and whether it breaks it."""

    code: str
    breaks: bool
    text: str


def rows() -> Iterator[Row]:
    """The sets of all rules, in order."""
    for section in ROWS.read_text().split("\n\n")[1:]:
        code, *lines = section.strip().split("\n")
        begins = [at for at, line in enumerate(lines) if line in ("breaks", "nearly")]
        for begin, end in zip(begins, [*begins[1:], len(lines)]):
            yield Row(code, lines[begin] == "breaks", "\n".join(lines[begin + 1 : end]))


def pool_words(files) -> Optional[str]:
    """What protobuf's pool says of the first of some files that it refuses, one after another."""
    pool = descriptor_pool.DescriptorPool()
    for file in files:
        try:
            pool.AddSerializedFile(file.SerializeToString())
        except TypeError as error:
            return str(error)
    return None


def pool_accepts(files) -> bool:
    """Whether protobuf's pool takes the files, one after another."""
    return pool_words(files.file) is None


def protoc_accepts(path: Path, files) -> bool:
    """Whether `protoc` takes the set at a path."""
    names = [file.name for file in files.file]
    words = ["protoc", f"--descriptor_set_in={path}", "-o", "/dev/null", *names]
    return subprocess.run(words, capture_output=True, check=False).returncode == 0


def told(program: str, path: Path, *options: str) -> set[str]:
    """The codes of the faults that the program tells of a set; of an accepted one there are none."""
    words = [program, "--json", *options, str(path)]
    done = subprocess.run(words, capture_output=True, text=True, check=False)
    if done.returncode == 0:
        return set()
    return {fault["code"] for fault in json.loads(done.stdout).get("faults", [])} or {"none"}


def differences(row: Row, path: Path, program: Optional[str]) -> Iterator[str]:
    """Who judges a set otherwise than its row says."""
    files = text_format.Parse(row.text, descriptor_pb2.FileDescriptorSet())
    path.write_bytes(files.SerializeToString())
    if pool_accepts(files) == row.breaks:
        yield "the pool"
    if protoc_accepts(path, files) == row.breaks:
        yield "protoc"
    if program is None:
        return
    if told(program, path):
        yield "the check without --strict"
    if told(program, path, "--strict") != ({row.code} if row.breaks else set()):
        yield "the check"


def sources() -> Iterator[tuple[Path, Path]]:
    """The root and the path below it of each source whose set is changed."""
    for root in ROOTS:
        folder = root / "google/protobuf" if root == ROOTS[-1] else root
        for path in sorted(folder.rglob("*.proto")):
            yield root, path.relative_to(root)


def real_sets() -> Iterator[object]:
    """The sets that are changed: of real sources, and those that nearly break a rule."""
    for root, path in sources():
        words = ["protoc", f"-I{root}", "-I/usr/include", "--include_imports", "-o", "/dev/stdout"]
        done = subprocess.run([*words, str(path)], capture_output=True, check=False)
        if done.returncode == 0:
            yield descriptor_pb2.FileDescriptorSet.FromString(done.stdout)
    for row in rows():
        if not row.breaks:
            yield text_format.Parse(row.text, descriptor_pb2.FileDescriptorSet())


def imports_first(files) -> list:
    """The files of a set, each behind those that it imports, as far as there is no cycle."""
    named = {file.name: file for file in files.file}
    begun: set[int] = set()
    ordered: list = []

    def add(file) -> None:
        if id(file) not in begun:
            begun.add(id(file))
            for name in file.dependency:
                if name in named:
                    add(named[name])
            ordered.append(file)

    for file in list(files.file):
        add(file)
    return ordered


def left_out(line: str) -> Optional[str]:
    """What docs/RULES.md leaves out, of which protobuf's pool tells a line, if it is such."""
    ways = (way for way, said in REFUSED_BY_PROTOBUF.items() if re.search(said, line))
    return next(ways, None)


def stated(words: Optional[str], codes: set[str]) -> Optional[str]:
    """The way in which the two judge otherwise, if all that the pool says, or each code, is stated."""
    if words is None:
        return f"accepted by the pool: {min(codes)}" if codes <= REFUSED_HERE else None
    ways = [left_out(line) for line in words.strip().split("\n")[2:]]
    return f"left out: {ways[0]}" if ways and None not in ways else None


def random_sets(count: int, seed: int) -> Iterator[object]:
    """So many random changes of the sets."""
    chance, sets = random.Random(seed), list(real_sets())
    for _ in range(count):
        yield random_changes.changed(chance.choice(sets), chance)


def difference(files, codes: set[str]) -> Optional[str]:
    """The way in which the pool judges a set otherwise than the check, which tells these codes."""
    words = pool_words(imports_first(files))
    if (words is None) == (not codes):
        return None
    way = stated(words, codes)
    if way is None:
        print(f"differs: the pool says {words}; the check {sorted(codes)}: {files}")
    return way or "not stated"


def compare_changes(program: str, path: Path, count: int, seed: int) -> tuple[int, int]:
    """Asks both of random changes; how many passed, and how many failed."""
    met: Counter = Counter()
    for files in random_sets(count, seed):
        path.write_bytes(files.SerializeToString())
        met[difference(files, told(program, path, "--strict"))] += 1
    for way in sorted(set(met) - {None}):
        print(f"{met[way]} times {way}")
    return count - met["not stated"], met["not stated"]


def main() -> int:
    parser = argparse.ArgumentParser(
        description=__doc__, formatter_class=argparse.RawDescriptionHelpFormatter
    )
    parser.add_argument("program", nargs="?", help="check_descriptors, as `rt run` builds it")
    parser.add_argument("--changes", type=int, default=500, help="how many random changes (500)")
    parser.add_argument("--seed", type=int, default=1, help="what the changes are made by (1)")
    chosen = parser.parse_args()
    if descriptor_pb2 is None:
        print("left out: all, since protobuf's Python package is missing (python3-protobuf)")
        print("0 passed, 0 failed, 1 left out")
        return 0
    passed, failed = 0, 0
    with tempfile.TemporaryDirectory() as folder:
        for row in rows():
            found = list(differences(row, Path(folder) / "set.pb", chosen.program))
            for name in found:
                print(f"{row.code}: {name} judges otherwise: {row.text}")
            passed, failed = passed + (not found), failed + bool(found)
        if chosen.program is not None:
            path = Path(folder) / "set.pb"
            counts = compare_changes(chosen.program, path, chosen.changes, chosen.seed)
            passed, failed = passed + counts[0], failed + counts[1]
    print(f"{passed} passed, {failed} failed, 0 left out")
    return 1 if failed else 0


if __name__ == "__main__":
    sys.exit(main())
