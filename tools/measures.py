#!/usr/bin/env python3
"""Counts what a change looks at: how many crates and storeys there are, how wide and how long code
is, and what cannot be read alone.

    python3 measures.py
    python3 measures.py --where WORDS     the places of the counts with these words

Each line has a count, the most that it should be, and what it counts. Exit status: 0 where no count
is above its most, else 1.
"""

from __future__ import annotations

import re
import sys
from collections.abc import Iterator
from pathlib import Path
from typing import NamedTuple

import architecture
import edits

TOP = Path(__file__).resolve().parent.parent
CRATES = TOP / "crates"
COLUMNS = 100
WHOLE = re.compile(r"\s*(?:(?:ghost )?(?:pub )?use [^,]*;?|#\[.*\])$")
"""A line that cannot be parted: one that names one thing by its path, and an attribute, which the
layout has on one line."""
FACES = ("proto_records", "pool_parts", "descriptor_linker")
"""The crates that hand on what others have, for users."""
ALONE = re.compile(r"(?:The same|As|So|Of)\b")
"""How a comment begins that leans on what stands before it."""
USE = re.compile(r"^pub use ([^;]*);", re.MULTILINE)
"""What a crate hands on."""
FUNCTION = re.compile(r"^(?P<indent>[ \t]*)(?P<head>[^\n/]*)\bfn (?P<name>\w+)", re.MULTILINE)
"""The head of a function."""
IMPL = re.compile(r"^impl(?:<[^>]*>)? (?:[\w<>', ]+ for )?(\w+)", re.MULTILINE)
"""An implementation of a type, and its name."""


class Measure(NamedTuple):
    """What is counted, the most that it should be, and where each stands."""

    what: str
    most: int
    places: list[str]

    def __str__(self) -> str:
        mark = "" if len(self.places) <= self.most else ", too many"
        return f"{len(self.places):6,} of at most {self.most:,}: {self.what}{mark}"


def is_of_tests(crate: str) -> bool:
    return crate.startswith("test_") or "_tests" in crate


def files(pattern: str) -> Iterator[Path]:
    """The files of all crates but those of tests."""
    for path in sorted(CRATES.glob(f"*/{pattern}")):
        if not is_of_tests(path.relative_to(CRATES).parts[0]):
            yield path


def place(path: Path, text: str, at: int) -> str:
    """Where a place of a file is, for a reader."""
    return f"{path.relative_to(TOP)}:{text.count(chr(10), 0, at) + 1}"


def below(name: str, named: dict[str, list[str]]) -> set[str]:
    """The crates that a crate stands on."""
    found = {it for it in named.get(name, []) if it in named}
    return found.union(*(below(it, named) for it in found))


def split(parameters: str) -> list[str]:
    """Parameters, parted where no bracket is open."""
    parts, depth = [""], 0
    for sign in re.sub(r"->|=>", "", parameters):
        depth += (sign in "([<{") - (sign in ")]>}")
        if sign == "," and depth == 0:
            parts.append("")
        else:
            parts[-1] += sign
    return [part for part in parts if part.strip()]


def behind_generics(text: str, at: int) -> int:
    """Where the brackets end that may stand behind a name."""
    depth = 0
    while text[at : at + 1] == "<" or depth > 0:
        depth += (text[at] == "<") - (text[at] == ">" and text[at - 1] not in "-=")
        at += 1
    return at


def handed_on() -> set[str]:
    """What the faces hand on."""
    texts = [path.read_text() for face in FACES for path in CRATES.glob(f"{face}/src/lib.rt")]
    return {it for text in texts for use in USE.findall(text) for it in re.findall(r"\w+", use)}


def is_export(found: re.Match[str], before: str, exported: set[str]) -> bool:
    """Whether a function is a call of C, or one that a face hands on, by itself or with its type."""
    if 'extern "C"' in found["head"] or found["name"] in exported:
        return True
    types = IMPL.findall(before)
    is_method = found["indent"] != "" and "pub " in found["head"]
    return is_method and types != [] and types[-1] in exported


def functions() -> Iterator[tuple[str, int]]:
    """Each function but calls of visitors and exports, where it stands and its parameters."""
    exported = handed_on()
    for path in files("src/**/*.rt"):
        text = path.read_text()
        for found in FUNCTION.finditer(text):
            if found["name"].startswith("visit_"):
                continue
            if is_export(found, text[: found.start()], exported):
                continue
            start = text.find("(", behind_generics(text, found.end()))
            depth, end = 1, start + 1
            while depth > 0 and end < len(text):
                depth += (text[end] == "(") - (text[end] == ")")
                end += 1
            where = f"{place(path, text, found.start())} {found['name']}"
            yield where, len(split(text[start + 1 : end - 1]))


def wide_lines() -> Iterator[str]:
    for pattern in ("src/**/*.rt", "specs/**/*.antt"):
        for path in files(pattern):
            for number, line in enumerate(path.read_text().splitlines(), 1):
                if len(line) > COLUMNS and not WHOLE.match(line):
                    yield f"{path.relative_to(TOP)}:{number}"


def leaning_comments() -> Iterator[str]:
    for pattern, begin in (("src/**/*.rt", "//+!?"), ("specs/**/*.antt", "--")):
        comment = re.compile(rf"(?<!\S)[ \t]*{begin} (?=\S)")
        for path in files(pattern):
            before = ""
            for number, line in enumerate(path.read_text().splitlines(), 1):
                found = comment.match(line)
                if found and not comment.match(before) and ALONE.match(line[found.end() :]):
                    yield f"{path.relative_to(TOP)}:{number}"
                before = line


def measures() -> Iterator[Measure]:
    crates = architecture.crates_of((TOP / "crates.txt").read_text())
    named = {crate.name: crate.named for crate in crates}
    storeys = architecture.storeys(crates)
    yield Measure("crates", 41, sorted(named))
    yield Measure("storeys", 11, [f"storey {it}" for it in sorted(set(storeys.values()))])
    for name in ("protolink_c", "check_descriptors"):
        yield Measure(f"crates below {name}", 23, sorted(below(name, named)))
    many = list(functions())
    five, four = ([it for it, count in many if count > most] for most in (5, 4))
    yield Measure("functions of more than five parameters", 0, five)
    yield Measure("functions of more than four", 45, four)
    yield Measure("lines of code and definitions past 100 columns", 0, list(wide_lines()))
    yield Measure("comments that lean on what stands before", 0, list(leaning_comments()))
    paths = [str(path.relative_to(TOP)) for path in edits.files()]
    yield Measure("edits that must be refused", edits.most(), paths)
    count = len((TOP / "README.md").read_text().splitlines())
    yield Measure("lines of README", 130, [f"README.md:{it}" for it in range(1, count + 1)])


def main() -> int:
    words = " ".join(sys.argv[2:]) if sys.argv[1:2] == ["--where"] else ""
    if sys.argv[1:] and not words:
        sys.exit((__doc__ or "").strip())
    is_right = True
    for measure in measures():
        is_right &= len(measure.places) <= measure.most
        if words and words in measure.what:
            print("\n".join(measure.places))
        elif not words:
            print(measure)
    return 0 if is_right else 1


if __name__ == "__main__":
    sys.exit(main())
