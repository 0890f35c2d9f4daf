#!/usr/bin/env python3
"""Counts words of which CONTRIBUTING.md says what to write in their place, in what users read.

    python3 plain_words.py            the counts of each group, and of each of its files
    python3 plain_words.py --where    each place with its words
    python3 plain_words.py --where docs/CHECK.md

The groups are the pages for users, the texts of `--help`, the comments of the headers, and the
texts of the programs. Each has a bound, which may be lowered and not raised. In pages code does not
count: blocks of it, what is between backquotes, and where a link leads. The help of a tool is its
first lines, and what it says of each argument. The texts of the programs are the strings in src/ of
all crates but those of tests and examples.

Exit status: 0 where no group is above its bound, else 1.
"""

from __future__ import annotations

import ast
import re
import sys
from collections import Counter
from collections.abc import Iterator
from pathlib import Path
from typing import NamedTuple

import measures

TOP = Path(__file__).resolve().parent.parent

WORDS = {
    "want of": r"want of",
    "behind": r"behind",
    "stands": r"stand|stands|standing|stood",
    "tells": r"tell|tells|telling|told|untold",
    "besides": r"besides",
    "of X it is told": r"of [^.:;|]{1,60}? (?:it |)(?:is|are) told",
}
"""What is counted, and how each is found. One text may be counted twice."""

PATTERNS = {word: re.compile(rf"\b(?:{found})\b", re.IGNORECASE) for word, found in WORDS.items()}

BOUNDS = {"pages": 70, "help": 2, "headers": 0, "texts": 13}
"""How many each group may have."""

HELP = re.compile(r'^pub(?:\(crate\))? const HELP: &str = ("(?:[^"\\]|\\.)*");', re.MULTILINE | re.DOTALL)
"""The help of a program, in its code."""

TOKEN = re.compile(r"//[^\n]*|'(?:[^'\\\n]|\\.[^'\n]*)'|b?\"(?:[^\"\\]|\\.)*\"", re.DOTALL)
"""A comment, a character or a string of Rattle."""

CODE = re.compile(
    r"^```.*?^```|^(?:    [^\n]*\n|\n(?=    ))+|`[^`\n]*`|\]\([^)\n]*\)", re.MULTILINE | re.DOTALL
)
"""What of a page is no text. A list has no indented block in it."""

COMMENT = re.compile(r"/\*.*?\*/|//[^\n]*", re.DOTALL)


class Place(NamedTuple):
    """Where one of the words is."""

    group: str
    path: str
    line: int
    word: str
    around: str


def hidden(found: re.Match) -> str:
    """As many lines as were found, without the rest."""
    return " `" + "\n" * found[0].count("\n")


def text_of_page(text: str) -> str:
    return CODE.sub(hidden, text)


def only(pattern: re.Pattern, text: str, wanted: str) -> str:
    """The lines of a text without all that is not found by a pattern and begins as is wanted."""
    kept, at = [], 0
    for found in pattern.finditer(text):
        kept.append("\n" * text.count("\n", at, found.start()))
        is_wanted = found[0].startswith(tuple(wanted.split()))
        kept.append(found[0] if is_wanted else "\n" * found[0].count("\n"))
        at = found.end()
    return "".join(kept)


def strings(text: str) -> str:
    """The strings of a file of Rattle, each on its line, without what is put into them. A help is
    left out."""
    return re.sub(r"\{\w+\}", "{}", only(TOKEN, HELP.sub(hidden, text), '" b"'))


def help_of_program(text: str) -> str:
    found = HELP.search(text)
    return "\n" * text.count("\n", 0, found.start()) + found[0] if found else ""


def help_of_tool(text: str) -> str:
    """The first lines of a tool, and what it says of each argument."""
    tree = ast.parse(text)
    lines = [""] * (text.count("\n") + 2)
    head = ast.get_docstring(tree, clean=False) or ""
    for at, line in enumerate(head.split("\n"), tree.body[0].lineno if head else 1):
        lines[at] = line
    for it in ast.walk(tree):
        if isinstance(it, ast.keyword) and it.arg == "help" and isinstance(it.value, ast.Constant):
            lines[it.value.lineno] += f" {it.value.value}"
    return "\n".join(lines[1:])


def is_tool(path: Path) -> bool:
    return path.suffix == ".py" or path.read_bytes().startswith(b"#!/usr/bin/env python3\n")


def crate_files() -> Iterator[Path]:
    """The code of what users run or link."""
    for path in measures.files("src/**/*.rt"):
        crate = path.relative_to(measures.CRATES).parts[0]
        if not crate.startswith("example_") and "tests" not in path.parts:
            yield path


def texts() -> Iterator[tuple[str, Path, str]]:
    """The texts of each group, by lines, with their files."""
    pages = [TOP / "README.md", TOP / "SECURITY.md", TOP / "CHANGELOG.md"]
    for path in [*pages, *sorted(TOP.glob("docs/*.md")), *sorted(TOP.glob("bindings/*/README.md"))]:
        yield "pages", path, text_of_page(path.read_text())
    for path in crate_files():
        yield "help", path, help_of_program(path.read_text())
    for path in sorted(path for path in (TOP / "tools").iterdir() if path.is_file()):
        if is_tool(path):
            yield "help", path, help_of_tool(path.read_text())
    for path in sorted((TOP / "include").iterdir()):
        yield "headers", path, only(COMMENT, path.read_text(), "/")
    for path in crate_files():
        yield "texts", path, strings(path.read_text())


def places_in(text: str) -> Iterator[tuple[int, str, str]]:
    """Each of the words in a text: its line, from 1, the word, and what is around it."""
    for word, pattern in PATTERNS.items():
        for found in pattern.finditer(text):
            around = text[max(0, found.start() - 60) : found.end() + 60]
            yield text.count("\n", 0, found.start()) + 1, word, " ".join(around.split())


def places() -> list[Place]:
    return [
        Place(group, str(path.relative_to(TOP)), *place)
        for group, path, text in texts()
        for place in sorted(places_in(text))
    ]


def counts() -> Counter:
    """How many of the words each group has."""
    return Counter(place.group for place in places())


def tell(found: list[Place]) -> bool:
    """Prints the counts, and answers whether each group keeps its bound."""
    kept = []
    for group, most in BOUNDS.items():
        of_group = [place for place in found if place.group == group]
        by_word = Counter(place.word for place in of_group)
        kept.append(len(of_group) <= most)
        mark = "" if kept[-1] else ", too many"
        words = ", ".join(f"{word} {by_word[word]}" for word in WORDS)
        print(f"{len(of_group):5} of at most {most}: {group} ({words}){mark}")
        for path, count in sorted(Counter(place.path for place in of_group).items()):
            print(f"{count:9} {path}")
    return all(kept)


def main() -> int:
    words = sys.argv[1:]
    if words and (words[0] != "--where" or len(words) > 2):
        sys.exit((__doc__ or "").strip())
    found = places()
    if not words:
        return 0 if tell(found) else 1
    for place in found:
        if place.path in words[1:] or not words[1:]:
            print(f"{place.path}:{place.line}: {place.word}: {place.around}")
    return 0


if __name__ == "__main__":
    sys.exit(main())
