"""Manual pages, made of texts that are there: of what --help prints, of docs/CHECK.md and
docs/SCRIPT.md, and of the header.

A page of Markdown becomes a manual page by the forms that the documents have: headings, paragraphs,
lists, tables, indented blocks, and in a line code, bold words and links, of which the words stay.
The comments of the header become text, and its declarations stay as they are.
"""

from __future__ import annotations

import re
from collections.abc import Iterator
from typing import NamedTuple

SIGNS = {
    "\\": "\\e",
    "-": "\\-",
    "'": "\\(aq",
    "`": "\\(ga",
    "^": "\\(ha",
    "~": "\\(ti",
}
"""What troff prints otherwise, and how it is told to print it."""

ITEM = re.compile(r"(-|\d+\.) (.*)", re.DOTALL)
CONTENTS = re.compile(r"- \[[^\]]*\]\(#[^)]*\)$")
"""An item of a list of the sections of a page."""

WORDS = re.compile(
    r"`(?P<code>[^`]+)`|\*\*(?P<bold>.+?)\*\*|\[(?P<link>(?:`[^`]*`|[^\]`])+)\]\([^)]*\)"
)


class Release(NamedTuple):
    """A version and its date, as `27 November 2026`."""

    version: str
    date: str


class Title(NamedTuple):
    """What a manual page is of."""

    name: str
    section: int
    does: str


# Text


def escaped(text: str) -> str:
    """A text as troff prints it."""
    return "".join(SIGNS.get(sign, sign) for sign in text)


def guarded(line: str) -> str:
    """A line that is no request, also where it begins with a dot."""
    return f"\\&{line}" if line.startswith(".") else line


def inline(text: str) -> str:
    """A text of Markdown."""
    made, at = "", 0
    for found in WORDS.finditer(text):
        made += escaped(text[at : found.start()]) + marked(found)
        at = found.end()
    return made + escaped(text[at:])


def marked(found: re.Match) -> str:
    """Code, bold words, or the words of a link."""
    if found["link"] is not None:
        return inline(found["link"])
    words = escaped(found["code"]) if found["bold"] is None else escaped(plain(found["bold"]))
    return f"\\fB{words}\\fR"


def plain(text: str) -> str:
    """A text of Markdown without its marks."""
    return WORDS.sub(lambda it: it["code"] or plain(it["bold"] or it["link"] or ""), text)


def verbatim(lines: list[str]) -> Iterator[str]:
    """Lines that stand as they are."""
    yield from (".PP", ".RS 4", ".nf")
    yield from (guarded(escaped(line)) for line in lines)
    yield from (".fi", ".RE")


# Markdown


def form(line: str, before: str) -> str:
    """The form of a line, behind one of a form; of an empty line none."""
    if line.startswith("    ") or (before == "code" and not line):
        return "code"
    if ITEM.match(line):
        return "item"
    return {"": "", "|": "table", "#": "head"}.get(line[:1], "text")


def blocks(text: str) -> Iterator[tuple[str, list[str]]]:
    """Runs of lines of one form. A heading, an item and a paragraph is one line."""
    before, run = "", []
    for line in text.split("\n"):
        now = form(line, before)
        if run and (now != before or now not in ("code", "table")):
            yield before, run
            run = []
        before = now
        if now:
            run.append(line)
    if run:
        yield before, run


def code(text: str) -> list[str]:
    """The indented blocks of a page, each with the empty lines in it."""
    runs = [run for kind, run in blocks(text) if kind == "code"]
    return ["\n".join(line[4:] for line in run).rstrip("\n") + "\n" for run in runs]


def cells(row: str) -> list[str]:
    """The cells of a row of a table."""
    found = re.split(r"(?<!\\)\|", row.strip()[1:-1])
    return [inline(cell.strip().replace("\\|", "|")) for cell in found]


def table(rows: list[str]) -> Iterator[str]:
    """A table: the first cell of each row, and below it the others, each behind its heading where
    there are several."""
    heads = cells(rows[0])[1:]
    for first, *others in map(cells, rows[2:]):
        yield from (".TP", guarded(first))
        if len(others) > 1:
            others = [f"{head}: {text}" for head, text in zip(heads, others) if text]
        for number, text in enumerate(others):
            yield from ([".br"] if number else [])
            yield guarded(text)


def block(kind: str, run: list[str]) -> Iterator[str]:
    """Lines of one form."""
    if kind == "code":
        yield from verbatim([line[4:] for line in "\n".join(run).rstrip("\n").split("\n")])
    elif kind == "table":
        yield from table(run)
    elif kind == "head":
        marks, words = run[0].split(" ", 1)
        yield f".SH {escaped(plain(words)).upper()}" if len(marks) == 2 else f".SS {inline(words)}"
    elif kind == "item":
        mark, words = ITEM.fullmatch(run[0]).groups()
        dot = "\\(bu" if mark == "-" else mark
        yield from (f".IP {dot} 4", guarded(inline(words)))
    else:
        yield from (".PP", guarded(inline(run[0])))


def section(text: str, title: str) -> str:
    """The body of a section of a page."""
    return text.split(f"\n## {title}\n", 1)[1].split("\n## ", 1)[0]


def of_markdown(text: str) -> Iterator[str]:
    """The body of a page, without its title and its list of sections."""
    yield ".SH DESCRIPTION"
    for kind, run in blocks(text):
        if not (run[0].startswith("# ") or CONTENTS.match(run[0])):
            yield from block(kind, run)


# The header


def of_comment(text: str) -> Iterator[str]:
    """The paragraphs of a comment. What is indented stands as it is."""
    for run in text.strip("\n").split("\n\n"):
        lines = run.split("\n")
        if lines[0].startswith(" "):
            depth = min(len(line) - len(line.lstrip()) for line in lines)
            yield from verbatim([line[depth:] for line in lines])
        else:
            yield from (".PP", guarded(escaped(" ".join(lines))))


def declarations(code: str) -> list[str]:
    """The lines of a piece of code that declare something."""
    code = re.sub(r"#ifdef __cplusplus\n.*?#endif\n", "", code, flags=re.DOTALL)
    code = re.sub(r"^#(ifndef|include|endif).*\n|^#define \w+\n", "", code, flags=re.MULTILINE)
    return code.strip("\n").split("\n") if code.strip("\n") else []


def of_header(text: str) -> Iterator[str]:
    """The header: its first comment without its title, and each other with what it declares."""
    pieces = re.split(r"^/\*(.*?)\*/\n", text, flags=re.MULTILINE | re.DOTALL)
    heads = iter((".SH DESCRIPTION", ".SH DECLARATIONS"))
    for comment, code in zip(pieces[1::2], pieces[2::2]):
        said = re.sub(r"^ ?\*? ?", "", comment, flags=re.MULTILINE).strip("\n ")
        head = next(heads, "")
        if head:
            yield head
        yield from of_comment(said.split("\n\n", 1)[1] if head == ".SH DESCRIPTION" else said)
        declared = declarations(code)
        if declared:
            yield from verbatim(declared)


# Pages


def usage(told: str) -> list[str]:
    """What `--help` tells of how a program is called."""
    return [line[len("usage: ") :] for line in told.split("\n\n")[0].split("\n")]


def synopsis(lines: list[str]) -> Iterator[str]:
    yield ".SH SYNOPSIS"
    yield from (".nf", *map(escaped, lines), ".fi")


def page(title: Title, release: Release, *parts: Iterator[str]) -> str:
    """A manual page."""
    head = f'.TH {title.name.upper()} {title.section} "{release.date}" "protolink {release.version}"'
    lines = [head, ".SH NAME", f"{title.name} \\- {escaped(title.does)}"]
    return "\n".join((*lines, *(line for part in parts for line in part))) + "\n"
