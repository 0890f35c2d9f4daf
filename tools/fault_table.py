#!/usr/bin/env python3
"""Prints the tables of the kinds of faults and of the rules of protoc that docs/RULES.md has.

    tools/fault_table.py             prints the table of the kinds of faults
    tools/fault_table.py --strict    prints the table of the rules of protoc
    tools/fault_table.py --write     puts both into the page, in place of those that are there

A row is a kind: its code, its texts, the words before its second place, and what to do. All are
read off the code: the texts off crates/pool_faults/src/fault.rt, in which `{..}` is a part of the
fault, and the others off crates/verdict_texts/src/fault_kinds.rt; those of a rule of protoc
off crates/protoc_rules/src/rules.rt.
"""

from __future__ import annotations

import re
import sys
from pathlib import Path

TOP = Path(__file__).resolve().parent.parent
PAGE = TOP / "docs/RULES.md"
TEXTS = (TOP / "crates/pool_faults/src/fault.rt").read_text()
KINDS = (TOP / "crates/verdict_texts/src/fault_kinds.rt").read_text()
RULES = (TOP / "crates/protoc_rules/src/rules.rt").read_text()
HEAD = "| code | text | second place | what to do |\n|---|---|---|---|\n"
STRICT_HEAD = "| rule | text | second place | what to do |\n|---|---|---|---|\n"
LITERAL = r'"(?:[^"\\]|\\(?:.|\n))*"'


def said(literal: str) -> str:
    """The text of a literal, which may go on in further lines."""
    return re.sub(r"\\\n\s*", "", literal[1:-1])


def function(source: str, name: str) -> tuple[list[str], str]:
    """The parameters of a function, and its body."""
    head, body = re.split(rf"\bfn {name}\b", source)[1].split("\n{\n", 1)
    parameters = head.split("ensures")[0].split("(", 1)[1]
    return re.findall(r"(\w+): ", parameters), body.split("\n}\n")[0]


def written(body: str, parts: dict[str, str]) -> list[str]:
    """The texts that code writes, by the texts that are known of its parts."""
    texts = [said(text) for text in re.findall(rf"write!\(\s*f,\s*({LITERAL})", body)]
    for name, arguments in re.findall(r"\b(fmt_\w*(?:range|duplicate))\((.*?)\)", body, re.DOTALL):
        names, inner = function(TEXTS, name)
        given = [argument.strip() for argument in arguments.split(",")]
        known = {it: parts.get(text, text) for it, text in zip(names, given)}
        texts += written(inner, known)
    for name, text in parts.items():
        if text.startswith('"'):
            texts = [it.replace(f"{{{name}}}", said(text)) for it in texts]
    return [text.replace(":?}", "}") for text in texts]


def texts() -> dict[str, list[str]]:
    """The texts of each kind."""
    told = {}
    arms = re.split(r"\n +(?:_ =>|DescriptorErrorKind::)", TEXTS.split("fn fmt_name_fault")[1])
    for arm in arms:
        kind = re.match(r"[A-Z]\w+", arm)
        found = written(arm.split("\n        }\n")[0], {})
        if kind and found:
            told[kind.group()] = found
    return told


def remedies(code: str) -> list[str]:
    """What code of a row says is to be done, also by the functions that it calls."""
    consts = dict(re.findall(rf"const (\w+): &str =\s*({LITERAL});", KINDS))
    code = re.sub(rf"== {LITERAL}", "", code)
    found = []
    for literal, called, name in re.findall(
        rf"({LITERAL})|\b(\w+_(?:remedy|words))\(|\b([A-Z_]+)\b", code
    ):
        if called:
            found += remedies(function(KINDS, called)[1])
        elif literal or name in consts:
            found.append(said(literal or consts[name]))
    return found


def table() -> str:
    """The table, in the order of the kinds."""
    told = texts()
    lines = HEAD
    for row in function(KINDS, "fault_kind")[1].split("\n        Fault::")[1:]:
        code = re.match(r"\w+", row).group()
        made, rest = row.split(f'"{code}"')
        maker = re.search(r"(\w+)\(\s*$", made)
        source = function(KINDS, maker.group(1))[1] if maker else rest
        words = re.findall(rf"words(?: =|:) ({LITERAL})", source)
        second = said(words[0]).strip() if words else ""
        told_as = "<br>".join(f"`{text}`" for text in told[code])
        cells = [f"`{code}`", told_as, second, "<br>".join(remedies(rest.split("remedy:")[-1]))]
        lines += "| " + " | ".join(cells) + " |\n"
    return lines


def strict_table() -> str:
    """The table of the rules of protoc, in the order of the code."""
    consts = dict(re.findall(rf"const (\w+): &str =\s*({LITERAL});", RULES))
    lines = STRICT_HEAD
    for row in function(RULES, "strict_rule")[1].split("\n        StrictKind::")[1:]:
        found = re.findall(rf"({LITERAL})|\b([A-Z_]{{2,}})\b", row)
        words = [said(literal or consts[name]) for literal, name in found]
        code, text, second, remedy = words if len(words) == 4 else [*words[:2], "", words[2]]
        lines += f"| `{code}` | `'{{name}}' {text}` | {second.strip()} | {remedy} |\n"
    return lines


def replaced(page: str, head: str, made: str) -> str:
    """A page with the table that begins with a head in place of the one that is there."""
    front, rest = page.split(head)
    return front + made + re.sub(r"\A(?:\|.*\n)*", "", rest)


def main() -> int:
    if sys.argv[1:] == ["--write"]:
        page = replaced(PAGE.read_text(), HEAD, table())
        PAGE.write_text(replaced(page, STRICT_HEAD, strict_table()))
    else:
        print(strict_table() if sys.argv[1:] == ["--strict"] else table(), end="")
    return 0


if __name__ == "__main__":
    sys.exit(main())
