"""Completions of bash, zsh and fish, made of what a program says of its options: of its --help, and
of the words that it asks for where an option lacks its value.
"""

from __future__ import annotations

import re
from collections.abc import Callable
from typing import NamedTuple

OPTION = re.compile(r"^(--[a-z-]+)(?: (\S+))?  +(.*(?:\n +.*)*)$", re.MULTILINE)
"""An option in a text of help, the word for its value, and what it does."""

CHOICES = re.compile(r": give ((?:\w+, )*\w+ or \w+)$", re.MULTILINE)
"""What a program says of an option that has one of some words, where it has none."""

FILES = ("OUT", "OLD", "git:REV")
"""The words for values that may be a file."""


class Option(NamedTuple):
    """An option: the word for its value, which may be one of some words, and what it does."""

    name: str
    value: str
    choices: tuple[str, ...]
    does: str


def options(told: str, ask: Callable[[str], str]) -> list[Option]:
    """The options of a text of help; ask answers what the program says of one without its value."""
    found = {}
    for name, value, does in OPTION.findall(told):
        words = CHOICES.search(ask(name)) if value else None
        choices = tuple(re.split(", | or ", words[1])) if words else ()
        text = " ".join(does.split())
        short = re.split(r"[:;.([]", text)[0].strip()
        found.setdefault(name, Option(name, value, choices, text if short in choices else short))
    return list(found.values())


BASH = """\
# Completions of {program} for bash, made of what its --help says.
{function}() {{
    local word=${{COMP_WORDS[COMP_CWORD]}} before=${{COMP_WORDS[COMP_CWORD - 1]}} words=
    case $before in
{cases}    esac
    if [[ -z $words && $word == -* ]]; then
        words="{options}"
    fi
    if [[ -n $words ]]; then
        mapfile -t COMPREPLY < <(compgen -W "$words" -- "$word")
    else
        mapfile -t COMPREPLY < <(compgen -f -- "$word")
    fi
}}
complete -o filenames -F {function} {program}
"""

ZSH = """\
#compdef {program}
# Completions of {program} for zsh, made of what its --help says.
_arguments \\
{specs}    '*:file:_files'
"""

FISH = """\
# Completions of {program} for fish, made of what its --help says.
"""


def bash(program: str, found: list[Option]) -> str:
    """Behind an option that has one of some words, these; behind one that has a file, and
    elsewhere, files; behind any other nothing."""
    cases = ""
    for name, value, choices, _ in found:
        if choices:
            cases += f'        {name}) words="{" ".join(choices)}" ;;\n'
        elif value and value not in FILES:
            cases += f"        {name}) return ;;\n"
    names = " ".join(option.name for option in found)
    function = f"_{program.replace('-', '_')}"
    return BASH.format(program=program, function=function, cases=cases, options=names)


def quoted(text: str) -> str:
    """A text between single quotes, as zsh and fish read it."""
    return "'" + text.replace("'", "'\\''") + "'"


def zsh(program: str, found: list[Option]) -> str:
    specs = ""
    for name, value, choices, does in found:
        spec = f"*{name}{'=' if value else ''}[{does}]"
        if value:
            action = "_files" if value in FILES else f"({' '.join(choices)})" if choices else " "
            spec += f":{value.split(':')[-1]}:{action}"
        specs += f"    {quoted(spec)} \\\n"
    return ZSH.format(program=program, specs=specs)


def fish(program: str, found: list[Option]) -> str:
    made = FISH.format(program=program)
    for name, value, choices, does in found:
        words = ["complete", "-c", program, "-l", name[2:]]
        words += ["-r", "-F"] if value in FILES else ["-x"] if value else []
        words += ["-a", quoted(" ".join(choices))] if choices else []
        made += " ".join([*words, "-d", quoted(does)]) + "\n"
    return made
