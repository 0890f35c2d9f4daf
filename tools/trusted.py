#!/usr/bin/env python3
"""Prints docs/TRUSTED.md: what the proofs of the programs and of the library for C take on trust.

    python3 trusted.py > ../docs/TRUSTED.md
    python3 trusted.py --check

The page has four lists. The first is of the functions of C whose contracts the proof of a program
or of the library reaches: `rattle check --list-axioms` lists them. The others are of the files that
no contract binds to the machine, of the functions that are proved by hand, and of the places where
code is `unsafe`: they are read off the files.

`--check` shows where the page is another than what is printed, with status 1. The last line counts:
`N passed, M failed, K left out`.

The three programs and the library are checked over the libraries of crates that `rt ci` left, which
takes a few minutes where they were not checked before. Where it left none, the page can't be made:
that is said, with status 2, or by --check as what is left out.
"""

from __future__ import annotations

import difflib
import importlib.machinery
import importlib.util
import re
import subprocess
import sys
from collections.abc import Iterator
from pathlib import Path

sys.dont_write_bytecode = True

TOP = Path(__file__).resolve().parent.parent
CRATES = TOP / "crates"
PAGE = TOP / "docs" / "TRUSTED.md"
SHIPPED = ("check_descriptors", "protoc_gen_protolink", "protolink", "protolink_c")
"""What is handed to users: three programs, and the library for C."""

DEVICES = {
    "check_descriptors/src/failures.rt": "makes the words of a call that failed",
    "check_descriptors/src/host.rt": "reads files and the standard input, and writes to the two "
    "outputs",
    "check_descriptors/src/main.rt": "reads the arguments, runs the check, and ends with its status",
    "check_descriptors/src/parts.rt": "writes a set beside its file, and renames or removes it",
    "protoc_gen_protolink/src/host.rt": "reads the request and files, and writes to the two outputs",
    "protoc_gen_protolink/src/main.rt": "runs the plugin, and ends with its status",
    "protolink/src/main.rt": "runs the script, and ends with its status",
    "script_devices/src/reader_input.rt": "reads a script from the standard input",
    "script_devices/src/writer_output.rt": "writes a report to the standard output",
}
"""What each file does that no contract binds to the machine."""

MACHINE = re.compile(r"\bHostRuntime\b|\bstd::io::\{?[^;]*\b(Read|Write|Error)\b")
"""What a file names that reads from the machine or writes to it."""

MARK = re.compile(r"^ +(\S+) +reached$", re.MULTILINE)
"""A line of the list of the functions of C that are declared, of one that is reached."""

HEAD = """\
# What is trusted

A proof is worth what it rests on. Those of this repository rest on what this page names, and on nothing else. `tools/trusted.py` prints the page. The gate compares it with what is printed.

- **The toolchain.** Its checker judges the proofs, by its model of what code does. Its compiler makes machine code of what was proved, by LLVM or by a back end of its own. No proof of this repository speaks of either ([which line of the toolchain](../README.md#install-it)).
- **The definitions.** A contract says that a call does what a definition says. Whether that is what protobuf means, people judge who read it. [CONTRACTS.md](inside/CONTRACTS.md) names the definitions of each call.
- **Functions of C.** Rattle's standard library calls them. Each has a contract, which says what the C library or the operating system does. Nothing checks that they do so. They are [listed below](#functions-of-c).
- **Devices.** What a program reads and writes goes through a few files that no contract binds to the machine. They are tested, and [listed below](#devices).
- **Callers in C.** They keep to what [protolink.h](../include/protolink.h) asks of them. That header with its inline functions, [protolink.hpp](../include/protolink.hpp), and the bindings in Rust and Python are tested and not proved ([C.md](C.md#what-is-trusted)).

Nothing else is assumed. `rt ci` refuses a proof with a hole, and an axiom or a function of C that this repository declares.

- [Functions of C](#functions-of-c)
- [Devices](#devices)
- [Proved by hand](#proved-by-hand)
- [Unsafe code](#unsafe-code)
"""

FUNCTIONS = """\
## Functions of C

The standard library declares many more. What is handed to users reaches these {count}. A column for each program, and one for the library for C (`protolink_c`), says which it reaches.
"""

DEVICES_HEAD = """\
## Devices

The contract of a program's `run` speaks of devices: of the words and bytes that these say they read and wrote. No contract of the standard library says which arguments a program has, what a file or a stream holds, or what was written. So nothing proves that these {count} files, of {lines} lines together, hand on what the system gave and write what they are handed. Nor does anything prove it of the calls of `std::env`, `std::fs` and `std::io` that they make. [CONTRACTS.md](inside/CONTRACTS.md#descriptor_check-a-run-of-the-check) says what is proved of the programs all the same. The files are proved as all code is: they are safe, they end, and each function does what its contract says. The stored runs and `tools/test_tools.py` test the rest.

| file | lines | what it does |
|---|---|---|
"""

BY_HAND = """\
## Proved by hand

Of any other function the checker makes the frame of the proof, and the files of `proofs/` answer the goals that are left. Of the functions here people wrote the whole proof. They turn a box into a raw pointer, turn a raw pointer into a box, make a pointer that is null, or copy and follow a pointer by a part of the right to read. The checker judges such a proof as it judges all others. Nothing in it is assumed.
"""

UNSAFE = """\
## Unsafe code

`unsafe` is in these places, and in no other. Each is proved. The exports of the library for C bear the word too, in `#[unsafe(no_mangle)]`, since the name of an export could be another's.
"""


class NotLeft(Exception):
    """What is missing, so that the functions of C can't be told."""


def library():
    """tools/library, as a module."""
    loader = importlib.machinery.SourceFileLoader("library", str(TOP / "tools/library"))
    module = importlib.util.module_from_spec(importlib.util.spec_from_loader("library", loader))
    loader.exec_module(module)
    return module


def reached(crate: str) -> set[str]:
    """The functions of C whose contracts the proof of a program or of the library reaches."""
    tool = library()
    lacking = tool.lack_over_ci(crate)
    if lacking:
        raise NotLeft(lacking)
    (CRATES / crate / "out").mkdir(exist_ok=True)
    words = [*tool.over_ci("check", crate), "--list-axioms"]
    ran = subprocess.run(words, cwd=CRATES / crate, capture_output=True, text=True)
    if ran.returncode != 0:
        sys.exit(f"trusted.py: {crate} is not proved:\n{ran.stdout}{ran.stderr}")
    return set(MARK.findall(ran.stdout + ran.stderr))


def devices() -> dict[str, int]:
    """The files of what is shipped that read from the machine or write to it, with their lines."""
    tool = library()
    known = tool.crates()
    crates = {name for crate in SHIPPED for name in (crate, *tool.below(crate, known))}
    paths = (path for crate in sorted(crates) for path in (CRATES / crate / "src").rglob("*.rt"))
    found = {path: path.read_text() for path in sorted(paths) if path.stem != "tests"}
    return {
        str(path.relative_to(CRATES)): text.count("\n")
        for path, text in found.items()
        if MACHINE.search(text)
    }


def device_rows() -> Iterator[str]:
    """A row for each such file. One that has no words is an error, and so are words of no file."""
    found = devices()
    if found.keys() != DEVICES.keys():
        sys.exit(f"trusted.py: DEVICES is not of these files: {', '.join(found)}")
    for path, lines in found.items():
        yield f"| `crates/{path}` | {lines} | {DEVICES[path]} |"


def by_hand() -> list[str]:
    """The functions that are proved by hand, each as its crate, its modules and its name."""
    ends = (path.parent.relative_to(CRATES).parts for path in CRATES.glob("*/proofs/**/Proof.antt"))
    return sorted("::".join((crate, *rest)) for crate, _, *rest in ends)


def unsafe_places() -> Iterator[str]:
    """Where code is `unsafe` by itself: its file, and its line without what indents it."""
    for path in sorted(CRATES.glob("*/src/**/*.rt")):
        for line in path.read_text().splitlines():
            if re.search(r"\bunsafe\b(?!\()", line.split("//")[0]):
                yield f"`{path.relative_to(TOP)}`: `{line.strip()}`"


def page(calls: dict[str, set[str]]) -> str:
    """The page, by the functions of C that each crate reaches."""
    names = sorted(set().union(*calls.values()))
    rows = [
        " | ".join([f"| `{name}`", *("yes" if name in calls[crate] else "" for crate in calls)])
        + " |"
        for name in names
    ]
    table = [
        " | ".join(["| function", *(f"`{crate}`" for crate in calls)]) + " |",
        "|" + "---|" * (len(calls) + 1),
        *rows,
    ]
    sizes = devices().values()
    lists = (
        (FUNCTIONS.format(count=len(names)), table),
        (DEVICES_HEAD.format(count=len(sizes), lines=sum(sizes)).rstrip("\n"), device_rows()),
        (BY_HAND, [f"- `{name}`" for name in by_hand()]),
        (UNSAFE, [f"- {place}" for place in unsafe_places()]),
    )
    return "\n".join([HEAD, *("\n".join([words, *lines, ""]) for words, lines in lists)])


def differences(printed: str) -> str:
    """Where the stored page is another, or nothing."""
    stored = PAGE.read_text().splitlines() if PAGE.exists() else []
    lines = difflib.unified_diff(stored, printed.splitlines(), "docs/TRUSTED.md", "printed", "", "", 3, "")
    return "\n".join(lines)


def main() -> int:
    """Prints the page or compares it, and answers the exit status."""
    is_check = sys.argv[1:] == ["--check"]
    try:
        printed = page({crate: reached(crate) for crate in SHIPPED})
    except NotLeft as fault:
        if is_check:
            print(f"left out: what docs/TRUSTED.md lists, since {fault}")
            print("0 passed, 0 failed, 1 left out")
            return 0
        print(f"trusted.py: {fault}", file=sys.stderr)
        return 2
    if not is_check:
        sys.stdout.write(printed)
        return 0
    told = differences(printed)
    if told:
        print(told)
    print(f"{int(not told)} passed, {int(bool(told))} failed, 0 left out")
    return 1 if told else 0


if __name__ == "__main__":
    if sys.argv[1:] not in ([], ["--check"]):
        print((__doc__ or "").strip())
        sys.exit(0 if sys.argv[1:] in (["-h"], ["--help"]) else 2)
    sys.exit(main())
