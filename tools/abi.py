#!/usr/bin/env python3
"""The name of the shared library, and the binary interface that it names: how large the
header's structs are, and what its calls take and give.

    python3 abi.py           shows how the header differs from what is stored of the name
    python3 abi.py write     stores it in abi.txt

A program that was built for a name must run with each later library of it. So where a struct or a
call that was released is another one, SONAME changes, and then abi.txt is written. Where something
is new, or was not released yet, abi.txt is written alone. Exit status: 0 where nothing differs.
"""

from __future__ import annotations

import re
import sys
from collections.abc import Iterator
from pathlib import Path

sys.dont_write_bytecode = True

TOP = Path(__file__).resolve().parent.parent
HEADER = TOP / "include/protolink.h"
STORED = TOP / "tools/abi.txt"

SONAME = "libprotolink.so.0.3"
"""The name has the version that changed the interface last."""

SIZES = {"uint8_t": 1, "uint32_t": 4, "int32_t": 4, "uint64_t": 8, "size_t": 8}
"""How many bytes a plain type has, which is also what its place is a multiple of."""

POINTER = 8


def size(members: str) -> int:
    """How many bytes a struct has."""
    whole, widest = 0, 1
    for member in filter(None, map(str.strip, members.split(";"))):
        one = POINTER if "*" in member else SIZES[member.split()[0]]
        whole, widest = -(-whole // one) * one + one, max(widest, one)
    return -(-whole // widest) * widest


def header() -> str:
    """The header without its comments."""
    return re.sub(r"/\*.*?\*/", "", HEADER.read_text(), flags=re.DOTALL)


def sizes() -> dict[str, int]:
    """How many bytes each struct of the header has."""
    found = re.findall(r"^typedef struct \w+ \{(.*?)\} (\w+);", header(), re.DOTALL | re.MULTILINE)
    return {name: size(members) for members, name in found}


def calls() -> Iterator[str]:
    """Each call with the types of what it takes and gives."""
    for result, name, inner in re.findall(r"^(\w+) (protolink_\w+)\(([^)]*)\);", header(), re.M):
        types = (re.sub(r"\w+$", "", " ".join(part.split())).strip() for part in inner.split(","))
        yield f"{result} {name}({inner if inner == 'void' else ', '.join(types)})"


def lines() -> list[str]:
    """What abi.txt has."""
    structs = (f"struct {name}, {count} bytes" for name, count in sizes().items())
    return [SONAME, *sorted(structs), *sorted(calls())]


def differences() -> Iterator[str]:
    """How the header differs from what is stored, a line each."""
    stored, now = STORED.read_text().splitlines(), lines()
    yield from (f"stored, and not so in the header: {line}" for line in stored if line not in now)
    yield from (f"in the header, and not stored: {line}" for line in now if line not in stored)


def main() -> int:
    if sys.argv[1:] == ["write"]:
        STORED.write_text("".join(f"{line}\n" for line in lines()))
    elif sys.argv[1:]:
        sys.exit((__doc__ or "").strip())
    told = list(differences())
    print("\n".join(told) if told else f"the header is that of {SONAME}")
    return 1 if told else 0


if __name__ == "__main__":
    sys.exit(main())
