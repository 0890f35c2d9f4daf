#!/usr/bin/env python3
"""Compares the declarations of the library's calls with its exports, name by name and type by type.

    python3 compare_header.py

The exports are those of crates/protolink_c, with the structs that they take. Held to them are
include/protolink.h, the declarations of the Rust crate (bindings/rust/src/ffi.rs) and those of the
Python module (bindings/python/protolink/_library.py). A struct is compared by its members, in
order, with their types; a slice is a pointer and a length.

Of each look-up, an export that takes a `View`, the header has a function for a const pool, or for
two: it takes what the look-up takes, passes it a copy of each such pool, and has its name. Of each
other export that takes a slice it has one too. Both pass no null pointer where a slice begins.

Constants are compared by name and number: the header's with those by which the Rattle code answers
(statuses, kinds of items, types, labels, versions of the language, the version of the library), all
of either; and those of the Rust crate and of the Python module, which may lack some, with both.

Prints each difference on a line, and on a last line how much was compared. Exit status: 0 all is
the same, 1 something differs."""

from __future__ import annotations

import ctypes
import re
import sys
from pathlib import Path
from typing import NamedTuple, Optional

TOP = Path(__file__).resolve().parent.parent
HEADER = TOP / "include/protolink.h"
RUST = TOP / "bindings/rust/src/ffi.rs"
KINDS = TOP / "bindings/rust/src/kinds.rs"
PYTHON = TOP / "bindings/python/protolink/_library.py"


def sources(crate: str) -> list[Path]:
    return sorted((TOP / "crates" / crate / "src").rglob("*.rt"))


def crates_of_exports() -> list[str]:
    """The crate of the calls, and the one that it names whose structs C has too."""
    text = (TOP / "crates.txt").read_text()
    line = re.search(r"^protolink_c staticlib: (.*)$", text, re.MULTILINE)
    named = line[1].split() if line else []
    has_structs = [any("#[repr(C)]" in it.read_text() for it in sources(name)) for name in named]
    return ["protolink_c", *(name for name, found in zip(named, has_structs) if found)]


EXPORTS = (
    *(path for crate in crates_of_exports() for path in sources(crate)),
    TOP / "crates/pool_types/src/kinds.rt",
)
"""The files that have the calls, what they take and give, and the numbers. A `rank` says how values
are ordered, and is no number of them."""

Members = list[tuple[str, str]]
"""The members of a struct: names and types."""


class Call(NamedTuple):
    """A call: the types of its parameters and of its result. A struct stands with its members."""

    parameters: tuple[str, ...]
    result: str


Constants = list[tuple[str, int]]
"""Names and numbers. A name that is told in two places stands twice."""


class Declared(NamedTuple):
    """What one file declares. The look-ups are the exports that take views of pools, each with how
    many it takes; for each the header has a function that takes const pools. Others take slices and change a pool; for each
    the header has a function that takes a null pointer."""

    calls: dict[str, Call]
    constants: Constants
    look_ups: dict[str, int] = {}
    slice_takers: frozenset[str] = frozenset()
    for_const: dict[str, Call] = {}
    for_null: dict[str, Call] = {}


def pointer(inner: str, is_const: bool) -> str:
    return f"const {inner} *" if is_const else f"{inner} *"


def struct(members: Members) -> str:
    """A struct as a type: what counts are its members."""
    return "{" + ", ".join(f"{type_} {name}" for name, type_ in members) + "}"


def matching(pattern: str, text: str) -> list[tuple[str, ...]]:
    return [match.groups("") for match in re.finditer(pattern, text, re.MULTILINE | re.DOTALL)]


def parts(text: str) -> list[str]:
    """What stands between commas and is not empty."""
    return [part.strip() for part in text.split(",") if part.strip()]


# Constants

SAME_NAME = {"OUT_OF_MEMORY": "NO_MEMORY"}
"""Names in Rattle, and in the header."""

PREFIXES = {
    "Kind": "TYPE_",
    "KindIndex": "TYPE_",
    "Level": "LEVEL_",
    "Compatibility": "COMPATIBILITY_",
}
"""What the header sets before the names of an enum."""


def constant(name: str, number: str, enum: str = "") -> tuple[str, int]:
    """A constant as the header names it, of its own name or of a value of an enum."""
    words = re.sub(r"(?<=[a-z])(?=[A-Z])", "_", name).upper()
    whole = f"PROTOLINK_{PREFIXES.get(enum, '')}{SAME_NAME.get(words, words)}"
    return whole, 2**32 - 1 if number.endswith("::MAX") else int(number)


def plain_constants(text: str) -> Constants:
    """The constants of a text in Rust or in Rattle."""
    found = matching(r"const (\w+): u(?:8|32) = (\d+|u32::MAX);", text)
    return [constant(name, number) for name, number in found]


# C

C_TYPES = {
    "uint8_t": "u8",
    "uint32_t": "u32",
    "uint64_t": "u64",
    "int32_t": "i32",
    "size_t": "usize",
    "void": "void",
    "protolink_status": "u8",
}


POOL = "protolink_pool"

INLINE = (
    r"^static inline (\w+) (protolink_\w+)_(const|or_null)\(([^)]*)\)\n\{\n(.*?)^\}\n"
    r"#define \2 \2_\3$"
)
"""A function of the header for a const pool or for null pointers, and that it stands in for its
call."""

UNLESS_ITSELF = {
    "protolink_pool_clone": "if (copy->at == pool->at) return PROTOLINK_DONE;",
}
"""What such a function does before it passes the copy on: a pool isn't copied onto itself."""

NOT_NULL = (
    r"^static inline ((?:const )?\w+) \*(protolink_\w+)\(\1 \*at\)\n\{\n"
    r"    static \1 none = 0;\n    return at != NULL \? at : &none;\n\}$"
)
"""A function of the header that gives a pointer again, or another one where it is null."""


def as_passed(declared: list[tuple[str, str]], not_null: dict[str, str]) -> list[str]:
    """What a function passes on of its parameters: a pointer with a length is made one that isn't
    null."""
    following = [type_ for _, type_ in declared[1:]] + [""]
    return [
        f"{not_null[type_]}({name})" if type_ in not_null and behind == "usize" else name
        for (name, type_), behind in zip(declared, following)
    ]


def body(name: str, passed: list[str], result: str, const_pools: list[str]) -> str:
    """The body of such a function: it passes a copy of each const pool, and all else."""
    answer = "" if result == "void" else "return "
    before = UNLESS_ITSELF.get(name, "")
    copies = [("view" if pool == passed[0] else f"{pool}_view", pool) for pool in const_pools]
    if copies:
        made = ", ".join(f"{copy} = *{pool}" for copy, pool in copies)
        before += f" protolink_pool {made};"
    views = [f"&{copy}" for copy, _ in copies]
    return f"{before} {answer}{name}({', '.join([*views, *passed[len(views):]])});"


def words(text: str) -> list[str]:
    """The words of a text in C, however its lines are laid out."""
    return re.sub(r"\(\s+", "(", text).split()


def header() -> Declared:
    """What the header declares."""
    text = re.sub(r"/\*.*?\*/", "", HEADER.read_text(), flags=re.DOTALL)
    types = dict(C_TYPES)

    def declaration(words: str) -> tuple[str, str]:
        found = re.fullmatch(r"(const )?(\w+) (\*?)(\w+)", " ".join(words.split()))
        if found is None:
            raise ValueError(f"{HEADER}: {words}")
        plain = types[found[2]]
        return found[4], pointer(plain, bool(found[1])) if found[3] else plain

    for name, inner, _ in matching(r"typedef struct (\w+) \{(.*?)\} (\w+);", text):
        types[name] = struct([declaration(member) for member in inner.split(";") if member.strip()])
    def call(result: str, inner: str) -> Call:
        listed = [] if inner.strip() == "void" else parts(inner)
        return Call(tuple(declaration(part)[1] for part in listed), types[result])

    calls = {
        name: call(result, inner)
        for result, name, inner in matching(r"^(\w+) (protolink_\w+)\(([^)]*)\);", text)
    }
    not_null = {
        pointer(types[said.split()[-1]], said.startswith("const ")): name
        for said, name in matching(NOT_NULL, text)
    }
    inlined: dict[str, dict[str, Call]] = {"const": {}, "or_null": {}}
    for result, name, suffix, inner, said in matching(INLINE, text):
        declared = [declaration(part) for part in parts(inner)]
        pools = [part for part, type_ in declared if type_ == pointer(types[POOL], True)]
        if words(said) == words(body(name, as_passed(declared, not_null), result, pools)):
            inlined[suffix][name] = call(result, inner)
    constants = matching(r"PROTOLINK_(\w+)(?: =|(?<=VERSION)) (\d+)", text)
    constants += matching(r"PROTOLINK_(\w+) UINT32(_MAX)", text)
    constants = [constant(name, said.replace("_", "::")) for name, said in constants]
    return Declared(calls, constants, for_const=inlined["const"], for_null=inlined["or_null"])


# Rust

RUST_TYPES = {name: name for name in ("u8", "u32", "u64", "i32", "usize")} | {"c_void": "void"}


def rust() -> Declared:
    """What the Rust crate declares."""
    text = re.sub(r"//.*", "", RUST.read_text())
    types = dict(RUST_TYPES)

    def declaration(words: str) -> tuple[str, str]:
        found = re.fullmatch(r"(?:pub )?(\w+): (?:\*(const|mut) )?(\w+)", " ".join(words.split()))
        if found is None:
            raise ValueError(f"{RUST}: {words}")
        plain = types[found[3]]
        return found[1], pointer(plain, found[2] == "const") if found[2] else plain

    for name, inner in matching(r"#\[repr\(C\)\][^{]*?pub struct (\w+) \{(.*?)\}", text):
        types[name] = struct([declaration(member) for member in parts(inner)])
    calls = {}
    for name, inner, result in matching(r"pub fn (protolink_\w+)\((.*?)\)(?: -> (\w+))?;", text):
        parameters = tuple(declaration(part)[1] for part in parts(inner))
        calls[name] = Call(parameters, types[result] if result else "void")
    constants = plain_constants(text)
    front = KINDS.read_text()
    arms = matching(r"(\d+) => (Kind|Cardinality|Syntax)::(\w+)", front)
    constants += [constant(name, number, enum) for number, enum, name in arms]
    named = matching(r"const (\w+): u32 = (\d+);", front)
    constants += [constant(name, number, "Kind") for name, number in named]
    return Declared(calls, constants)


# Rattle

RATTLE_TYPES = {name: name for name in ("u8", "u32", "u64", "i32", "usize")} | {"()": "void"}


def exports() -> Declared:
    """What the library exports."""
    text = "\n".join(re.sub(r"//.*", "", path.read_text()) for path in EXPORTS)
    text = re.sub(r"fn rank\(self\).*?^    \}", "", text, flags=re.DOTALL | re.MULTILINE)
    types = dict(RATTLE_TYPES)

    def plain(words: str) -> str:
        found = re.fullmatch(r"\*(const|mut) (.+)", words)
        return pointer(types[found[2]], found[1] == "const") if found else types[words]

    def passed(words: str) -> list[str]:
        """The types that a parameter is passed as: none, one, or a pointer and a length."""
        if words == "Global":
            return []
        found = re.fullmatch(r"&(mut )?(?:\[(\w+)\]|(\w+))", words)
        if found is None:
            return [plain(words)]
        at = pointer(types[found[2] or found[3]], not found[1])
        return [at, "usize"] if found[2] else [at]

    for name, inner in matching(r"#\[repr\(C\)\][^{]*?pub struct (\w+) \{(.*?)^\}", text):
        members = matching(r"^ *(?:pub )?(\w+): ([^,]+),", re.sub(r"pub ghost .*", "", inner))
        types[name] = struct([(member, plain(type_)) for member, type_ in members])
    calls, look_ups, slice_takers = {}, {}, set()
    pattern = r'#\[unsafe\(no_mangle\)\]\s*pub extern "C" fn (\w+)\((.*?)\)(?: -> (\w+))?\s'
    for name, inner, result in matching(pattern, text):
        said = [part.split(": ", 1)[1] for part in parts(inner)]
        if "&mut View" in said:
            look_ups[name] = said.count("&mut View")
        elif any("[" in words for words in said):
            slice_takers.add(name)
        parameters = tuple(type_ for words in said for type_ in passed(words))
        calls[name] = Call(parameters, types[result] if result else "void")
    constants = plain_constants(text)
    arms = matching(r"\b([A-Z]\w+)::(\w+)(?:\(\w+\))? => \(?(\d+)\b", text)
    constants += [constant(name, number, enum) for enum, name, number in arms]
    for listed, enum, prefix in (
        ("kinds", "DefinitionKind", ""),
        ("levels", "Level", "Level"),
        ("compatibilities", "Compatibility", "Compatibility"),
    ):
        (said,) = matching(rf"let {listed} = \[(.*?)\];", text)
        named = re.findall(rf"\b{enum}::(\w+)", said[0])
        constants += [constant(name, str(number), prefix) for number, name in enumerate(named)]
    return Declared(calls, constants, look_ups, frozenset(slice_takers))


# Python

PYTHON_TYPES = {
    ctypes.c_uint8: "u8",
    ctypes.c_uint32: "u32",
    ctypes.c_size_t: "usize",
    ctypes.c_int32: "i32",
    ctypes.c_void_p: "void *",
    ctypes.c_char_p: "u8 *",
}


def python() -> Declared:
    """What the Python module declares. ctypes cannot say that what a pointer leads to is constant,
    nor tell a size from a u64."""
    front = PYTHON.read_text().split("\n_lib = ")[0]
    names: dict = {"__name__": "protolink._library", "__file__": str(PYTHON)}
    sys.modules.setdefault(names["__name__"], type(sys)(names["__name__"]))
    exec(compile(front, str(PYTHON), "exec"), names)  # pylint: disable=exec-used

    def type_of(said: Optional[type]) -> str:
        if said is None:
            return "void"
        if said in PYTHON_TYPES:
            return PYTHON_TYPES[said]
        if issubclass(said, ctypes.Structure):
            return struct([(name, type_of(member)) for name, member in said._fields_])
        return pointer(type_of(said._type_), False)

    (statuses,) = re.findall(r"^([A-Z_]+(?:, [A-Z_]+)+) = range", front, re.MULTILINE)
    statuses = statuses.split(", ")
    return Declared(
        {
            name: Call(tuple(map(type_of, parameters)), type_of(result))
            for name, (result, parameters) in names["_CALLS"].items()
        },
        [constant(name, str(names[name])) for name in statuses]
        + [constant(name, str(number)) for number, name in enumerate(names["KINDS"])]
        + [constant(name, str(number), "Kind") for number, name in enumerate(names["TYPES"], 1)]
        + [constant(name, str(number)) for number, name in enumerate(names["LABELS"], 1)]
        + [constant(name, str(number), "Level") for number, name in enumerate(names["LEVELS"])]
        + [
            constant(name, str(number), "Compatibility")
            for number, name in enumerate(names["COMPATIBILITIES"])
        ],
    )


def as_ctypes(exported: Declared) -> Declared:
    """What is exported, as ctypes tells it: nothing is constant, and a size is a u64."""

    def told(type_: str) -> str:
        return re.sub(r"\bu64\b", "usize", type_.replace("const ", ""))

    return exported._replace(
        calls={
            name: Call(tuple(map(told, call.parameters)), told(call.result))
            for name, call in exported.calls.items()
        }
    )


def differences(where: str, declared: Declared, wanted: Declared) -> list[str]:
    """What is declared otherwise than it is exported."""
    found = []
    for name in sorted(declared.calls.keys() | wanted.calls.keys()):
        said, exported = declared.calls.get(name), wanted.calls.get(name)
        if exported is None:
            found.append(f"{where}: {name} is not exported")
        elif said is None:
            found.append(f"{where}: {name} is missing")
        elif said != exported:
            found.append(f"{where}: {name} is {said}, and exported as {exported}")
    return found


def const_differences(in_c: Declared, exported: Declared) -> list[str]:
    """What calls lack their function for a const pool or for null pointers, and what has one
    otherwise."""
    found = []
    for said, called, suffix in (
        (in_c.for_const, exported.look_ups, "const"),
        (in_c.for_null, dict.fromkeys(exported.slice_takers, 0), "or_null"),
    ):
        for name in sorted(said.keys() | called.keys()):
            export = exported.calls.get(name, Call((), ""))
            pools = called.get(name, 0)
            consts = (f"const {type_}" for type_ in export.parameters[:pools])
            wanted = export._replace(parameters=(*consts, *export.parameters[pools:]))
            if name not in said:
                found.append(f"{HEADER.name}: {name} has no function {name}_{suffix}")
            elif name not in called or said[name] != wanted:
                found.append(f"{HEADER.name}: {name}_{suffix} is {said[name]}, and for {wanted}")
    return found


def constant_differences(where: str, constants: Constants, wanted: Constants) -> list[str]:
    """What constants are not those of the header."""
    known = dict(wanted)
    return [
        f"{where}: {name} is {number}, and {known.get(name, 'missing')} in the header"
        for name, number in constants
        if known.get(name) != number
    ]


def lost_constants(constants: Constants, wanted: Constants) -> list[str]:
    """What constants of the header the Rattle code lacks."""
    lost = dict(wanted).keys() - dict(constants).keys()
    return [f"{HEADER.name}: {name} is no number of the library" for name in sorted(lost)]


def all_differences() -> list[str]:
    """What is declared otherwise than it is exported, in any of the three."""
    exported, in_c, in_rust, in_python = exports(), header(), rust(), python()
    found = differences(HEADER.name, in_c, exported)
    found += const_differences(in_c, exported)
    found += differences(RUST.name, in_rust, exported)
    found += differences(PYTHON.name, in_python, as_ctypes(exported))
    found += lost_constants(exported.constants, in_c.constants)
    for where, declared in (
        ("the library", exported),
        (RUST.parent.name, in_rust),
        (PYTHON.name, in_python),
    ):
        found += constant_differences(where, declared.constants, in_c.constants)
    return found


def main() -> int:
    """Tells what differs, and answers the exit status."""
    found = all_differences()
    for line in found:
        print(line)
    told = header()
    counts = f"{len(told.calls)} calls, {len(told.for_const)} of them for a const pool"
    counts += f", {len(told.for_null)} more for null pointers"
    print(f"{counts}, {len(told.constants)} constants, {len(found)} differ")
    return 1 if found else 0


if __name__ == "__main__":
    if len(sys.argv) > 1:
        print((__doc__ or "").strip())
        sys.exit(0 if sys.argv[1:] in (["-h"], ["--help"]) else 2)
    sys.exit(main())
