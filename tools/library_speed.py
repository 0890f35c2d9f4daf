#!/usr/bin/env python3
"""Counts what the library takes from bytes to a pool and back, and what its peers take over the same
bytes, and prints the tables of docs/SPEED.md.

    python3 library_speed.py                       over dist/lib/libprotolink.a
    python3 library_speed.py ARCHIVE
    python3 library_speed.py --peers [--upb FOLDER]
    python3 library_speed.py --set "googleapis' files" googleapis.pb

Counted are instructions, by valgrind's callgrind, each of one call: `protolink_pool_add_set`, which
links a set; `protolink_pool_linked`, which writes the linked set; `protolink_pool_changes`, which
compares the pool with itself; and `protolink_pool_clear`, which frees it.

With --peers the table is that of the peers: protobuf's own pool in C++, which parses the same set and
takes each of its files by `DescriptorPool::BuildFile`; and, with --upb, upb, which does so by
`upb_DefPool_AddFile`. FOLDER is the unpacked source package of Debian (`apt-get source protobuf`).

Each --set adds a row, by its name and its file (googleapis.py makes one). The peers want each file of
a set after what it imports.

Needed are valgrind, g++, and protoc with protobuf's own files; with --peers gcc, pkg-config, and on
Debian libprotobuf-dev. Exit status: 0, or 2 where nothing could be counted.
"""

from __future__ import annotations

import argparse
import re
import subprocess
import sys
import tempfile
from collections.abc import Iterator, Sequence
from itertools import chain
from pathlib import Path
from typing import Optional

TOP = Path(__file__).resolve().parent.parent
ARCHIVE = TOP / "dist/lib/libprotolink.a"

WELL_KNOWN = (
    *("any", "api", "descriptor", "duration", "empty", "field_mask", "source_context", "struct"),
    *("timestamp", "type", "wrappers", "compiler/plugin"),
)

CALLS = ("add_set", "linked", "changes", "clear")
"""The calls that are counted, without what the names of all calls begin with."""

PROGRAM = r"""
#include <protolink.h>
#include <fstream>
#include <iterator>
#include <vector>

int main(int, char **argv)
{
    std::ifstream input(argv[1], std::ios::binary);
    const std::vector<char> set{std::istreambuf_iterator<char>(input), {}};
    std::vector<uint8_t> out(4 * set.size() + 65536);
    size_t length = 0;
    protolink_pool pool = PROTOLINK_POOL_EMPTY;
    const uint8_t *bytes = reinterpret_cast<const uint8_t *>(set.data());
    if (protolink_pool_add_set(&pool, bytes, set.size()) != PROTOLINK_DONE)
        return 1;
    if (protolink_pool_linked(&pool, out.data(), out.size(), &length) != PROTOLINK_DONE)
        return 1;
    const uint32_t level = PROTOLINK_LEVEL_WIRE, backward = PROTOLINK_COMPATIBILITY_BACKWARD;
    if (protolink_pool_changes(&pool, &pool, level, backward, out.data(), out.size(), &length)
        != PROTOLINK_DONE)
        return 1;
    protolink_pool_clear(&pool);
    return 0;
}
"""

PROTOBUF = r"""
#include <google/protobuf/descriptor.h>
#include <google/protobuf/descriptor.pb.h>
#include <fstream>
#include <iterator>
#include <string>

extern "C" __attribute__((noinline)) int add_to_protobuf(
    google::protobuf::DescriptorPool *pool, const std::string *bytes)
{
    google::protobuf::FileDescriptorSet set;
    if (!set.ParseFromString(*bytes))
        return 0;
    for (const auto &file : set.file())
        if (pool->BuildFile(file) == nullptr)
            return 0;
    return 1;
}

int main(int, char **argv)
{
    std::ifstream input(argv[1], std::ios::binary);
    const std::string bytes{std::istreambuf_iterator<char>(input), {}};
    google::protobuf::DescriptorPool pool;
    return add_to_protobuf(&pool, &bytes) ? 0 : 1;
}
"""

UPB = r"""
#include "ruby-upb.h"
#include <stdio.h>
#include <stdlib.h>

__attribute__((noinline)) int add_to_upb(upb_DefPool *pool, const char *bytes, size_t len)
{
    upb_Arena *arena = upb_Arena_New();
    size_t count = 0;
    google_protobuf_FileDescriptorSet *set =
        google_protobuf_FileDescriptorSet_parse(bytes, len, arena);
    if (set == NULL)
        return 0;
    const google_protobuf_FileDescriptorProto *const *files =
        google_protobuf_FileDescriptorSet_file(set, &count);
    for (size_t at = 0; at < count; at++) {
        upb_Status status;
        upb_Status_Clear(&status);
        if (upb_DefPool_AddFile(pool, files[at], &status) == NULL)
            return 0;
    }
    return 1;
}

int main(int argc, char **argv)
{
    FILE *input = argc > 1 ? fopen(argv[1], "rb") : NULL;
    if (input == NULL || fseek(input, 0, SEEK_END) != 0)
        return 2;
    size_t len = (size_t)ftell(input);
    char *bytes = malloc(len + 1);
    rewind(input);
    if (bytes == NULL || fread(bytes, 1, len, input) != len)
        return 2;
    return add_to_upb(upb_DefPool_New(), bytes, len) ? 0 : 1;
}
"""


class ToolError(Exception):
    """What keeps the tool from counting."""


def must(words: list[str]) -> str:
    """Runs a command, and answers all that it writes."""
    try:
        said = subprocess.run(
            words, stdout=subprocess.PIPE, stderr=subprocess.STDOUT, text=True, check=False
        )
    except OSError as fault:
        raise ToolError(f"{words[0]}: {fault.strerror}") from fault
    if said.returncode:
        raise ToolError(f"{' '.join(words)}:\n{said.stdout}")
    return said.stdout


# Sets as bytes: a field is its tag and its value


def varint(number: int) -> bytes:
    out = bytearray()
    while number > 0x7F:
        out.append(number & 0x7F | 0x80)
        number >>= 7
    out.append(number)
    return bytes(out)


def run_of(number: int, value: bytes | str) -> bytes:
    value = value.encode() if isinstance(value, str) else value
    return varint(number << 3 | 2) + varint(len(value)) + value


def count(number: int, value: int) -> bytes:
    return varint(number << 3) + varint(value)


def field(name: str, number: int, type_: int, type_name: str = "") -> bytes:
    named = run_of(6, type_name) if type_name else b""
    parts = run_of(1, name) + count(3, number) + count(4, 1) + count(5, type_)
    return parts + named + run_of(10, name)


def message(name: str, fields: Iterator[bytes]) -> bytes:
    return run_of(1, name) + b"".join(run_of(2, field) for field in fields)


def small_files(files: int) -> bytes:
    """Files, each with a package, a message and a field that names the message."""
    out = b""
    for n in range(files):
        inner = message("M", iter([field("f", 1, 11, f".p{n}.M")]))
        out += run_of(1, run_of(1, f"f{n}.proto") + run_of(2, f"p{n}") + run_of(4, inner))
    return out


def service_files(files: int) -> bytes:
    """Files, each of which imports the one before: four messages of eight fields, an enum of eight
    values, and a service of four methods, in proto3."""
    out = b""
    for n in range(files):
        scope = f"company.team{n % 40}.service{n}.v1"
        before = f".company.team{(n - 1) % 40}.service{n - 1}.v1.State" if n else f".{scope}.State"
        body = run_of(1, f"company/service{n}.proto") + run_of(2, scope)
        body += run_of(3, f"company/service{n - 1}.proto") if n else b""
        for m in range(4):
            fields = [field(f"plain_{k}", k + 1, (5, 9, 3, 8, 12, 1)[k]) for k in range(6)]
            fields.append(field("next", 7, 11, f".{scope}.Message{(m + 1) % 4}"))
            fields.append(field("state", 8, 14, before))
            body += run_of(4, message(f"Message{m}", iter(fields)))
        values = (run_of(2, run_of(1, f"STATE_{k}") + count(2, k)) for k in range(8))
        body += run_of(5, run_of(1, "State") + b"".join(values))
        methods = (
            run_of(2, run_of(1, f"Call{k}") + run_of(2, f".{scope}.Message{k}")
                   + run_of(3, f".{scope}.Message{(k + 1) % 4}"))
            for k in range(4)
        )
        body += run_of(6, run_of(1, "Service") + b"".join(methods)) + run_of(12, "proto3")
        out += run_of(1, body)
    return out


def own_files(room: Path, *flags: str) -> bytes:
    """protobuf's own files."""
    to = room / "own.pb"
    names = [f"google/protobuf/{name}.proto" for name in WELL_KNOWN]
    must(["protoc", "-I/usr/include", "--include_imports", *flags, "-o", str(to), *names])
    return to.read_bytes()


Row = tuple[str, bytes]
"""What a row is called, and its set."""


def rows(room: Path) -> Iterator[Row]:
    yield "protobuf's twelve files", own_files(room)
    yield "the same, with their places in the source", own_files(room, "--include_source_info")
    yield (
        "2,000 files, each with a package, a message and a field that names it",
        small_files(2000),
    )
    yield (
        "2,000 files of a service, each with 4 messages, 32 fields, an enum and an import",
        service_files(2000),
    )


def collected(said: str) -> float:
    """The millions of instructions that callgrind says it counted."""
    found = re.search(r"Collected : (\d+)", said)
    if not found or found[1] == "0":
        raise ToolError("callgrind counted nothing")
    return int(found[1]) / 1e6


def instructions(program: Path, counted: str, set_: Path) -> float:
    """The millions of instructions of a function in a run over a set."""
    said = must([
        *("valgrind", "--tool=callgrind", "--callgrind-out-file=/dev/null"),
        *(f"--toggle-collect={counted}", str(program), str(set_)),
    ])
    return collected(said)


def built(source: Path, text: str, *words: str) -> Path:
    """The program of a source with a text, which is written first: the words are a compiler and its
    flags."""
    source.write_text(text)
    program = source.with_suffix("")
    must([words[0], str(source), *words[1:], "-o", str(program)])
    return program


def made(archive: Path, room: Path) -> Path:
    """The program that makes the calls of the library, built in a folder."""
    flags = ("-std=c++17", "-O2", f"-I{TOP}/include", str(archive))
    return built(room / "speed.cc", PROGRAM, "g++", *flags)


def made_of_protobuf(room: Path) -> Path:
    """The program that makes a pool of protobuf's in C++."""
    flags = must(["pkg-config", "--cflags", "--libs", "protobuf"]).split()
    return built(room / "protobuf.cc", PROTOBUF, "g++", "-std=c++17", "-O2", *flags)


def made_of_upb(sources: Path, room: Path) -> Path:
    """The program that makes a pool of upb's, of protobuf's sources."""
    own, utf8 = sources / "ruby/ext/google/protobuf_c", sources / "third_party/utf8_range"
    parts = (own / "ruby-upb.c", utf8 / "naive.c", utf8 / "range2-sse.c")
    folders = (f"-I{sources}", f"-I{own}", f"-I{utf8}")
    flags = ("-O3", "-DNDEBUG", "-w", *folders, *map(str, parts), "-lm")
    return built(room / "upb.c", UPB, "gcc", *flags)


def head(*columns: str) -> str:
    """The first lines of a table."""
    return f"| {' | '.join(columns)} |\n|{'---|' * len(columns)}"


def own_head(calls: tuple[str, ...] = CALLS) -> str:
    """Those of the table of some calls of the library."""
    return head("set", "kB", *(f"`{call}`" for call in calls))


def own_rows(
    archive: Path,
    calls: tuple[str, ...] = CALLS,
    sets: Optional[tuple[str, ...]] = None,
    others: Sequence[Row] = (),
) -> Iterator[str]:
    """What each of some calls takes over some sets, or over all, and then over others."""
    with tempfile.TemporaryDirectory() as name:
        room = Path(name)
        program, set_ = made(archive, room), room / "set.pb"
        for row, data in chain(rows(room), others):
            if sets is not None and row not in sets:
                continue
            set_.write_bytes(data)
            counts = (instructions(program, f"protolink_pool_{call}", set_) for call in calls)
            cells = " | ".join(f"{count:,.2f}" for count in counts)
            yield f"| {row} | {len(data) / 1000:,.0f} | {cells} |"


def tell(archive: Path, others: Sequence[Row]) -> None:
    """Prints the table of the library, with rows of other sets."""
    print(own_head())
    for row in own_rows(archive, others=others):
        print(row, flush=True)


def tell_peers(upb: Optional[Path], others: Sequence[Row]) -> None:
    """Prints the table of the peers, with rows of other sets."""
    with tempfile.TemporaryDirectory() as name:
        room = Path(name)
        set_ = room / "set.pb"
        peers = {"add_to_protobuf": made_of_protobuf(room)}
        if upb is not None:
            peers["add_to_upb"] = made_of_upb(upb, room)
        print(head("set", "protobuf's pool in C++", *(["upb"] if upb else [])))
        for row, data in chain(rows(room), others):
            set_.write_bytes(data)
            counts = (instructions(program, call, set_) for call, program in peers.items())
            print(f"| {row} | {' | '.join(f'{count:,.2f}' for count in counts)} |", flush=True)


def main() -> int:
    parser = argparse.ArgumentParser(
        description=__doc__, formatter_class=argparse.RawDescriptionHelpFormatter
    )
    parser.add_argument("archive", nargs="?", type=Path, default=ARCHIVE, help="the built library")
    parser.add_argument("--peers", action="store_true", help="count the peers")
    parser.add_argument("--upb", type=Path, metavar="FOLDER", help="protobuf's sources, with upb")
    parser.add_argument(
        "--set", nargs=2, action="append", default=[], metavar=("NAME", "SET.pb"), dest="sets",
        help="one more row",
    )
    options = parser.parse_args()
    try:
        others = [(name, Path(path).read_bytes()) for name, path in options.sets]
        if options.peers or options.upb:
            tell_peers(options.upb, others)
        else:
            tell(options.archive, others)
    except (ToolError, OSError) as fault:
        print(f"library_speed.py: {fault}", file=sys.stderr)
        return 2
    return 0


if __name__ == "__main__":
    sys.exit(main())
