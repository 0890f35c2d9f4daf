"""The quick test, `tools/check --quick`: the tests without the proofs."""

from __future__ import annotations

import difflib
import os
import re
import shutil
import subprocess
import tempfile
import time
from collections.abc import Callable
from concurrent.futures import Future, ThreadPoolExecutor, as_completed
from pathlib import Path
from typing import NamedTuple

import counts
import needs
import programs
import unproved
from counts import FAILED, NONE, Count

OF_TOOLS = ("check_descriptors", "protolink", "protoc_gen_protolink")
"""The programs that the tests of the tools run."""

PROGRAMS = (*OF_TOOLS, "test_trials", "test_rows", "example_pool")
"""All programs of crates/."""

TEST = re.compile(r"^\s*#\[test\]", re.MULTILINE)
RESULT = re.compile(r"test result: .*?(\d+) passed; (\d+) failed")
"""What `rt try --test` counts."""

MOST_SECONDS = 120
"""How long a program may take for what is stored beside it."""

MOST_LINES, MOST_COLUMNS = 20, 300
"""How much is shown of what differs."""


class Part(NamedTuple):
    """A part of the quick test: what it is, what counts it, and the programs that it runs."""

    what: str
    count: Callable[[], Count]
    programs: tuple[str, ...] = ()


def crates_with_tests() -> list[str]:
    """The crates that have tests."""
    files = sorted(programs.CRATES.glob("*/src/**/*.rt"))
    found = (path for path in files if TEST.search(path.read_text()))
    return sorted({path.relative_to(programs.CRATES).parts[0] for path in found})


def crate_tests(crate: str) -> Count:
    """The tests of a crate, which `rt try` compiles and runs."""
    status, lines = counts.run(["rt", "try", "--test"], folder=programs.CRATES / crate)
    found = [result for result in map(RESULT.search, lines) if result]
    count = sum((Count(*map(int, result.groups())) for result in found), NONE)
    return count + FAILED if count == NONE or (status and not count.failed) else count


def stored(name: str, file: str) -> bytes:
    """A file beside a program's code, or nothing."""
    path = programs.CRATES / name / file
    return path.read_bytes() if path.is_file() else b""


def stored_run(name: str) -> Count:
    """A program on what is stored beside it, as `rt ci` runs it."""
    words = [str(programs.path(name)), *stored(name, "args").decode().splitlines()]
    with tempfile.TemporaryDirectory() as room:
        data, own = Path(room) / "data", programs.CRATES / name / "data"
        if own.is_dir():
            shutil.copytree(own, data)
        data.mkdir(exist_ok=True)
        how = {"input": stored(name, "stdin"), "capture_output": True, "timeout": MOST_SECONDS}
        try:
            done = subprocess.run(words, cwd=data, check=False, **how)
        except (OSError, subprocess.TimeoutExpired) as fault:
            counts.tell(f"{name}: {fault}")
            return FAILED
    return count_of_run(name, done)


def count_of_run(name: str, done: subprocess.CompletedProcess[bytes]) -> Count:
    """What a run of a program counts beside what is stored: one, or a line of each row."""
    wanted, told = lines_of(stored(name, "stdout")), lines_of(done.stdout)
    status = int(stored(name, "status") or 0)
    rows = [line for line in wanted if line.startswith("ok ")] if name == "test_rows" else [name]
    if (told, done.returncode) == (wanted, status):
        return Count(len(rows), 0)
    differing = difflib.unified_diff(wanted, told, "stored", "written", n=0, lineterm="")
    for line in [*list(differing)[:MOST_LINES], *lines_of(done.stderr)[:MOST_LINES]]:
        counts.tell(f"  {line[:MOST_COLUMNS]}")
    counts.tell(f"{name} ended with status {done.returncode}, and {status} is stored")
    lost = max(len(set(rows) - set(told)), 1)
    return Count(len(rows) - lost, lost)


def lines_of(data: bytes) -> list[str]:
    return data.decode(errors="backslashreplace").split("\n")


def own_parts() -> tuple[Part, ...]:
    """The stored run of each program, and the tests of each crate."""
    runs = [
        Part(f"the stored run of {name}", lambda name=name: stored_run(name), (name,))
        for name in PROGRAMS
    ]
    tests = [
        Part(f"the tests of {crate}", lambda crate=crate: crate_tests(crate))
        for crate in crates_with_tests()
    ]
    return (*runs, *tests)


class Done(NamedTuple):
    """What came of a part, and what it wrote."""

    count: Count
    lines: list[str]


def compiled(name: str) -> Done:
    """A program, compiled without a proof."""
    began = time.monotonic()
    with counts.held() as lines:
        try:
            unproved.keep(name)
        except (unproved.Unproved, OSError) as fault:
            counts.tell(f"{name} is not compiled: {fault}")
            return Done(FAILED, lines)
        counts.tell(f"tools/check: {name} is compiled: {time.monotonic() - began:.0f} s")
        return Done(NONE, lines)


def done(part: Part, made: dict[str, Future[Done]]) -> Done:
    """A part, once its programs are there."""
    lacking = [name for name in part.programs if made[name].result().count.failed]
    began = time.monotonic()
    with counts.held() as lines:
        if lacking:
            return Done(counts.left_out(part.what, f"{lacking[0]} is not compiled"), lines)
        count = part.count()
        seconds = f"{time.monotonic() - began:.0f} s"
        counts.tell(f"tools/check: {part.what}: {count}: {seconds}")
        return Done(count, lines)


def side_by_side(parts: tuple[Part, ...]) -> Count:
    """Compiles all programs, and does the parts, as many at once as there are processors."""
    count = NONE
    with ThreadPoolExecutor(len(os.sched_getaffinity(0))) as lanes:
        made = {name: lanes.submit(compiled, name) for name in PROGRAMS}
        began = [lanes.submit(done, part, made) for part in parts]
        for ended in as_completed([*made.values(), *began]):
            count += ended.result().count
            for line in ended.result().lines:
                counts.tell(line)
    return count


def whole(parts: tuple[Part, ...]) -> Count:
    """The quick test, with further parts, which run the programs by programs.path."""
    if shutil.which("rt") is None or needs.toolchain() is None:
        return counts.left_out("the quick test", "rt is missing")
    began = time.monotonic()
    os.environ[programs.FOLDER] = str(programs.UNPROVED)
    count = side_by_side((*parts, *own_parts()))
    counts.tell(f"tools/check: {(time.monotonic() - began) / 60:.1f} minutes by the clock")
    counts.tell("tools/check: nothing was proved: this tries programs that no proof has passed")
    return count
