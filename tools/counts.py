"""What commands count: how many tests passed and failed, and how many were left out."""

from __future__ import annotations

import contextlib
import re
import subprocess
import threading
from collections.abc import Callable, Iterator
from pathlib import Path
from typing import NamedTuple

TOP = Path(__file__).resolve().parent.parent
COUNTS = re.compile(r"(\d+) passed, (\d+) failed(?:, (\d+) left out)?")


class Count(NamedTuple):
    """How much has passed, how much has failed, and how much was left out."""

    passed: int
    failed: int
    left_out: int = 0

    def __add__(self, other: Count) -> Count:
        return Count(*(mine + theirs for mine, theirs in zip(self, other)))

    def __str__(self) -> str:
        return f"{self.passed} passed, {self.failed} failed, {self.left_out} left out"


NONE = Count(0, 0)
FAILED = Count(0, 1)

of_thread = threading.local()
"""The lines that this thread holds back, if it does."""


def tell(line: str) -> None:
    """Prints a line, or holds it back."""
    lines = getattr(of_thread, "lines", None)
    if lines is None:
        print(line, flush=True)
    else:
        lines.append(line)


@contextlib.contextmanager
def held() -> Iterator[list[str]]:
    """The lines of this thread, which are not printed meanwhile."""
    of_thread.lines = []
    try:
        yield of_thread.lines
    finally:
        of_thread.lines = None


def left_out(what: str, why: str) -> Count:
    """What can't be run, told and counted."""
    tell(f"left out: {what}, since {why}")
    return Count(0, 0, 1)


def run(
    words: list[str], after: Callable[[str], None] = lambda line: None, folder: Path = TOP
) -> tuple[int, list[str]]:
    """Runs a command, passes on what it writes, and answers its status and its lines."""
    lines = []
    pipes = {"stdin": subprocess.DEVNULL, "stdout": subprocess.PIPE, "stderr": subprocess.STDOUT}
    try:
        with subprocess.Popen(words, cwd=folder, text=True, **pipes) as running:
            for line in running.stdout or ():
                lines.append(line.rstrip("\n"))
                tell(lines[-1])
                after(lines[-1])
    except OSError as fault:
        tell(f"tools/check: {words[0]}: {fault.strerror}")
        return 127, lines
    return running.returncode, lines


def counted(words: list[str]) -> Count:
    """What a command counts in its last line. One that counts nothing has failed."""
    return counted_of(*run(words))


def counted_of(status: int, lines: list[str]) -> Count:
    """What a command has counted that ended with a status and wrote these lines."""
    found = COUNTS.match(lines[-1] if lines else "")
    count = Count(*(int(number or 0) for number in found.groups())) if found else FAILED
    if count == NONE or (status != 0 and count.failed == 0):
        return count + FAILED
    return count
