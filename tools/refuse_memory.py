#!/usr/bin/env python3
"""Runs a program again and again, each time with another of its requests for memory refused, and
checks each ending.

    python3 refuse_memory.py trials ../crates/test_trials/out/test_trials
    python3 refuse_memory.py run ../crates/protolink/out/protolink ../crates/test_rows/data/scripts/protoc/well_known.script
    python3 refuse_memory.py run ../crates/check_descriptors/out/check_descriptors SET -- --list -

`trials` runs each trial of crates/test_trials. Requests count from the mark before its call to
the one after it. A refused run must say that memory was refused and that all is right, and one
without a refusal must write the line that is stored beside the program's sources.

`run` runs a program, with the arguments after `--`, on a file as its standard input, in a folder
of its own. Requests count from the beginning of the program. A refused run must end with status 3,
write nothing and leave no file, and one without a refusal must write what the program writes when
it is left alone, to its outputs and to the files of the folder.

The first request is refused, then the second, and so on, until a run comes to its end without
having met a refusal. A run may go on, and must then end as without a refusal, in two cases: where
the request was for a block that has room enough already, as when it is to shrink; and where the
program asked once more and was given the room, as the library's `collect` does, so that there was
one request more than without a refusal. With --first, --every and --last some are left out: all of
the first and of the last are refused, and of those between them each so many. With --behind a
refusal lasts: all requests after the refused one are refused too, up to the mark after the call.
A run is wrong if it is ended by a signal, ends otherwise than it must, or leaves a block of memory
that it was given.

The trials whose names begin with `one_pool` go otherwise: such a trial makes its call again and
again on one pool. In a single run of the program the first request of its first call is refused,
the second of its second call, and so on, until a call is refused none.

With --valgrind N each N-th of the refused runs is run once more under valgrind, which must find no
fault and no byte lost.

Exit status: 0 all were right, 1 some were wrong, 2 nothing could be run.

Needed are a C compiler, cc, and a program that is linked dynamically to the C library of GNU.
"""

from __future__ import annotations

import argparse
import os
import shutil
import subprocess
import sys
import tempfile
from collections.abc import Iterator
from pathlib import Path
from typing import NamedTuple, Optional

TOOLS = Path(__file__).resolve().parent
STORED_LINES = TOOLS.parent / "crates/test_trials/stdout"
STORED_INPUT = TOOLS.parent / "crates/test_trials/stdin"

MARK = 7777
"""The size of a request that begins and ends the count, as crates/test_trials makes it."""

AGAIN = "one_pool"
"""How the names of the trials begin that make their call again and again."""

UNMOVED = ("known",)
"""The trials whose call succeeds whatever memory is refused."""

SECONDS = 600
"""The time that a run has."""

OUT_OF_MEMORY = 3
"""The exit status of a program that was refused memory."""

MEMORY_CHECK = (
    "valgrind",
    "-q",
    "--error-exitcode=99",
    "--leak-check=full",
    "--show-leak-kinds=all",
    "--errors-for-leak-kinds=all",
    "--soname-synonyms=somalloc=nouserintercepts",
)


class ToolError(Exception):
    """What keeps the tool from running anything."""


class Ending(NamedTuple):
    """How a run ends: its status, which is negative for a signal, and what it writes: to its
    outputs, and as files in its folder, by their names."""

    status: int
    output: bytes
    files: tuple[tuple[str, bytes], ...] = ()

    def words(self) -> str:
        files = f", files {' '.join(name for name, _ in self.files)}" if self.files else ""
        return f"status {self.status}, wrote {self.output[:60]!r}{files}"


class Case(NamedTuple):
    """A run that is repeated, with the ending that it has where nothing is refused, and those that
    it may have where something is."""

    name: str
    words: list[str]
    input: bytes
    mark: int
    whole: Ending
    refused: tuple[Ending, ...]


class Counts(NamedTuple):
    """What the shim counted: requests, refused ones, those of them for a block that had room enough
    already, and blocks that were not given back."""

    requests: int
    refused: int
    roomy: int
    left: int

    def may_pass_over(self, requests: int) -> bool:
        """Whether a run may go on in spite of these refusals, where there are so many requests
        without any."""
        return self.roomy == self.refused or self.requests > requests


class Sample(NamedTuple):
    """Which requests are refused, and which runs valgrind sees."""

    first: int
    every: int
    last: int
    is_lasting: bool
    valgrind: int

    def behind(self, number: int, requests: int) -> int:
        """The request that is refused behind one, of so many."""
        if number < self.first:
            return number + 1
        return min(number + self.every, max(number + 1, requests - self.last + 1))


class Result:
    """What has come of the runs of a case."""

    def __init__(self, case: Case) -> None:
        self.case = case
        self.requests = 0
        self.refused_runs = 0
        self.whole_runs = 0
        self.checked_runs = 0
        self.faults: list[str] = []

    def add(self, number: int, ending: Ending, counts: Optional[Counts]) -> bool:
        """Takes a run in which a request was to be refused, and answers whether more are to come.
        The first run is that without a refusal, whose number is 0."""
        if counts is None:
            self.faults.append(f"request {number}: ended by status {ending.status}, and no count")
            return number > 0
        if number == 0:
            self.requests = counts.requests
        if counts.refused > 0:
            self.refused_runs += 1
            self.whole_runs += ending == self.case.whole
        if ending not in self._endings(counts):
            self.faults.append(f"request {number}: {ending.words()}")
        if counts.left != 0:
            self.faults.append(f"request {number}: {counts.left} blocks left")
        return number == 0 or counts.refused > 0

    def add_rising(self, ending: Ending, counts: Optional[Counts]) -> None:
        """Takes the run that makes a call again and again. In its last call nothing was refused, so
        as many calls were refused before it as it made requests, or more where those left room."""
        if counts is None:
            self.faults.append(f"ended by status {ending.status}, and no count")
            return
        self.requests, self.refused_runs = counts.requests, counts.refused
        is_short = counts.refused < max(counts.requests, 1)
        if ending != self.case.whole or is_short or counts.left != 0:
            self.faults.append(f"{ending.words()}, {counts}")

    def _endings(self, counts: Counts) -> tuple[Ending, ...]:
        """The endings that a run with these counts may have."""
        if counts.refused == 0:
            return (self.case.whole,)
        if counts.may_pass_over(self.requests):
            return (self.case.whole, *self.case.refused)
        return self.case.refused

    def add_checked(self, number: int, ending: Ending, counts: Optional[Counts]) -> None:
        """Takes a run with a refusal under valgrind, which must end as without it."""
        self.checked_runs += 1
        if counts is None or counts.refused == 0 or ending not in self._endings(counts):
            self.faults.append(f"request {number}: {ending.words()}, under valgrind")

    def line(self) -> str:
        """The result in one line."""
        passed = f", {self.whole_runs} of them passed over" if self.whole_runs else ""
        checked = f", {self.checked_runs} under valgrind" if self.checked_runs else ""
        return (
            f"{self.case.name}: {self.requests} requests, {self.refused_runs} refused{passed}"
            f"{checked}, {len(self.faults)} wrong"
        )


class Shim:
    """What is loaded into a program to refuse its requests."""

    def __init__(self, room: str) -> None:
        self.library = f"{room}/refuse_memory.so"
        self.told = Path(room) / "told"
        source = str(TOOLS / "refuse_memory.c")
        words = ["cc", "-O1", "-fno-builtin", "-shared", "-fPIC", source, "-o", self.library]
        try:
            subprocess.run(words, check=True)
        except (OSError, subprocess.CalledProcessError) as fault:
            raise ToolError(f"cannot build {source}: {fault}") from fault

    def run(
        self, case: Case, asked: dict[str, int], prefix: tuple[str, ...] = ()
    ) -> tuple[Ending, Optional[Counts]]:
        """Runs a case as it is asked. There is no count where the run had no proper end."""
        words = {f"REFUSE_{name}": str(number) for name, number in asked.items()}
        words |= {
            "LD_PRELOAD": self.library,
            "REFUSE_PROGRAM": case.words[0],
            "REFUSE_MARK": str(case.mark),
            "REFUSE_TOLD": str(self.told),
        }
        self.told.unlink(missing_ok=True)
        ending = run([*prefix, *case.words], case.input, {**os.environ, **words})
        if not self.told.exists():
            return ending, None
        try:
            return ending, Counts(*map(int, self.told.read_text().split()))
        except (TypeError, ValueError):
            return ending, None


def run(words: list[str], given: bytes, environment: dict[str, str]) -> Ending:
    """Runs a program on an input, in an empty folder."""
    with tempfile.TemporaryDirectory() as folder:
        try:
            done = subprocess.run(
                words,
                cwd=folder,
                input=given,
                env=environment,
                stdout=subprocess.PIPE,
                timeout=SECONDS,
                check=False,
            )
        except OSError as fault:
            raise ToolError(f"{words[0]} cannot be run: {fault.strerror}") from fault
        except subprocess.TimeoutExpired as fault:
            raise ToolError(f"{words[0]} did not end within {SECONDS} seconds") from fault
        paths = sorted(Path(folder).iterdir())
        files = tuple((path.name, path.read_bytes()) for path in paths)
        return Ending(done.returncode, done.stdout, files)


def result_of(shim: Shim, case: Case, sample: Sample) -> Result:
    """Runs a case with one request after another refused."""
    result = Result(case)
    if case.name.startswith(AGAIN):
        result.add_rising(*shim.run(case, {"RISING": 1}))
        return result
    number = 0
    while result.add(number, *shim.run(case, asked_for(sample, number))):
        if sample.valgrind and number > 0 and number % sample.valgrind == 0:
            result.add_checked(number, *shim.run(case, asked_for(sample, number), MEMORY_CHECK))
        number = sample.behind(number, result.requests)
    return result


def asked_for(sample: Sample, number: int) -> dict[str, int]:
    """What the shim is asked where a request is to be refused."""
    return {"REQUEST": number, "BEHIND": int(sample.is_lasting)}


def trial_cases(program: str) -> Iterator[Case]:
    """The trials of a built program, by the lines that are stored of them."""
    given = STORED_INPUT.read_bytes()
    for line in STORED_LINES.read_text().splitlines(keepends=True):
        name, colon, _ = line.partition(":")
        if not colon:
            continue
        whole, refused = line.encode(), f"{name}: out of memory, right\n".encode()
        ending = Ending(0, whole if name in UNMOVED else refused)
        yield Case(name, [program, name], given, MARK, Ending(0, whole), (ending,))


def run_case(words: list[str], given: str, status: Optional[int]) -> Case:
    """A run of a program with arguments on a file. It may end with another status too, if any."""
    data = Path(given).read_bytes()
    whole = run(words, data, dict(os.environ))
    if not whole.output:
        raise ToolError(f"{' '.join(words)} writes nothing: {whole.words()}")
    name = " ".join([Path(words[0]).name, *words[1:], "<", given])
    statuses = (OUT_OF_MEMORY,) if status is None else (OUT_OF_MEMORY, status)
    return Case(name, words, data, 0, whole, tuple(Ending(it, b"") for it in statuses))


def argument_parser() -> argparse.ArgumentParser:
    """The arguments."""
    parser = argparse.ArgumentParser(
        description=__doc__, formatter_class=argparse.RawDescriptionHelpFormatter
    )
    parser.add_argument("what", choices=("trials", "run"))
    parser.add_argument("program", metavar="PROGRAM", help="the built program")
    parser.add_argument("input", nargs="?", metavar="FILE", help="the standard input for `run`")
    parser.add_argument("--first", type=int, default=2000, help="refuse each of the first so many")
    parser.add_argument("--every", type=int, default=97, help="and each so many-th after them")
    parser.add_argument("--last", type=int, default=20, help="and each of the last so many")
    parser.add_argument("--behind", action="store_true", help="refuse those after a refusal too")
    parser.add_argument("--status", type=int, help="which a refused `run` may also end with")
    parser.add_argument("--valgrind", type=int, default=0, metavar="N", help="see above")
    return parser


def results(asked: argparse.Namespace, words: list[str]) -> Iterator[Result]:
    """What comes of each case that is asked for."""
    is_run = asked.what == "run"
    if is_run != (asked.input is not None) or (words and not is_run):
        raise ToolError("a file is given for `run`, and arguments for nothing else")
    if asked.valgrind and shutil.which("valgrind") is None:
        raise ToolError("there is no valgrind")
    program = str(Path(asked.program).resolve())
    sample = Sample(
        asked.first, max(asked.every, 1), max(asked.last, 0), asked.behind, asked.valgrind
    )
    with tempfile.TemporaryDirectory() as room:
        shim = Shim(room)
        words = [program, *words]
        run_alone = [run_case(words, asked.input, asked.status)] if is_run else []
        for case in run_alone or trial_cases(program):
            yield result_of(shim, case, sample)


def main() -> int:
    """Tells what has come of each case, and answers the exit status."""
    parser = argument_parser()
    given = sys.argv[1:]
    own = given.index("--") if "--" in given else len(given)
    status = 0
    try:
        for result in results(parser.parse_args(given[:own]), given[own + 1 :]):
            print("\n  ".join([result.line(), *result.faults]), flush=True)
            status = 1 if result.faults else status
    except (ToolError, OSError) as fault:
        print(f"{parser.prog}: {fault}", file=sys.stderr)
        return 2
    return status


if __name__ == "__main__":
    sys.exit(main())
