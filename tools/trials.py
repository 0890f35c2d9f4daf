"""Trials of what was built: commands that are run and have to succeed, counted, and whether the
tools that they want are of use."""

from __future__ import annotations

import os
import re
import shutil
import signal
import subprocess
import tempfile
from functools import lru_cache
from pathlib import Path

CRATE_MANIFEST = Path(__file__).resolve().parent.parent / "bindings/rust/Cargo.toml"

MOST_SECONDS = 30 * 60
"""How long a command may take."""

MEMORY_CHECK = [
    "valgrind",
    "-q",
    "--error-exitcode=99",
    "--leak-check=full",
    "--show-leak-kinds=all",
    "--errors-for-leak-kinds=all",
]


class Trials:
    """How many trials passed and failed, and how many were left out."""

    def __init__(self) -> None:
        self.passed = 0
        self.failed = 0
        self.left_out = 0

    def tell(self, name: str, faults: str) -> bool:
        """Counts a trial, which failed where there is something to say."""
        print(f"{'FAILED' if faults else 'passed'} {name}", flush=True)
        if faults:
            print("  " + faults.rstrip().replace("\n", "\n  "), flush=True)
        self.passed += not faults
        self.failed += bool(faults)
        return not faults

    def run(self, name: str, words: list[str], **how: object) -> bool:
        """Runs a command, which has to end with status 0."""
        said = run(words, **how)
        ended = f"{said.stdout}\n{words[0]} ended with status {said.returncode}"
        return self.tell(name, ended if said.returncode else "")

    def has(self, what: str, *tools: str) -> bool:
        """Whether tools are of use; what is left out for want of one is told."""
        lacking = next(filter(None, map(lack, tools)), "")
        if lacking:
            self.leave_out(what, lacking)
        return not lacking

    def leave_out(self, what: str, why: str) -> None:
        """Tells what can't be tried, and counts it."""
        print(f"left out: {what}, since {why}", flush=True)
        self.left_out += 1


def run(
    words: list[str], seconds: float = MOST_SECONDS, **how: object
) -> subprocess.CompletedProcess:
    """Runs a command, and answers its status and all that it writes. One that takes longer is
    ended, with all that it started."""
    pipes = {"stdout": subprocess.PIPE, "stderr": subprocess.STDOUT}
    text = {"text": True, "errors": "replace", "start_new_session": True}
    try:
        with subprocess.Popen(words, **pipes, **text, **how) as running:
            try:
                said, _ = running.communicate(timeout=seconds)
            except subprocess.TimeoutExpired:
                os.killpg(running.pid, signal.SIGKILL)
                said, _ = running.communicate()
                late = f"{words[0]}: ended after {seconds} seconds"
                return subprocess.CompletedProcess(words, 124, f"{said}\n{late}")
            except BaseException:
                os.killpg(running.pid, signal.SIGKILL)
                raise
            return subprocess.CompletedProcess(words, running.returncode, said)
    except OSError as fault:
        return subprocess.CompletedProcess(words, 127, f"{words[0]}: {fault.strerror}")


# Tools

EMPTY = {
    "gcc": ("empty.c", "int main(void) { return 0; }\n"),
    "g++": ("empty.cc", "#include <string>\nint main() { return std::string().size() != 0; }\n"),
    "cargo": ("src/main.rs", "fn main() {}\n"),
    "protoc": ("empty.proto", 'syntax = "proto3";\n'),
}
"""An empty program for each tool."""

EMPTY |= {"clang": EMPTY["gcc"], "clang++": EMPTY["g++"], "valgrind": EMPTY["gcc"]}


@lru_cache(maxsize=None)
def lack(tool: str) -> str:
    """Why a tool is of no use, or nothing: it is missing, or fails on an empty program."""
    if shutil.which(tool) is None:
        return f"{tool} is missing"
    with tempfile.TemporaryDirectory() as room:
        for words in first_words(tool, Path(room)):
            said = run(words, cwd=room, env={**os.environ, "CARGO_TARGET_DIR": f"{room}/target"})
            if said.returncode:
                lines = said.stdout.strip().splitlines() or [f"status {said.returncode}"]
                return f"{tool} fails on an empty program: {lines[0]}"
    return ""


def first_words(tool: str, room: Path) -> list[list[str]]:
    """What has to succeed with a tool, of which an empty program is laid down."""
    name, text = EMPTY.get(tool, ("empty", ""))
    (room / name).parent.mkdir(exist_ok=True)
    (room / name).write_text(text)
    program = str(room / "program")
    if tool == "protoc":
        return [[tool, "-I.", "-o", "empty.pb", name]]
    if tool == "cargo":
        told_of = CRATE_MANIFEST.read_text()
        needs = re.findall(r"^(?:edition|rust-version) = .*$", told_of, re.MULTILINE)
        manifest = ["[package]", 'name = "empty"', 'version = "0.1.0"', *needs, "[workspace]", ""]
        (room / "Cargo.toml").write_text("\n".join(manifest))
        return [[tool, "run", "--offline", "--quiet"]]
    if tool == "valgrind":
        return [["gcc", name, "-o", program], [*MEMORY_CHECK, program]]
    if tool in EMPTY:
        return [[tool, name, "-o", program], [program]]
    return [[tool, "--version"]]
