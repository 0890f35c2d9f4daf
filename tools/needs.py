"""What the tools need on a machine: programs, files and packages, and the packages of Debian that
have them."""

from __future__ import annotations

import os
import shutil
import subprocess
import sys
import sysconfig
from collections.abc import Callable
from functools import lru_cache
from pathlib import Path
from typing import NamedTuple, Optional

INCLUDES = (Path("/usr/include"), Path("/usr/local/include"))
"""Where protobuf's own files may be, and the headers of C."""

CRATES = Path("/usr/share/cargo/registry")
"""Where Debian's librust packages are."""

MOST_SECONDS = 15 * 60
"""How long apt-get may take."""

APT = ("apt-get", "-o", "Acquire::Retries=1", "-o", "Acquire::http::Timeout=30")


class Need(NamedTuple):
    """A package of Debian, and whether the machine has what is wanted of it."""

    package: str
    is_there: Callable[[], bool]


def has_tools(*names: str) -> bool:
    return all(map(shutil.which, names))


def has_include(name: str) -> bool:
    return any((folder / name).is_file() for folder in INCLUDES)


@lru_cache(maxsize=None)
def python() -> Optional[str]:
    """An interpreter that has protobuf's package."""
    for name in (sys.executable, "/usr/bin/python3"):
        words = [name, "-c", "import google.protobuf.descriptor_pb2"]
        if os.access(name, os.X_OK) and subprocess.run(
            words, stderr=subprocess.DEVNULL, check=False
        ).returncode == 0:
            return name
    return None


def toolchain() -> Optional[Path]:
    """The folder of the toolchain. In it stands c/liblibc_c.a, by which Rattle code asks the C
    library for memory."""
    for tool in ("rattle", "rt"):
        found = shutil.which(tool)
        if found is not None:
            folder = Path(found).resolve().parent.parent
            if (folder / "c/liblibc_c.a").is_file():
                return folder
    return None


def python_headers() -> Optional[Path]:
    """The folder of the headers of Python: those of this interpreter, else Debian's."""
    folders = [Path(sysconfig.get_path("include"))]
    for include in INCLUDES:
        folders += sorted(include.glob("python3.*"))
    return next((folder for folder in folders if (folder / "Python.h").is_file()), None)


PROTOC = Need("protobuf-compiler", lambda: has_tools("protoc"))
PROTOBUF_FILES = Need("libprotobuf-dev", lambda: has_include("google/protobuf/descriptor.proto"))

QUICK = (
    PROTOC,
    PROTOBUF_FILES,
    Need("libprotoc-dev", lambda: has_include("google/protobuf/compiler/plugin.proto")),
    Need("python3-protobuf", lambda: python() is not None),
    Need("gcc", lambda: has_tools("gcc", "cc")),
    Need("libc6-dev", lambda: has_include("stdio.h")),
    Need("git", lambda: has_tools("git")),
)
"""What the quick test wants besides rt."""

ALL = (
    *QUICK,
    Need("python3-dev", lambda: python_headers() is not None),
    Need("mypy", lambda: has_tools("mypy")),
    Need("g++", lambda: has_tools("g++")),
    Need("binutils", lambda: has_tools("ar", "ld", "nm", "objcopy", "strip")),
    Need("clang", lambda: has_tools("clang", "clang++")),
    Need("valgrind", lambda: has_tools("valgrind")),
    Need("pkg-config", lambda: has_tools("pkg-config")),
    Need("cargo", lambda: has_tools("cargo")),
    Need("librust-prost-dev", lambda: any(CRATES.glob("prost-[0-9]*"))),
    Need("librust-prost-types-dev", lambda: any(CRATES.glob("prost-types-*"))),
    Need("groff-base", lambda: has_tools("groff")),
    Need("dpkg", lambda: has_tools("dpkg", "dpkg-deb")),
    Need("curl", lambda: has_tools("curl")),
    Need("zsh", lambda: has_tools("zsh")),
    Need("fish", lambda: has_tools("fish")),
)
"""All that the gate wants besides rt."""


def lacking(needs: tuple[Need, ...]) -> list[str]:
    """The packages of which something is missing."""
    return [need.package for need in needs if not need.is_there()]


def install(needs: tuple[Need, ...], tell: Callable[[str], None]) -> bool:
    """Installs the packages of which something is missing, and answers whether all is there. What
    can't be installed is told with the command that would do it."""
    wanted = lacking(needs)
    if not wanted:
        return True
    if shutil.which("apt-get") is not None and os.geteuid() == 0:
        tell(f"apt-get installs {' '.join(wanted)}: some minutes at most")
        run_apt("update", tell=tell)
        if not run_apt("install", "--yes", "--no-install-recommends", *wanted, tell=tell):
            for package in wanted if len(wanted) > 1 else ():
                run_apt("install", "--yes", "--no-install-recommends", package, tell=tell)
        python.cache_clear()
    wanted = lacking(needs)
    if wanted:
        tell(f"missing: on Debian, apt-get install {' '.join(wanted)}")
    return not wanted


def run_apt(*words: str, tell: Callable[[str], None]) -> bool:
    """Runs apt-get, of which only a failure is told."""
    quiet = {**os.environ, "DEBIAN_FRONTEND": "noninteractive"}
    pipes = {"stdin": subprocess.DEVNULL, "stdout": subprocess.PIPE, "stderr": subprocess.STDOUT}
    try:
        done = subprocess.run(
            [*APT, *words], env=quiet, timeout=MOST_SECONDS, text=True, check=False, **pipes
        )
    except (OSError, subprocess.TimeoutExpired) as fault:
        tell(f"apt-get {words[0]}: {fault}")
        return False
    if done.returncode:
        said = done.stdout.strip().splitlines() or ["nothing"]
        tell(f"apt-get {words[0]} ended with status {done.returncode}, and said: {said[-1]}")
    return done.returncode == 0
