"""Trials of protolink-check, as one meets it who has the packages and sources in git: by the lines
of docs/CHANGES.md and by those of each recipe, with nothing on the PATH but what they need.
"""

from __future__ import annotations

import os
import re
import shutil
import subprocess
from pathlib import Path
from typing import TYPE_CHECKING

import man_pages

if TYPE_CHECKING:
    from package_trials import Trial

TOP = Path(__file__).resolve().parent.parent
RECIPES = TOP / "tools/recipes"
MOST_LINES = 5
"""How many lines the gate of a pull request may have."""

NEEDED = ("sh", "protoc", "git", "tar", "gzip", "curl", "mkdir")
"""What is on the PATH, beside Python."""

RUN = re.compile(
    r"^ *(?:- )?(?:run: |entry: )?((?:curl|mkdir|export|echo|protolink-check) .*)$", re.MULTILINE
)
"""A line of a recipe that runs something, but for one that installs what is needed."""

ORDER = 'syntax = "proto3";\npackage shop;\nimport "money.proto";\nmessage Order {\n  %s\n}\n'
MONEY = 'syntax = "proto3";\npackage shop;\nmessage Money { int64 cents = 1; }\n'
FIELDS = "int64 total = 1; Money money = 2;"
CHANGE = "'shop.Order.total' (1): int64 became int32"

MAKE = """\
git init --quiet --initial-branch main origin
cp -r proto origin
git -C origin add proto
git -C origin commit --quiet --message one
git clone --quiet origin clone
git -C clone checkout --quiet -b branch
"""
PEOPLE = ("AUTHOR_NAME", "AUTHOR_EMAIL", "COMMITTER_NAME", "COMMITTER_EMAIL")
NOBODY = {f"GIT_{it}": "a@b" for it in PEOPLE}
SETTINGS = {**NOBODY, "GIT_CONFIG_GLOBAL": os.devnull, "GIT_CONFIG_NOSYSTEM": "1"}


def gate() -> str:
    """The lines of docs/CHANGES.md that are a pull request's gate."""
    shown = man_pages.code((TOP / "docs/CHANGES.md").read_text())
    (lines,) = [it for it in shown if "protolink-check" in it and "tar " in it]
    return lines


def recipe(name: str) -> str:
    """The lines of a recipe that run something. What is written to GITHUB_PATH comes before PATH,
    as it does between two steps of a workflow."""
    lines = RUN.findall((RECIPES / name).read_text())
    then = 'read -r added < "$GITHUB_PATH"; PATH=$added:$PATH'
    return "\n".join(f"{it}\n{then}" if "$GITHUB_PATH" in it else it for it in lines)


def bare(trial: Trial, *more: Path) -> Path:
    """A folder with links to what is needed alone."""
    folder = trial.user.room / "bare"
    shutil.rmtree(folder, ignore_errors=True)
    folder.mkdir()
    found = [Path(shutil.which(name)) for name in NEEDED]
    for path in (*found, *more):
        (folder / path.name).symlink_to(path)
    (folder / "python3").symlink_to(trial.place.python)
    return folder


def try_lines(trial: Trial, name: str, lines: str, **settings: str) -> None:
    """Lines in a clone, which end with 0 where a field is new, and with 1 where one changes."""
    room = trial.user.room
    order, told = room / "clone/proto/order.proto", room / "clone/protos.json"
    for fields, status, wanted in (
        (f"{FIELDS} string note = 3;", 0, ""),
        (FIELDS.replace("int64", "int32"), 1, CHANGE),
    ):
        order.write_text(ORDER % fields)
        for made in ("temporary", "clone/.protolink"):
            shutil.rmtree(room / made, ignore_errors=True)
        (room / "temporary").mkdir()
        words = ["env", "-C", "clone", f"PATH={room}/bare", "sh", "-ec", lines]
        said = trial.run(words, **SETTINGS, **settings)
        text = said.stdout + (told.read_text() if told.exists() else "")
        is_right = said.returncode == status and wanted in text and "/tmp" not in text
        end = f"ended with status {said.returncode}, and wanted were {status} and {wanted}"
        trial.trials.tell(f"sources, {name}: status {status}", "" if is_right else f"{text}\n{end}")


def try_gates(trial: Trial, archive: Path) -> None:
    """The gate of the page and the recipes, with the archive of a release."""
    if not trial.trials.has("sources in git", "protoc", "git", "curl"):
        return
    room = trial.user.room
    (room / "proto").mkdir()
    (room / "proto/order.proto").write_text(ORDER % FIELDS)
    (room / "proto/money.proto").write_text(MONEY)
    trial.trials.tell("a clone is made", trial.run(["sh", "-ec", MAKE], **SETTINGS).stdout)
    shutil.copy(archive, room / "clone")
    bare(trial)
    lines = gate()
    is_long = lines.count("\n") > MOST_LINES
    trial.trials.tell("the gate is short", f"more than {MOST_LINES} lines" if is_long else "")
    try_lines(trial, "the gate of CHANGES.md", lines)
    found = trial.run(["git", "-C", "clone", "rev-parse", "main"]).stdout.strip()
    settings = {
        "PROTOLINK_ARCHIVE": f"file://{room}/clone/{archive.name}",
        "RUNNER_TEMP": f"{room}/temporary",
        "GITHUB_PATH": f"{room}/temporary/path",
        "GITHUB_BASE_REF": "main",
        "CI_MERGE_REQUEST_DIFF_BASE_SHA": found,
    }
    for name in ("github.yml", "gitlab.yml"):
        try_lines(trial, f"the recipe {name}", recipe(name), **settings)
    bare(trial, trial.place.prefix / "bin/protolink-check")
    try_lines(trial, "the recipe pre-commit.yml", recipe("pre-commit.yml"))


def try_sources(trial: Trial) -> None:
    """Sources by the program that was installed."""
    what = f"{trial.place.name}: sources"
    if trial.trials.has(what, "protoc"):
        (trial.user.room / "money.proto").write_text(MONEY)
        words = [trial.place.python, str(trial.place.prefix / "bin/protolink-check"), "money.proto"]
        counts = "1 file, 1 message, 0 enums, 0 services, 0 extensions"
        trial.tells("sources", words, f"accepted: {counts}\n")
