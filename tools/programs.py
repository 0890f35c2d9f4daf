"""Where the programs are that the tools try."""

from __future__ import annotations

import os
from pathlib import Path

TOP = Path(__file__).resolve().parent.parent
CRATES = TOP / "crates"

UNPROVED = TOP / "dist/unproved"
"""The folder of the programs that are compiled without a proof (tools/unproved.py)."""

FOLDER = "PROTOLINK_PROGRAMS"
"""The variable that names a folder of programs in place of crates/."""


def path(name: str) -> Path:
    """A program: as `rt ci` or `rt run` builds it once it is proved, or in the folder that the
    variable names."""
    folder = os.environ.get(FOLDER)
    return Path(folder) / name if folder else CRATES / name / "out" / name
