#!/usr/bin/env python3
"""The tests of the tools that compare two versions of a schema.

    python3 test_changes.py

compare_changes.py is tried without the program that it compares, with change_model.py in its place.
"""

from __future__ import annotations

import contextlib
import io
import os
import re
import shutil
import subprocess
import sys
import unittest
from pathlib import Path
from typing import Any

import programs

HERE = Path(__file__).resolve().parent
CHECK = programs.path("check_descriptors")
MOST_PAIRS = 600
"""How many pairs are tried until a fault of a kind shows."""


def first_fault(left_out: str) -> int:
    """After how many pairs a fault shows where a kind of changes is not reported."""
    import change_model
    import compare_changes
    from schema_versions import Version, real_set

    class Model(compare_changes.Program):
        """The model in place of the program."""

        def answer(self, old: Version, new: Version, compatibility: str) -> dict[str, Any]:
            """What the model says of two versions."""
            before, after = (change_model.Version(real_set(one)) for one in (old, new))
            return change_model.answer(before, after, compatibility, left_out)

    trial = compare_changes.Trial(Model([], ""), 10, 1)
    with compare_changes.silence(), contextlib.redirect_stdout(io.StringIO()):
        for tried in range(2, MOST_PAIRS, 2):
            trial.run(2)
            if trial.counts[compare_changes.FAILED]:
                return tried
    return MOST_PAIRS


class ChangesTest(unittest.TestCase):
    """Tests of compare_changes.py, make_change_rows.py and grow.py."""

    def run_tool(self, *words: str) -> subprocess.CompletedProcess[str]:
        """Runs a tool by this Python."""
        command = [sys.executable, "-B", *words]
        return subprocess.run(command, capture_output=True, text=True, check=False, cwd=HERE)

    def test_model(self) -> None:
        """Messages are read as the model of the rules says."""
        model = ["--", sys.executable, "-B", str(HERE / "change_model.py")]
        done = self.run_tool("compare_changes.py", "--pairs", "60", "--messages", "20", *model)
        self.assertEqual(done.returncode, 0, done.stdout + done.stderr)
        self.assertRegex(done.stdout.splitlines()[-1], r"^\d{3,} passed, 0 failed$")

    def test_left_out(self) -> None:
        """Where the model leaves out a kind of changes, it is found."""
        for code in (
            "field-kind", "field-cardinality", "field-oneof", "field-required", "number-free",
            "reserved-removed", "message-removed", "field-default",
        ):  # fmt: skip
            with self.subTest(code):
                self.assertLess(first_fault(code), MOST_PAIRS)

    @unittest.skipUnless(os.access(CHECK, os.X_OK), f"{CHECK} is not built")
    def test_program(self) -> None:
        """Messages are read as the program says, of a few pairs."""
        done = self.run_tool("compare_changes.py", "--pairs", "40", "--messages", "20", str(CHECK))
        self.assertEqual(done.returncode, 0, done.stdout + done.stderr)

    @unittest.skipUnless(os.access(CHECK, os.X_OK), f"{CHECK} is not built")
    @unittest.skipIf(shutil.which("valgrind") is None, "valgrind is not there")
    def test_growth(self) -> None:
        """Of sets that are twice as large a comparison takes some two times as many instructions."""
        shapes = ["against_renamed_enum_fields=300", "against_enum_fields=600"]
        done = self.run_tool("grow.py", "--most", "2.6", str(CHECK), *shapes)
        self.assertEqual(done.returncode, 0, done.stdout + done.stderr)
        self.assertIn("million", done.stdout)

    def test_kinds(self) -> None:
        """The rules of a log of SARIF are the kinds of the page, each at its first level."""
        import make_change_rows

        page = (HERE.parent / "docs/CHANGES.md").read_text()
        found = []
        for level in ("wire", "json", "source"):
            part = page.split(f"\n### At {level}\n")[1].split("\n## ")[0].split("\n### ")[0]
            for cell in re.findall(r"^\| (`[^|]*) \|", part, re.MULTILINE):
                codes = re.findall(r"`([a-z-]+)`", cell)
                known = {code for _, code in found}
                found += [(level, code) for code in codes if code not in known]
        rules = [(level, code) for level, code, _, _ in make_change_rows.RULES]
        self.assertEqual(sorted(found), sorted(rules))

    def test_stored_rows(self) -> None:
        """The stored rows are those that are made of their sources."""
        done = self.run_tool("make_change_rows.py", "compare")
        self.assertEqual(done.returncode, 0, done.stdout + done.stderr)


if __name__ == "__main__":
    unittest.main()
