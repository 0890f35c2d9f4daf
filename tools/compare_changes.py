#!/usr/bin/env python3
"""Compares what the check reports of two versions of a schema with what protobuf reads of messages.

    python3 compare_changes.py ../crates/check_descriptors/out/check_descriptors
    python3 compare_changes.py --pairs 200 ../crates/check_descriptors/out/check_descriptors

Random versions are made, by a fixed seed (--seed): two files, each of proto2 or of proto3, with up
to twenty fields, maps, oneofs, groups, extensions, defaults, enums and reserved numbers. Each is
changed into a next one, and half of those once more (random_versions.py). `PROGRAM --against OLD
--compatibility full --level source --json NEW` reports what changes of each pair, or of some pairs
one direction alone. The version that writes then writes random messages, and protobuf's Python
package reads them by both versions (read_versions.py).

What should be, in each direction that is asked for:

- A message is read, if no change is reported that loses something of it, or of what its fields
  hold. All that is required is there, and each field that both versions have by its number has the
  same values.
- A message is reported as gone where it is gone, and nowhere else.
- Code reads the same of a missing field, or a change of the field is reported at some level.
- Take three versions, where nothing is reported backward at wire of each and the one before. The
  last one reads what the first one writes.

Anything else is printed, and is a fault. For each change that loses something a message is looked
for that is refused or read otherwise. It is a fault where none is found, unless the field holds a
message under another name: that is reported also where it frees a number or drops a reservation.
It is counted, and no fault, where `field-default` is reported of a field that is read alike: the
default that is given, or was, is what is read without it.

C++ takes an enum as closed by the file of the field, and not by its own. Where that shows, the
message is read once more by versions in which each open enum is a number, and is counted apart.

The last line counts the messages, the fields and the changes: `N passed, M failed`. Exit status: 0
where none failed, or protobuf's Python package is missing (python3-protobuf on Debian, for
/usr/bin/python3), which is said; else 1.
"""

from __future__ import annotations

import argparse
import json
import random
import subprocess
import sys
import tempfile
from collections import Counter
from dataclasses import dataclass
from pathlib import Path
from typing import Any, Iterator, Optional

from random_versions import random_chain
from read_versions import Comparison, Reader, Writer, plain, silence
from schema_versions import Field, Version, descriptor_pb2, names_of, real_set

LOSSY = ("field-kind", "field-cardinality", "field-oneof", "field-required")
"""The changes at wire of a message by which something is lost."""

MOST_TRIES = 400
DIRECTIONS = ("backward", "forward")
FAILED = "failed"
OF_FIELDS = ("field-kind", "field-cardinality", "field-json", "field-repeated")
"""The changes of a field, but `field-default`, by which one that is missing may be read
otherwise."""

MISSING = {
    "missing alike": "read alike",
    "default": "reported by field-default",
    "missing, of the field": "by another change of the field",
}
"""What may come of a missing field, with its words."""


@dataclass
class Told:
    """A change that is reported: its code, its level, what it is at in the new version and in the
    older one, and the message and the number of the field, where it is one of a field."""

    code: str
    level: str
    places: tuple[Optional[str], Optional[str]]
    message: Optional[str] = None
    number: int = 0

    def is_lossy(self) -> bool:
        """Whether it loses something of a message."""
        return self.level == "wire" and self.code in LOSSY


class Program:
    """The program that reports changes."""

    def __init__(self, words: list[str], folder: str) -> None:
        self.words = words
        self.files = [str(Path(folder) / name) for name in ("old.pb", "new.pb")]

    def answer(self, old: Version, new: Version, compatibility: str) -> dict[str, Any]:
        """What it says of two versions."""
        for name, version in zip(self.files, (old, new)):
            Path(name).write_bytes(real_set(version).SerializeToString())
        how = ["--compatibility", compatibility, "--level", "source", "--max-faults", "10000"]
        words = [*self.words, "--against", self.files[0], *how, "--json", self.files[1]]
        done = subprocess.run(words, capture_output=True, check=False)
        answer = json.loads(done.stdout) if done.returncode in (0, 1) else {"verdict": None}
        if answer["verdict"] != "accepted":
            raise RuntimeError(f"{words}: {done.stdout.decode()}{done.stderr.decode()}")
        return answer

    def told(self, old: Version, new: Version, compatibility: str) -> dict[str, list[Told]]:
        """What it reports of each direction that is asked for."""
        answer = self.answer(old, new, compatibility)
        names = [{name: (at, one) for name, at, one in names_of(it)} for it in (new, old)]
        found: dict[str, list[Told]] = {one["direction"]: [] for one in answer["compared"]}
        for one in answer["changes"]:
            places = (one["element"], one["related"][0]["element"])
            told = Told(one["code"], one["level"], places)
            for place, known in zip(places, names):
                if told.message is None and place in known:
                    told.message, told.number = known[place][0], known[place][1].number
            found[one["direction"]].append(told)
        return found


@dataclass
class Direction:
    """A direction of a pair of versions: who writes, who reads, and what is reported."""

    name: str
    old: Reader
    new: Reader
    told: list[Told]

    def lossy(self) -> list[Told]:
        """The changes that lose something."""
        return [one for one in self.told if one.is_lossy()]

    def messages(self) -> list[str]:
        """The messages that both versions have."""
        return [name for name in self.old.version.messages if name in self.new.version.messages]

    def reached(self, name: str) -> set[str]:
        """A message of the version that writes, with all that its fields hold."""
        found: set[str] = set()
        waiting = [name]
        while waiting:
            at = waiting.pop()
            if at not in found:
                found.add(at)
                held = (self.old.version.held(at, one) for one in self.old.shapes[at])
                waiting += [one for one in held if one is not None]
        return found


def focus(one: Direction, told: Told) -> tuple[str, Optional[set[int]]]:
    """The message in which a change is looked for, and the numbers of its fields that are
    written."""
    name, number = told.message or "", told.number
    around, _, entry = name.partition(".")
    if entry:
        holder = next(it for it in one.old.shapes[around] if it.entry() == entry)
        return around, {holder.number}
    if told.code == "field-required":
        return name, set()
    oneof = one.new.numbered[name][number].oneof
    if told.code == "field-oneof":
        return name, {it.number for it in one.new.shapes[name] if it.oneof == oneof}
    return name, {number}


def is_under_another_name(one: Direction, told: Told) -> bool:
    """Whether a field holds a message under another name than before."""
    name = told.message or ""
    before, after = (it.numbered[name][told.number] for it in (one.old, one.new))
    held = [it.version.held(name, field) for it, field in ((one.old, before), (one.new, after))]
    return None not in held and held[0] != held[1]


def missing_of(reader: Reader, name: str, one: Field) -> Any:
    """What code reads of a missing field: a number, bytes, or that there is a list."""
    return "list" if one.is_list() else plain(reader.missing(name, one))


class Trial:
    """Random versions, and what came of them."""

    def __init__(self, program: Program, many: int, seed: int) -> None:
        self.program = program
        self.many = many
        self.rng = random.Random(seed)
        self.counts: Counter[str] = Counter()

    def fail(self, one: Direction, words: str) -> None:
        """Counts a fault, and prints it with both versions."""
        self.counts[FAILED] += 1
        print(f"{one.name}: {words}")
        for told in one.told:
            print(f"  told: {told}")
        for reader in (one.old, one.new):
            print(real_set(reader.version))

    def many_of(self, name: str) -> int:
        """How many messages of a name are tried."""
        return self.many if name == "M" else max(1, self.many // 6)

    def first_lost(self, old: Reader, new: Reader, name: str) -> Optional[str]:
        """A message in bytes that is not read by a version as it was written by another, if one is
        found; those that C++ alone reads otherwise are counted."""
        comparison, writer = Comparison(old, new), Writer(self.rng, old)
        for _ in range(self.many_of(name)):
            data = writer.write(name)
            if comparison.is_lost(name, data) or comparison.is_incomplete(name, data):
                if comparison.is_kept_as_defined(name, data):
                    self.counts["as defined"] += 1
                    continue
                return data.hex()
            self.counts["alike"] += 1
        return None

    def compare_messages(self, one: Direction) -> None:
        """Compares each message of which no change is reported that loses something."""
        changed_ones = {told.message for told in one.lossy()}
        for name in one.messages():
            if not one.reached(name) & changed_ones:
                lost = self.first_lost(one.old, one.new, name)
                if lost is not None:
                    self.fail(one, f"nothing is reported of {name}, and {lost} is read otherwise")

    def is_found(self, one: Direction, told: Told) -> bool:
        """Whether a message is found that is lost by a change."""
        comparison, writer = Comparison(one.old, one.new), Writer(self.rng, one.old)
        name, only = focus(one, told)
        for _ in range(MOST_TRIES):
            data = writer.write(name, only)
            if told.code == "field-required" and comparison.is_incomplete(name, data):
                return True
            if told.code != "field-required" and comparison.is_lost_either_way(name, data, only):
                return True
        return False

    def compare_told(self, one: Direction) -> None:
        """Looks for a message that is lost by each change that loses something."""
        for told in one.lossy():
            if self.is_found(one, told):
                self.counts["lost"] += 1
            elif told.code == "field-kind" and is_under_another_name(one, told):
                self.counts["in vain"] += 1
            else:
                self.fail(one, f"{told} is reported, and no message is found that it loses")

    def compare_names(self, one: Direction) -> None:
        """Compares which messages are gone with those that are reported."""
        gone = {
            f"m.{name}" for name in one.old.shapes
            if name not in one.new.shapes and not one.old.is_entry(name)
        }  # fmt: skip
        level, at = ("wire", 1) if one.name == "backward" else ("source", 0)
        ones = [it for it in one.told if (it.code, it.level) == ("message-removed", level)]
        told = {it.places[at] for it in ones}
        self.counts["gone"] += len(gone)
        if gone != told:
            self.fail(one, f"{gone} are gone, and {told} are reported")

    def compare_missing(self, one: Direction) -> None:
        """Compares what code reads of each field that is missing."""
        for name in one.messages():
            for before in one.old.version.messages[name].all_fields():
                after = one.new.numbered[name].get(before.number)
                held = [one.old.version.held(name, before)]
                if after is not None and held == [one.new.version.held(name, after)] == [None]:
                    self.compare_missing_field(one, name, before, after)

    def compare_missing_field(self, one: Direction, name: str, before: Field, after: Field) -> None:
        """Compares what code reads of a missing field with what is reported of it."""
        told = [it.code for it in one.told if (it.message, it.number) == (name, before.number)]
        values = missing_of(one.old, name, before), missing_of(one.new, name, after)
        if values[0] == values[1]:
            self.counts["default in vain"] += "field-default" in told
            self.counts["missing alike"] += 1
        elif "field-default" in told:
            self.counts["default"] += 1
        elif set(told) & set(OF_FIELDS):
            self.counts["missing, of the field"] += 1
        else:
            self.fail(one, f"a missing {before} of {name} is read otherwise: {values}")

    def compare_pair(self, old: Reader, new: Reader, compatibility: str) -> list[Direction]:
        """Compares a pair of versions with what is reported of it, in each direction that is asked
        for."""
        found = []
        for direction, told in self.program.told(old.version, new.version, compatibility).items():
            readers = (old, new) if direction == "backward" else (new, old)
            one = Direction(direction, *readers, told)
            self.counts["directions"] += 1
            self.counts["untold"] += not any(it.level == "wire" for it in told)
            self.compare_messages(one)
            self.compare_told(one)
            self.compare_names(one)
            self.compare_missing(one)
            found.append(one)
        return found

    def compare_chain(self, readers: list[Reader], steps: list[Direction]) -> None:
        """Compares the first and the last of three versions by what is reported of each step."""
        codes = {it.code for step in steps for it in step.told if it.level == "wire"}
        if codes & set(LOSSY):
            return
        whole = Direction("the first and the last of three", readers[0], readers[2], [])
        found = [(name, self.first_lost(readers[0], readers[2], name)) for name in whole.messages()]
        lost = [f"{name} {data}" for name, data in found if data is not None]
        if codes:
            self.counts["weaker chains"] += 1
            self.counts["weaker chains, lost"] += bool(lost)
            return
        self.counts["chains"] += 1
        if lost:
            self.fail(whole, f"nothing is reported of a step, and {lost} is read otherwise")

    def run(self, pairs: int) -> None:
        """Compares pairs of versions."""
        while pairs > 0:
            versions = random_chain(self.rng, min(pairs, self.rng.randint(1, 2)))
            readers = [Reader(version) for version in versions]
            asked = "full" if len(readers) > 2 else self.rng.choice(["full", "full", *DIRECTIONS])
            steps = []
            for old, new in zip(readers, readers[1:]):
                steps += self.compare_pair(old, new, asked)
            if len(readers) > 2:
                self.compare_chain(readers, [one for one in steps if one.name == "backward"])
            pairs -= len(readers) - 1


def lines(counts: Counter[str]) -> Iterator[str]:
    """What is printed of the counts."""
    missing = sum(counts[one] for one in MISSING)
    yield f"{counts['directions']} directions, of which {counts['untold']} have no change at wire"
    yield f"{counts['alike'] + counts['as defined']} messages are read as they were written"
    yield f"  {counts['as defined']} of these, but for an open enum in a field of proto2"
    yield f"{counts['gone']} messages are gone, and reported"
    yield f"{counts['lost']} changes lose something, and a message shows it"
    yield f"  {counts['in vain']} more are reported, and none does: of messages under another name"
    yield f"{missing} missing fields are read alike, or it is reported"
    yield "  " + ", ".join(f"{counts[one]} {words}" for one, words in MISSING.items())
    yield f"  {counts['default in vain']} read alike, and reported by field-default"
    yield f"{counts['chains']} chains of three versions have no change at wire in a step"
    yield f"  {counts['weaker chains']} more have, by which a step loses nothing: the whole does"
    yield f"  in {counts['weaker chains, lost']} of them"
    passed = sum(counts[one] for one in ("alike", "as defined", "lost", "gone")) + missing
    yield f"{passed} passed, {counts[FAILED]} failed"


def main() -> int:
    """Does what the arguments ask."""
    parser = argparse.ArgumentParser(
        description=__doc__, formatter_class=argparse.RawDescriptionHelpFormatter
    )
    parser.add_argument("--pairs", type=int, default=4000, help="how many pairs of versions")
    parser.add_argument("--messages", type=int, default=20, help="how many messages a direction")
    parser.add_argument("--seed", type=int, default=1)
    parser.add_argument("program", nargs="+", help="check_descriptors, or a command for it")
    asked = parser.parse_args()
    if descriptor_pb2 is None:
        print("left out: protobuf's Python package is missing")
        return 0
    with tempfile.TemporaryDirectory() as folder, silence():
        trial = Trial(Program(asked.program, folder), asked.messages, asked.seed)
        trial.run(asked.pairs)
    print(*lines(trial.counts), sep="\n")
    return 1 if trial.counts[FAILED] else 0


if __name__ == "__main__":
    sys.exit(main())
