#!/usr/bin/env python3
"""A registry of schemas. It takes a version that links over the files that all versions share, and
reads what was written by the version that it took last.

    python3 registry.py COMMON SET..

COMMON is the set of the shared files, and each SET is a version, in order. A line tells of each
version whether it is taken, and lines below it why not; the last line counts. Exit status: 0 all
versions are taken, 1 some are not, 2 an argument is no set.
"""

from __future__ import annotations

import sys
from collections.abc import Iterator
from pathlib import Path
from typing import Optional, Union

import protolink


class Registry:
    """The versions that were taken, each as a pool."""

    def __init__(self, common: Union[bytes, Path]) -> None:
        self.common = protolink.Pool()
        self.common.add_set(common)
        self.taken: list[protolink.Pool] = []

    def offer(self, version: Union[bytes, Path]) -> list[str]:
        """Takes a version, or answers why it is not taken. Raises a `protolink.Unreadable` where it
        is no set."""
        pool = self.common.clone()
        try:
            pool.add_set(version)
        except protolink.Refused as refused:
            return [str(fault) for fault in refused.faults]
        if len(pool) == len(self.common):
            return ["it has no file besides the shared ones"]
        reasons = list(changes(self.taken[-1], pool)) if self.taken else []
        if not reasons:
            self.taken.append(pool)
        return reasons


def changes(old: protolink.Pool, new: protolink.Pool) -> Iterator[str]:
    """What of an older version the newer one reads otherwise, or not at all."""
    for message in old.messages():
        if message.full_name not in new:
            yield f"{message.full_name} is gone"
            continue
        numbers = new.message(message.full_name).fields_by_number
        for number, field in message.fields_by_number.items():
            later = numbers.get(number)
            if later is None:
                yield f"{field.full_name} is gone"
            elif words(later) != words(field):
                yield f"{field.full_name} was {words(field)}, and is {words(later)}"


def words(field: protolink.FieldDescriptor) -> str:
    """How a field is read: its label and its type, of a message or an enum by its full name."""
    type_: Optional[Union[protolink.Descriptor, protolink.EnumDescriptor]]
    type_ = field.message_type or field.enum_type
    name = type_.full_name if type_ is not None else protolink.TYPES[field.type - 1]
    return f"{protolink.LABELS[field.label - 1]} {name}"


def main(arguments: list[str]) -> int:
    """Offers versions to a registry, and answers the exit status."""
    if len(arguments) < 2:
        print((__doc__ or "").strip())
        return 2
    refused = 0
    try:
        registry = Registry(Path(arguments[0]))
        for name in arguments[1:]:
            reasons = registry.offer(Path(name))
            print(f"{name}: {'not taken' if reasons else 'taken'}")
            for reason in reasons:
                print(f"  {reason}")
            refused += bool(reasons)
    except (protolink.Error, OSError) as fault:
        print(f"registry.py: {fault}", file=sys.stderr)
        return 2
    print(f"{len(registry.taken)} taken, {refused} not taken")
    return 1 if refused else 0


if __name__ == "__main__":
    sys.exit(main(sys.argv[1:]))
