"""Files of a database of descriptors, as protobuf's descriptor_database is one."""

from __future__ import annotations

from collections.abc import Callable
from typing import Any, Optional, Protocol

__all__ = ["Database", "found_file", "with_imports"]


class Database(Protocol):
    """Where a pool finds files that it does not have, as FileDescriptorProtos. What is not there is
    None or a KeyError. It may also have FindFileContainingSymbol, FindFileContainingExtension and
    FindAllExtensionNumbers."""

    def FindFileByName(self, name: str, /) -> Any: ...


def found_file(database: object, call: str, *asked: object) -> Any:
    """What a call of a database answers, or None where there is nothing, or no such call."""
    find = getattr(database, call, None)
    try:
        return None if find is None else find(*asked)
    except KeyError:
        return None


def with_imports(database: object, file: Any, is_known: Callable[[str], bool]) -> list[Any]:
    """A file, and all that it imports, also by others, that are not known and that a database has."""
    found: dict[str, Optional[Any]] = {file.name: file}
    wanted = [file]
    while wanted:
        lacking = {name for name in wanted.pop().dependency if name not in found}
        for name in lacking:
            found[name] = None if is_known(name) else found_file(database, "FindFileByName", name)
        wanted += [found[name] for name in lacking if found[name] is not None]
    return [it for it in found.values() if it is not None]
