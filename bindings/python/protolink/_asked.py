"""What a caller hands over, as the library takes it. What is of a wrong type is a TypeError."""

from __future__ import annotations

import os
from collections.abc import Sequence
from operator import index
from pathlib import Path
from typing import Any, TypeVar, Union

from ._library import NONE

Name = Union[str, bytes]
"""What names may be asked for by."""

T = TypeVar("T")


def wrong(value: object, what: str, hint: str = "") -> TypeError:
    """The error that a value is of a wrong type."""
    return TypeError(f"{what}, and not of type {type(value).__name__}{hint}")


def only(value: Any, wanted: type[T], what: str) -> T:
    """A value of a type."""
    if not isinstance(value, wanted):
        raise wrong(value, what)
    return value


def exact(data: Any) -> bytes:
    """The bytes of a buffer. A subclass of bytes may say another length than it has, so that it is
    copied."""
    return data if type(data) is bytes else memoryview(data).tobytes()


def name_bytes(name: Name) -> bytes:
    """A name. What is no text means nothing to the library."""
    if isinstance(name, str):
        try:
            return str.encode(name)
        except UnicodeEncodeError:
            return str.encode(name, "utf-8", "surrogatepass")
    return exact(only(name, bytes, "a name is a str"))


def number_of(number: int) -> int:
    """A whole number."""
    try:
        return index(number)
    except TypeError:
        raise wrong(number, "a number is an int") from None


def index_of(number: int) -> int:
    """A number as an index. One that is none is past every end."""
    number = number_of(number)
    return number if 0 <= number < NONE else NONE


def place_of(word: str, words: Sequence[str], what: str) -> int:
    """The place of a word among those that are known."""
    if only(word, str, f"{what} is a str") not in words:
        raise ValueError(f"{word!r} is none of {', '.join(words)}")
    return words.index(word)


def bytes_of(data: Any, what: str) -> bytes:
    """The bytes of what is to be linked."""
    if isinstance(data, os.PathLike):
        return Path(data).read_bytes()
    if hasattr(data, "SerializeToString"):
        data = data.SerializeToString()
    if isinstance(data, (bytes, bytearray, memoryview)):
        return exact(data)
    hint = "; give a path as pathlib.Path(..)" if isinstance(data, str) else ""
    raise wrong(data, f"a {what} is bytes, a path or a message of protobuf", hint)


def copy_to(proto: Any, name: str, record: bytes) -> None:
    """Copies a record to a message of protobuf's package, which is to be one of descriptor.proto
    with a name."""
    described = getattr(type(proto), "DESCRIPTOR", None)
    if getattr(described, "full_name", None) != f"google.protobuf.{name}":
        raise wrong(proto, f"the record is copied to a {name} of protobuf's package")
    proto.ParseFromString(record)
