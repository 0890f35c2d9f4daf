"""The pool."""

from __future__ import annotations

import ctypes
import json
import os
import weakref
from collections.abc import Callable, Iterable, Iterator
from importlib import import_module
from typing import Any, NamedTuple, Optional, Protocol, TypeVar, Union, cast

from ._asked import Name, bytes_of, index_of, name_bytes, number_of, only, place_of
from ._core import Core, new_core
from ._database import Database, found_file, with_imports
from ._described import Described, all_of, at_indexes
from ._library import COMPATIBILITIES, KINDS, LEVELS, NONE, Item, lib
from ._names import Found
from ._records import name_of
from .descriptors import (
    CLASSES,
    Descriptor,
    EnumDescriptor,
    EnumValueDescriptor,
    ExtensionDescriptor,
    FieldDescriptor,
    FileDescriptor,
    MethodDescriptor,
    OneofDescriptor,
    ServiceDescriptor,
)
from .faults import Changes, Error, Fault, Refused, changes_of, fault_at, fault_of

__all__ = ["Added", "Buffer", "Counts", "Definition", "Message", "Pool", "pool_of"]

Buffer = Union[bytes, bytearray, memoryview]
"""What bytes may be handed over in."""

MOST_KEPT = 10_000
"""How many descriptors a pool keeps that were found by name, and as many files."""

PACKAGE: Found = (0, NONE, 0, NONE)
"""A package, of which there is no descriptor."""

D = TypeVar("D", bound=Described)


class Message(Protocol):
    """A message of protobuf's package, as descriptor_pb2 has them."""

    def SerializeToString(self) -> bytes: ...


class Counts(NamedTuple):
    """How much a pool has of each kind that has indexes."""

    files: int
    messages: int
    enums: int
    services: int
    extensions: int


class Added(NamedTuple):
    """What became of the files that were to be linked: how many were linked, how many were passed
    over since the pool had a file of their name, and how many of those differ from the pool's
    linked file, apart from their source info."""

    files: int
    passed_over: int
    differing: int


class Definition(NamedTuple):
    """What a full name means: its kind, one of `KINDS`; its index, and its position in what has the
    index, where it is a part; the index of its file; and the path of its name in the file's record.
    """

    kind: str
    index: int  # type: ignore[assignment]
    position: int
    file: int
    path: tuple[int, ...]


class Pool:
    """Linked files, and what they declare.

    What a pool has stays: files may be added, and descriptors that were asked for before go on to
    hold. Threads may share a pool. A pool may be used in a `with` statement, which frees it at the
    end. `copy.copy` makes what `clone` makes. A pool can't be pickled.

    `len(pool)` is how many files it has, `name in pool` tells whether a full name means something,
    and `pool[name]` is the descriptor of what it means.
    """

    def __init__(self, descriptor_db: Optional[Database] = None) -> None:
        """An empty pool. Where a database is given, a name that the pool does not have is looked for
        there, and its file is linked, with those that it imports."""
        self._set_core(new_core())
        self._core.database = descriptor_db

    def _set_core(self, core: Core) -> None:
        """Makes it the pool of a core. Descriptors know the core alone, so that what is kept of them
        makes no circle."""
        core.owner = weakref.ref(self)
        self._core = core
        self._theirs: Optional[tuple[Core, Any, set[int]]] = None
        self._forget()

    def _forget(self) -> None:
        """Keeps nothing that was found by name."""
        self._kept: dict[tuple[object, Name], Any] = {}
        self._files: dict[Name, FileDescriptor] = {}

    def close(self) -> None:
        """Frees what the pool owns. It has no files then, and its descriptors raise a LookupError.
        It may be filled again: it has a core of its own for that, and other descriptors."""
        core, next_core = self._core, new_core()
        next_core.owner, next_core.database = weakref.ref(self), core.database
        try:
            core.close()
        finally:
            # no call is made here, after which a handler of signals could raise an exception
            if core.gone is not None and self._core is core:
                self._core = next_core
        self._forget()

    def __enter__(self) -> Pool:
        return self

    def __exit__(self, *_: object) -> None:
        self.close()

    def __repr__(self) -> str:
        told = ", ".join(f"{name}={count}" for name, count in self.counts()._asdict().items())
        return f"<protolink.Pool: {told}>"

    def __len__(self) -> int:
        return self.counts().files

    def __bool__(self) -> bool:
        """True, as that of protobuf's own pool, also where it has no files."""
        return True

    def __contains__(self, full_name: object) -> bool:
        try:
            return isinstance(full_name, (str, bytes)) and self._found(full_name) is not None
        except KeyError:
            return False

    def __getitem__(self, full_name: Name) -> Any:
        kind, index, position, _ = self._found(full_name) or PACKAGE
        core, class_ = self._core, CLASSES[kind]
        if class_ is None:
            raise KeyError(f"the pool has no {full_name!r}")
        return class_(core, index, position)

    def __iter__(self) -> Iterator[FileDescriptor]:
        return iter(self.files())

    def __copy__(self) -> Pool:
        return self.clone()

    def __deepcopy__(self, memo: dict[int, Any]) -> Pool:
        return self.clone()

    def __reduce__(self) -> Any:
        raise TypeError("a Pool can't be pickled, but the bytes of its linked() can")

    # Files go in

    def add_set(self, data: Union[Buffer, os.PathLike[str], Message]) -> Added:
        """Links the files of a FileDescriptorSet in one batch: of its bytes, of the file at a path,
        or of a message of protobuf's package. Those whose names the pool has are passed over, also
        where they are others: the answer tells how many differ. Raises an `Error` where they are not
        linked."""
        return self._add(lib.pool_add_set, bytes_of(data, "FileDescriptorSet"))

    def add_file(self, data: Union[Buffer, os.PathLike[str], Message]) -> Added:
        """Links the file of a FileDescriptorProto, as `add_set` does."""
        return self._add(lib.pool_add_file, bytes_of(data, "FileDescriptorProto"))

    def add_files(self, files: Iterable[Union[Buffer, os.PathLike[str], Message]]) -> Added:
        """Links the files of several FileDescriptorProtos in one batch and in any order, as
        `add_set` does."""
        records = [bytes_of(file, "FileDescriptorProto") for file in files]
        lens = (ctypes.c_size_t * len(records))(*map(len, records))
        return self._add(lib.pool_add_files, b"".join(records), lens, len(records))

    def add_script(self, script: Union[str, Buffer]) -> Added:
        """Links the files that a script of lines declares, as `add_set` does."""
        is_text = isinstance(script, str)
        data = name_bytes(cast(str, script)) if is_text else bytes_of(script, "script")
        return self._add(lib.pool_add_script, data)

    def _add(self, call: Callable[..., int], data: bytes, *more: object) -> Added:
        added = self._core.add(call, data, *more)
        return Added(*(getattr(added, name) for name in Added._fields))

    def limit_faults(self, most: int) -> None:
        """Sets how many faults are told at most where files break rules, from the next call on: a
        hundred where this was never called. A copy has the same limit."""
        most = number_of(most)
        if most < 0:
            raise ValueError("a number of faults is not below 0")
        self._core.limit_faults(most)

    def report(self) -> str:
        """What the last call tells that was to link files, in lines for people; empty where it
        linked them."""
        return self._core.written(lib.pool_report).decode()

    def report_json(self) -> str:
        """The same as an object of JSON."""
        return self._core.written(lib.pool_report_json).decode()

    @property
    def faults(self) -> list[Fault]:
        """The faults that the last call tells that was to link files, or none where it linked
        them."""
        text = self.report_json()
        return [fault_of(fault) for fault in json.loads(text)["faults"]] if text else []

    def changes(
        self, older: Pool, level: str = "wire", compatibility: str = "backward"
    ) -> Changes:
        """What the pool changes of an older one. Backward it is where a reader of its files reads
        otherwise, or not at all, what a writer of the older ones writes; forward, where a reader of
        the older ones does so with what a writer of its files writes; full is both, one of
        `COMPATIBILITIES`. The higher levels of `LEVELS` have more."""
        core = only(older, Pool, "an older pool is a Pool")._core
        asked = (
            place_of(level, LEVELS, "a level"),
            place_of(compatibility, COMPATIBILITIES, "a compatibility"),
        )
        return changes_of(json.loads(self._core.changes(core, *asked)))

    def clone(self) -> Pool:
        """A pool with equal contents, which shares nothing with this one."""
        return pool_of(self._core.clone())

    # Linked files go out

    def linked(self) -> bytes:
        """The linked files, as the bytes of one FileDescriptorSet."""
        return self._core.linked()

    def linked_file(self, index: int) -> bytes:
        """A linked file, as the bytes of its FileDescriptorProto; past the end an IndexError."""
        return self._core.linked_file(index_of(index))

    def linked_files(self) -> Iterator[bytes]:
        """The linked files, each as the bytes of its FileDescriptorProto, and behind those that it
        imports, as protobuf's own pool wants them. Of files that import each other one is first."""
        return map(self.linked_file, self._imports_first(set()))

    def to_protobuf(self) -> Any:
        """A DescriptorPool of protobuf's package that has the linked files, for its message_factory.
        A later call answers the same one, with the files that were added since."""
        core, kept = self._core, self._theirs
        if kept is None or kept[0] is not core:
            kept = self._theirs = core, _protobuf_pool(), set()
        _, theirs, handed_over = kept
        for index in self._imports_first(set(handed_over)):
            theirs.AddSerializedFile(self.linked_file(index))
            handed_over.add(index)
        return theirs

    def _imports_first(self, seen: set[int]) -> Iterator[int]:
        """The indexes of all files but some, each behind those of the files that it imports."""
        for index in range(len(self)):
            stack = [(index, iter([index]))]
            while stack:
                file, rest = stack[-1]
                further = next((imported for imported in rest if imported not in seen), None)
                if further is not None:
                    seen.add(further)
                    stack.append((further, iter(self._core.numbers(lib.file_import, further))))
                    continue
                stack.pop()
                if stack:
                    yield file

    # What a pool has

    def counts(self) -> Counts:
        """How much the pool has of each kind."""
        counts = self._core.counts()
        return Counts(*(getattr(counts, name) for name in Counts._fields))

    def find(self, full_name: Name) -> Optional[Definition]:
        """What a full name means, which may have one leading dot, or None."""
        told = self._core.defined(name_bytes(full_name))
        if told is None and self._found(full_name) is not None:
            told = self._core.defined(name_bytes(full_name))
        return None if told is None else Definition(KINDS[told[0]], *told[1:])

    def _found(self, full_name: Name) -> Optional[Found]:
        """What a name means, where it is needed with a file of the database."""
        core = self._core
        found = core.found(name_bytes(full_name))
        if found is None and core.database is not None:
            if self._load("FindFileContainingSymbol", _text(full_name).lstrip(".")):
                found = core.found(name_bytes(full_name))
        return found

    def _load(self, call: str, *asked: object) -> bool:
        """Links a file that a call of the database finds, with those that it imports. Answers whether
        there was one that the pool did not have. Raises a KeyError where they are not linked."""
        core = self._core
        file = None if core.database is None else found_file(core.database, call, *asked)
        if file is None or self._has_file(file.name):
            return False
        try:
            self.add_files(with_imports(core.database, file, self._has_file))
        except Error as fault:
            raise KeyError(f"the file of {asked[0]!r} is not linked: {fault}") from fault
        return True

    def _has_file(self, name: str) -> bool:
        return self._core.file_named(name_bytes(name)) is not None

    def files(self) -> list[FileDescriptor]:
        """The files, in the order of linking."""
        core = self._core
        return at_indexes(core, FileDescriptor, range(core.counts().files))

    def messages(self) -> list[Descriptor]:
        """The messages, nested ones too, in the order of linking."""
        core = self._core
        return all_of(core, Descriptor, core.counts().messages)

    def enums(self) -> list[EnumDescriptor]:
        """The enums, nested ones too, in the order of linking."""
        core = self._core
        return all_of(core, EnumDescriptor, core.counts().enums)

    def services(self) -> list[ServiceDescriptor]:
        """The services, in the order of linking."""
        core = self._core
        return all_of(core, ServiceDescriptor, core.counts().services)

    def extensions(self) -> list[ExtensionDescriptor]:
        """The extensions, nested ones too, in the order of linking."""
        core = self._core
        return all_of(core, ExtensionDescriptor, core.counts().extensions)

    def file(self, name: Name) -> FileDescriptor:
        """The file with a name, or a KeyError."""
        core, files = self._core, self._files
        kept = files.get(name)
        if kept is not None and kept._core is core:
            return kept
        index = core.file_named(name_bytes(name))
        if index is None and self._load("FindFileByName", _text(name)):
            index = core.file_named(name_bytes(name))
        if index is None:
            raise KeyError(f"the pool has no file {name!r}")
        made = core.held.one(core, FileDescriptor, index, 0)
        if len(files) >= MOST_KEPT:
            files.clear()
        files[name] = made
        return made

    def file_of(self, full_name: Name) -> FileDescriptor:
        """The file that declares a full name, or a KeyError; of a package the first that has it."""
        found = self._found(full_name)
        if found is None:
            raise KeyError(f"the pool has no {full_name!r}")
        core = self._core
        return core.held.one(core, FileDescriptor, found[3], 0)

    def message(self, full_name: Name) -> Descriptor:
        """The message with a full name, or a KeyError."""
        return self._named(full_name, Descriptor)

    def field(self, full_name: Name) -> FieldDescriptor:
        """The field with a full name, which is no extension, or a KeyError."""
        return self._named(full_name, FieldDescriptor)

    def oneof(self, full_name: Name) -> OneofDescriptor:
        """The oneof with a full name, or a KeyError."""
        return self._named(full_name, OneofDescriptor)

    def enum(self, full_name: Name) -> EnumDescriptor:
        """The enum with a full name, or a KeyError."""
        return self._named(full_name, EnumDescriptor)

    def enum_value(self, full_name: Name) -> EnumValueDescriptor:
        """The value of an enum with a full name, or a KeyError. It stands beside its enum, so that
        the enum is no part of its name."""
        return self._named(full_name, EnumValueDescriptor)

    def service(self, full_name: Name) -> ServiceDescriptor:
        """The service with a full name, or a KeyError."""
        return self._named(full_name, ServiceDescriptor)

    def method(self, full_name: Name) -> MethodDescriptor:
        """The method with a full name, or a KeyError."""
        return self._named(full_name, MethodDescriptor)

    def extension(self, full_name: Name) -> ExtensionDescriptor:
        """The extension with a full name, or a KeyError."""
        return self._named(full_name, ExtensionDescriptor)

    # The names of protobuf's descriptor_pool

    FindFileByName = file
    FindFileContainingSymbol = file_of
    FindMessageTypeByName = message
    FindFieldByName = field
    FindOneofByName = oneof
    FindEnumTypeByName = enum
    FindServiceByName = service
    FindMethodByName = method
    FindExtensionByName = extension

    def FindExtensionByNumber(self, message: Descriptor, number: int) -> ExtensionDescriptor:
        """The extension of a message with a number, or a KeyError."""
        extended = only(message, Descriptor, "a message is a Descriptor")
        try:
            return extended.extension(number)
        except KeyError:
            if not self._load("FindFileContainingExtension", extended.full_name, number):
                raise
            return extended.extension(number)

    def FindAllExtensions(self, message: Descriptor) -> list[ExtensionDescriptor]:
        """The extensions of the pool that extend a message, in the order of linking."""
        extended = only(message, Descriptor, "a message is a Descriptor")
        name, database = extended.full_name, self._core.database
        for number in found_file(database, "FindAllExtensionNumbers", name) or ():
            self._load("FindFileContainingExtension", name, number)
        return extended.all_extensions

    def Add(self, file: Message) -> FileDescriptor:
        """Links a FileDescriptorProto of protobuf's package, and answers the file with its name. A
        file that the pool has is that. Raises a Refused where the pool has another of its name."""
        return self.AddSerializedFile(bytes_of(file, "FileDescriptorProto"))

    def AddSerializedFile(self, data: Buffer) -> FileDescriptor:
        """The same of the bytes of a FileDescriptorProto."""
        record = bytes_of(data, "FileDescriptorProto")
        name = "" if self.add_file(record).differing == 0 else name_of(record)
        if name:
            raise Refused([fault_at(name, "UnequalFile", f"the pool has another file '{name}'")])
        return self.file(name_of(record))

    def AddDescriptor(self, desc: Descriptor) -> None:
        """Does nothing with a message of the pool, as protobuf's own pool. Raises a TypeError where
        it is no descriptor of one, and a ValueError where it is of another pool."""
        self._only_own(desc, Descriptor)

    def AddEnumDescriptor(self, enum_desc: EnumDescriptor) -> None:
        """The same with an enum."""
        self._only_own(enum_desc, EnumDescriptor)

    def AddServiceDescriptor(self, service_desc: ServiceDescriptor) -> None:
        """The same with a service."""
        self._only_own(service_desc, ServiceDescriptor)

    def AddExtensionDescriptor(self, extension: ExtensionDescriptor) -> None:
        """The same with an extension."""
        self._only_own(extension, ExtensionDescriptor)

    def AddFileDescriptor(self, file_desc: FileDescriptor) -> None:
        """The same with a file."""
        self._only_own(file_desc, FileDescriptor)

    def _only_own(self, item: Any, wanted: type[Described]) -> None:
        described = only(item, wanted, f"what is added is a {wanted.__name__}")
        if described._core is not self._core:
            raise ValueError(f"{described!r} is of another pool")

    # By index

    def file_name(self, index: int) -> str:
        """The name of a file. Raises an IndexError past the end."""
        return self._core.written(lib.file_name, index_of(index)).decode()

    def full_name(self, kind: str, index: int, position: int = 0) -> str:
        """The full name of an item, whose kind is one of `KINDS`. Raises an IndexError where the pool
        has none."""
        item = Item(place_of(kind, KINDS, "a kind"), index_of(index), index_of(position))
        return self._core.written(lib.full_name, item).decode()

    def _named(self, full_name: Name, wanted: type[D]) -> D:
        """The descriptor of what a name means, where it is of a kind."""
        core, known = self._core, self._kept
        kept = known.get((wanted, full_name))
        if kept is not None and kept._core is core:
            return cast(D, kept)
        kind, index, position, _ = self._found(full_name) or PACKAGE
        if CLASSES[kind] is not wanted:
            name = KINDS[CLASSES.index(cast(Any, wanted))].replace("_", " ")
            raise KeyError(f"the pool has no {name} {full_name!r}")
        made = core.held.one(core, wanted, index, position)
        if len(known) >= MOST_KEPT:
            known.clear()
        known[wanted, full_name] = made
        return made


def _text(name: Name) -> str:
    """A name as a database is asked for it."""
    return name if isinstance(name, str) else name.decode(errors="replace")


def _protobuf_pool() -> Any:
    """An empty DescriptorPool of protobuf's package."""
    try:
        return import_module("google.protobuf.descriptor_pool").DescriptorPool()
    except ImportError as fault:
        raise ImportError(f"{fault}: this wants protobuf's package") from fault


def pool_of(core: Core) -> Pool:
    """The pool of a core: that which is there, else a new one."""
    pool = core.owner() if core.owner is not None else None
    if pool is None:
        pool = Pool.__new__(Pool)
        pool._set_core(core)
    return pool
