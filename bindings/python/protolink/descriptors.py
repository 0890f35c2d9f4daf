"""What a pool has: files, messages and the others, with the names that protobuf's descriptors have.

A descriptor is told by its pool and its place there. Two are equal where both are the same.
"""

from __future__ import annotations

import ctypes
from collections.abc import Callable
from typing import TYPE_CHECKING, Any, Optional, Union

from ._asked import Name, name_bytes, number_of, only
from ._cached import cached_property
from ._described import Deprecated, Described, Named, at_indexes, by_name, parts_of
from ._library import NONE, lib
from ._locations import Location
from ._records import public_dependencies
from ._told import (
    DEFAULT,
    ENUM,
    ENUM_RESERVED_RANGE,
    ENUM_VALUE,
    EXTENSION,
    EXTENSION_RANGE,
    FIELD,
    FILE,
    JSON_NAME,
    MESSAGE,
    METHOD,
    ONEOF,
    RESERVED_RANGE,
    SERVICE,
)

if TYPE_CHECKING:
    from ._core import Core

__all__ = [
    "CLASSES",
    "Descriptor",
    "EnumDescriptor",
    "EnumValueDescriptor",
    "ExtensionDescriptor",
    "FieldDescriptor",
    "FileDescriptor",
    "Location",
    "MethodDescriptor",
    "OneofDescriptor",
    "ServiceDescriptor",
]

Default = Union[None, bool, int, float, str, bytes, list[Any]]
"""The default value of a field."""



def _camel_case(name: str) -> str:
    """A name without underlines, and with the letter behind each in upper case."""
    first, *others = name.split("_")
    return first + "".join(other[:1].upper() + other[1:] for other in others)


class FileDescriptor(Described):
    """A file of a pool."""

    _teller = FILE
    _options = "FileOptions"
    _record = "FileDescriptorProto"

    def _told(self) -> str:
        return self.name

    @cached_property
    def index(self) -> int:
        """Its index in the pool, in the order of linking."""
        return self._index

    @cached_property
    def name(self) -> str:
        """Its name, as `shop/order.proto`."""
        return self._core.written(lib.file_name, self._index).decode()

    @cached_property
    def package(self) -> str:
        """Its package, or an empty text."""
        return self._core.written(lib.file_package, self._index).decode()

    @property
    def syntax(self) -> str:
        """The version of the language: `proto2` or `proto3`."""
        return f"proto{self._info.syntax}"

    @property
    def serialized_pb(self) -> bytes:
        """The linked file, as the bytes of its FileDescriptorProto."""
        return self._core.linked_file(self._index)

    @property
    def dependencies(self) -> list[FileDescriptor]:
        """The files that it imports, in the order of its imports."""
        imported = self._core.numbers(lib.file_import, self._index)
        return at_indexes(self._core, FileDescriptor, imported)

    @property
    def public_dependencies(self) -> list[FileDescriptor]:
        """The files that it imports publicly."""
        imported = self.dependencies
        return [imported[position] for position in public_dependencies(self.serialized_pb)]

    @property
    def is_deprecated(self) -> bool:
        """Whether its options say so."""
        return bool(self._info.is_deprecated)

    @property
    def options(self) -> bytes:
        """Its options, as the bytes of a FileOptions, also those that the library does not read.
        Where it has none, there are no bytes."""
        return self._core.written(lib.file_options, self._index)

    @cached_property
    def message_types(self) -> list[Descriptor]:
        """The messages that are declared in it and in no message."""
        return at_indexes(self._core, Descriptor, self._core.below("message", self._index))

    @cached_property
    def enum_types(self) -> list[EnumDescriptor]:
        """The enums that are declared in it and in no message."""
        return at_indexes(self._core, EnumDescriptor, self._core.below("enum", self._index))

    @cached_property
    def extensions(self) -> list[ExtensionDescriptor]:
        """The extensions that are declared in it and in no message."""
        indexes = self._core.below("extension", self._index)
        return at_indexes(self._core, ExtensionDescriptor, indexes)

    @cached_property
    def services(self) -> list[ServiceDescriptor]:
        """The services that are declared in it."""
        return at_indexes(self._core, ServiceDescriptor, self._core.below("service", self._index))

    @cached_property
    def message_types_by_name(self) -> dict[str, Descriptor]:
        return by_name(self.message_types)

    @cached_property
    def enum_types_by_name(self) -> dict[str, EnumDescriptor]:
        return by_name(self.enum_types)

    @cached_property
    def extensions_by_name(self) -> dict[str, ExtensionDescriptor]:
        return by_name(self.extensions)

    @cached_property
    def services_by_name(self) -> dict[str, ServiceDescriptor]:
        return by_name(self.services)


class Descriptor(Deprecated):
    """A message of a pool."""

    _teller = MESSAGE
    _kind = "message"
    _options = "MessageOptions"
    _record = "DescriptorProto"

    @property
    def file(self) -> FileDescriptor:
        """The file that declares it."""
        return FileDescriptor(self._core, self._info.file)

    @property
    def syntax(self) -> str:
        """The version of the language of its file."""
        return self.file.syntax

    @property
    def containing_type(self) -> Optional[Descriptor]:
        """The message that it is declared in, or None."""
        return _message_or_none(self._core, self._info.parent)

    @cached_property
    def fields(self) -> list[FieldDescriptor]:
        """Its fields, in the order of declaration."""
        return parts_of(self._core, FieldDescriptor, self._index, self._info.fields)

    @cached_property
    def fields_by_name(self) -> dict[str, FieldDescriptor]:
        return by_name(self.fields)

    @cached_property
    def fields_by_number(self) -> dict[int, FieldDescriptor]:
        return {field.number: field for field in self.fields}

    @cached_property
    def fields_by_camelcase_name(self) -> dict[str, FieldDescriptor]:
        return {field.camelcase_name: field for field in self.fields}

    @cached_property
    def oneofs(self) -> list[OneofDescriptor]:
        """Its oneofs, in the order of declaration, those of optional fields of proto3 too."""
        return parts_of(self._core, OneofDescriptor, self._index, self._info.oneofs)

    @cached_property
    def oneofs_by_name(self) -> dict[str, OneofDescriptor]:
        return by_name(self.oneofs)

    def _below(self, kind: str) -> list[int]:
        return self._core.below(kind, self._info.file, self._index)

    @cached_property
    def nested_types(self) -> list[Descriptor]:
        """The messages that are declared in it."""
        return at_indexes(self._core, Descriptor, self._below("message"))

    @cached_property
    def nested_types_by_name(self) -> dict[str, Descriptor]:
        return by_name(self.nested_types)

    @cached_property
    def enum_types(self) -> list[EnumDescriptor]:
        """The enums that are declared in it."""
        return at_indexes(self._core, EnumDescriptor, self._below("enum"))

    @cached_property
    def enum_types_by_name(self) -> dict[str, EnumDescriptor]:
        return by_name(self.enum_types)

    @cached_property
    def enum_values_by_name(self) -> dict[str, EnumValueDescriptor]:
        """The values of the enums that are declared in it."""
        return {value.name: value for enum in self.enum_types for value in enum.values}

    @cached_property
    def extensions(self) -> list[ExtensionDescriptor]:
        """The extensions that are declared in it, whatever they extend."""
        return at_indexes(self._core, ExtensionDescriptor, self._below("extension"))

    @cached_property
    def extensions_by_name(self) -> dict[str, ExtensionDescriptor]:
        return by_name(self.extensions)

    @property
    def all_extensions(self) -> list[ExtensionDescriptor]:
        """The extensions of the pool that extend it, in the order of linking."""
        indexes = self._core.numbers(lib.message_extension, self._index)
        return at_indexes(self._core, ExtensionDescriptor, indexes)

    @property
    def is_map_entry(self) -> bool:
        """Whether it is the entry of a map, which protoc makes for a field that is one."""
        return bool(self._info.is_map_entry)

    @property
    def map_entry_key_field(self) -> Optional[FieldDescriptor]:
        """Of the entry of a map its key, else None."""
        return self._field_or_none(self._info.map_key)

    @property
    def map_entry_value_field(self) -> Optional[FieldDescriptor]:
        """Of the entry of a map its value, else None."""
        return self._field_or_none(self._info.map_value)

    def _field_or_none(self, position: int) -> Optional[FieldDescriptor]:
        return None if position == NONE else FieldDescriptor(self._core, self._index, position)

    @property
    def is_message_set(self) -> bool:
        """Whether its options say that it is a message set on the wire."""
        return bool(self._info.is_message_set)

    @property
    def is_extendable(self) -> bool:
        """Whether it leaves numbers to extensions."""
        return bool(self._info.extension_ranges)

    @property
    def extension_ranges(self) -> list[tuple[int, int]]:
        """The ranges of numbers that it leaves to extensions, each with its first number and the
        one behind its last."""
        count = self._info.extension_ranges
        return self._core.ranges(EXTENSION_RANGE, self._index, count)

    @property
    def reserved_ranges(self) -> list[tuple[int, int]]:
        """The ranges of numbers that it reserves, each with its first number and the one behind its
        last."""
        count = self._info.reserved_ranges
        return self._core.ranges(RESERVED_RANGE, self._index, count)

    @property
    def reserved_names(self) -> list[str]:
        """The names that it reserves."""
        return list(self._core.texts(lib.message_reserved_name, self._index))

    def field(self, number: int) -> FieldDescriptor:
        """Its field with a number, or a KeyError."""
        return self._part(lib.field_by_number, _number(number), f"field {number}")

    def field_named(self, name: Name) -> FieldDescriptor:
        """Its field with a name, or a KeyError."""
        told = name_bytes(name)
        return self._part(lib.field_by_name, told, len(told), f"field {name!r}")

    def field_json_named(self, json_name: Name) -> FieldDescriptor:
        """Its field with a JSON name, or a KeyError. Those to which one was given come first, as
        `protoc` gives it to all, and then the others."""
        told = name_bytes(json_name)
        position = self._core.number(lib.field_by_json_name, self._index, told, len(told))
        if position is not None:
            return FieldDescriptor(self._core, self._index, position)
        for field in self.fields:
            if name_bytes(field.json_name) == told:
                return field
        raise KeyError(f"{self.full_name} has no field whose JSON name is {json_name!r}")

    def _part(self, call: Callable[..., int], *told: Any) -> FieldDescriptor:
        position = self._core.number(call, self._index, *told[:-1])
        if position is None:
            raise KeyError(f"{self.full_name} has no {told[-1]}")
        return FieldDescriptor(self._core, self._index, position)

    def extension(self, number: int) -> ExtensionDescriptor:
        """The extension of the pool that extends it with a number, or a KeyError."""
        index = self._core.number(lib.pool_extension, self._index, _number(number))
        if index is None:
            raise KeyError(f"{self.full_name} has no extension {number}")
        return ExtensionDescriptor(self._core, index)

    def EnumValueName(self, enum: str, value: int) -> str:
        """The name of the value with a number of an enum that is declared in it."""
        return self.enum_types_by_name[only(enum, str, "a name is a str")].value(value).name


def _number(number: int) -> int:
    """A number of a field, or one that none has."""
    number = number_of(number)
    return number if 0 < number < NONE else 0


def _message_or_none(core: Core, index: int) -> Optional[Descriptor]:
    return None if index == NONE else Descriptor(core, index)


class FieldDescriptor(Deprecated):
    """A field of a message, or an extension."""

    _teller = FIELD
    _NUMBER, _TYPE, _LABEL = FIELD.places("number", "kind", "cardinality")
    _kind = "field"
    _options = "FieldOptions"
    _record = "FieldDescriptorProto"

    is_extension = False
    """Whether it is an extension."""

    TYPE_DOUBLE, TYPE_FLOAT, TYPE_INT64, TYPE_UINT64, TYPE_INT32 = range(1, 6)
    TYPE_FIXED64, TYPE_FIXED32, TYPE_BOOL, TYPE_STRING, TYPE_GROUP = range(6, 11)
    TYPE_MESSAGE, TYPE_BYTES, TYPE_UINT32, TYPE_ENUM = range(11, 15)
    TYPE_SFIXED32, TYPE_SFIXED64, TYPE_SINT32, TYPE_SINT64 = range(15, 19)
    CPPTYPE_INT32, CPPTYPE_INT64, CPPTYPE_UINT32, CPPTYPE_UINT64 = range(1, 5)
    CPPTYPE_DOUBLE, CPPTYPE_FLOAT, CPPTYPE_BOOL, CPPTYPE_ENUM = range(5, 9)
    CPPTYPE_STRING, CPPTYPE_MESSAGE = range(9, 11)
    LABEL_OPTIONAL, LABEL_REQUIRED, LABEL_REPEATED = range(1, 4)

    @cached_property
    def index(self) -> int:
        """Its position in the message."""
        return self._position

    @property
    def containing_type(self) -> Descriptor:
        """The message whose field it is."""
        return Descriptor(self._core, self._index)

    @property
    def file(self) -> FileDescriptor:
        """The file that declares it."""
        return self.containing_type.file

    @property
    def extension_scope(self) -> Optional[Descriptor]:
        """The message in which it is declared as an extension, or None."""
        return None

    @property
    def number(self) -> int:
        """Its number."""
        return self._members[self._NUMBER]

    @property
    def type(self) -> int:
        """Its type, as one of `TYPE_DOUBLE` to `TYPE_SINT64`."""
        return self._members[self._TYPE]

    @property
    def cpp_type(self) -> int:
        """Its type in C++, as one of `CPPTYPE_INT32` to `CPPTYPE_MESSAGE`."""
        return _CPP_TYPES[self.type]

    @property
    def label(self) -> int:
        """How often it stands in a message, as one of `LABEL_OPTIONAL` to `LABEL_REPEATED`."""
        return self._members[self._LABEL]

    @property
    def is_packed(self) -> bool:
        """Whether its values are encoded as one run of bytes."""
        return bool(self._info.is_packed)

    @property
    def is_map(self) -> bool:
        """Whether it is a map: it is repeated, and its type is the entry of a map."""
        return bool(self._info.is_map)

    @property
    def is_list(self) -> bool:
        """Whether it is repeated, and no map."""
        return bool(self._info.is_list)

    @property
    def is_required(self) -> bool:
        """Whether a message has it once."""
        return self.label == self.LABEL_REQUIRED

    @property
    def is_group(self) -> bool:
        """Whether it is declared as a group."""
        return bool(self._info.is_group)

    @property
    def is_proto3_optional(self) -> bool:
        """Whether it is optional by word in proto3."""
        return bool(self._info.is_proto3_optional)

    @property
    def has_presence(self) -> bool:
        """Whether a message tells that it is set."""
        return bool(self._info.supports_presence)

    @property
    def message_type(self) -> Optional[Descriptor]:
        """The message that is its type, or None."""
        if self.type not in (self.TYPE_MESSAGE, self.TYPE_GROUP):
            return None
        return Descriptor(self._core, self._info.type_index)

    @property
    def enum_type(self) -> Optional[EnumDescriptor]:
        """The enum that is its type, or None."""
        if self.type != self.TYPE_ENUM:
            return None
        return EnumDescriptor(self._core, self._info.type_index)

    @property
    def containing_oneof(self) -> Optional[OneofDescriptor]:
        """The oneof that it is in, or None."""
        position = self._info.oneof
        return None if position == NONE else OneofDescriptor(self._core, self._index, position)

    @cached_property
    def json_name(self) -> str:
        """Its JSON name: that which was given, as `protoc` gives it to all, else its name in camel
        case."""
        told = self._told_text(JSON_NAME)
        return _camel_case(self.name) if told is None else told.decode()

    @property
    def camelcase_name(self) -> str:
        """Its name in camel case, the first letter in lower case."""
        camel = _camel_case(self.name)
        return camel[:1].lower() + camel[1:]

    @property
    def has_default_value(self) -> bool:
        """Whether a default value was given."""
        return bool(self._info.has_default)

    @cached_property
    def default_value(self) -> Default:
        """The value that it has where it is not set: that which was given, of a repeated field an
        empty list, of a message None, else the zero of its type, of an enum the number of the first
        value."""
        if self.label == self.LABEL_REPEATED:
            return []
        if self.has_default_value:
            return _told_value(self.type, self._told_text(DEFAULT) or b"")
        enum = self.enum_type
        return enum.values[0].number if enum is not None else _ZEROS[self.cpp_type](self.type)


class ExtensionDescriptor(FieldDescriptor):
    """An extension of a pool: a field of a message that is not declared in it."""

    _teller = EXTENSION
    _NUMBER, _TYPE, _LABEL = EXTENSION.places("number", "kind", "cardinality")
    _kind = "extension"
    is_extension = True

    @property
    def containing_type(self) -> Descriptor:
        """The message that it extends."""
        return Descriptor(self._core, self._info.extendee)

    @property
    def file(self) -> FileDescriptor:
        """The file that declares it."""
        return FileDescriptor(self._core, self._info.file)

    @property
    def extension_scope(self) -> Optional[Descriptor]:
        """The message in which it is declared, or None."""
        return _message_or_none(self._core, self._info.parent)

    @property
    def index(self) -> int:
        """Its position among the extensions of the message or the file that declares it."""
        info = self._info
        return self._core.below("extension", info.file, info.parent).index(self._index)

    @property
    def json_name(self) -> str:
        """Its name in camel case. In JSON it is written by its full name in square brackets."""
        return _camel_case(self.name)

    @property
    def containing_oneof(self) -> Optional[OneofDescriptor]:
        """An extension is in no oneof."""
        return None


_F = FieldDescriptor
_CPP_TYPES = {
    **dict.fromkeys((_F.TYPE_INT32, _F.TYPE_SINT32, _F.TYPE_SFIXED32), _F.CPPTYPE_INT32),
    **dict.fromkeys((_F.TYPE_INT64, _F.TYPE_SINT64, _F.TYPE_SFIXED64), _F.CPPTYPE_INT64),
    **dict.fromkeys((_F.TYPE_UINT32, _F.TYPE_FIXED32), _F.CPPTYPE_UINT32),
    **dict.fromkeys((_F.TYPE_UINT64, _F.TYPE_FIXED64), _F.CPPTYPE_UINT64),
    **dict.fromkeys((_F.TYPE_STRING, _F.TYPE_BYTES), _F.CPPTYPE_STRING),
    **dict.fromkeys((_F.TYPE_MESSAGE, _F.TYPE_GROUP), _F.CPPTYPE_MESSAGE),
    _F.TYPE_DOUBLE: _F.CPPTYPE_DOUBLE,
    _F.TYPE_FLOAT: _F.CPPTYPE_FLOAT,
    _F.TYPE_BOOL: _F.CPPTYPE_BOOL,
    _F.TYPE_ENUM: _F.CPPTYPE_ENUM,
}


def _zero(type_: int) -> Default:
    """The default of a text or of bytes."""
    return b"" if type_ == _F.TYPE_BYTES else ""


_ZEROS: dict[int, Callable[[int], Default]] = {
    **dict.fromkeys(range(_F.CPPTYPE_INT32, _F.CPPTYPE_UINT64 + 1), lambda _: 0),
    **dict.fromkeys((_F.CPPTYPE_DOUBLE, _F.CPPTYPE_FLOAT), lambda _: 0.0),
    _F.CPPTYPE_BOOL: lambda _: False,
    _F.CPPTYPE_STRING: _zero,
    _F.CPPTYPE_MESSAGE: lambda _: None,
}


def _told_value(type_: int, told: bytes) -> Default:
    """A default as the library tells it. The text of a float or a double is one of any kind: what
    is no number is NaN."""
    if type_ == _F.TYPE_BYTES:
        return told
    if type_ == _F.TYPE_STRING:
        return told.decode()
    if type_ == _F.TYPE_BOOL:
        return told == b"true"
    if type_ in (_F.TYPE_DOUBLE, _F.TYPE_FLOAT):
        return _told_float(type_, told)
    return int(told)


def _told_float(type_: int, told: bytes) -> float:
    """The number of a text. That of a float has its precision."""
    try:
        number = float(told)
        return ctypes.c_float(number).value if type_ == _F.TYPE_FLOAT else number
    except ValueError:
        return float("nan")


class OneofDescriptor(Named):
    """A oneof of a message."""

    _teller = ONEOF
    _kind = "oneof"
    _options = "OneofOptions"
    _record = "OneofDescriptorProto"

    @cached_property
    def index(self) -> int:
        """Its position in the message."""
        return self._position

    @property
    def containing_type(self) -> Descriptor:
        """The message that it stands in."""
        return Descriptor(self._core, self._index)

    @property
    def file(self) -> FileDescriptor:
        """The file that declares it."""
        return self.containing_type.file

    @property
    def is_synthetic(self) -> bool:
        """Whether it was made for a field that is optional by word in proto3, its only one."""
        return bool(self._info.is_synthetic)

    @cached_property
    def fields(self) -> list[FieldDescriptor]:
        """Its fields, in the order of declaration."""
        positions = self._core.numbers(lib.oneof_field, self._index, self._position)
        return [FieldDescriptor(self._core, self._index, position) for position in positions]


class EnumDescriptor(Deprecated):
    """An enum of a pool."""

    _teller = ENUM
    _kind = "enum"
    _options = "EnumOptions"
    _record = "EnumDescriptorProto"

    @property
    def file(self) -> FileDescriptor:
        """The file that declares it."""
        return FileDescriptor(self._core, self._info.file)

    @property
    def containing_type(self) -> Optional[Descriptor]:
        """The message that it is declared in, or None."""
        return _message_or_none(self._core, self._info.parent)

    @property
    def is_closed(self) -> bool:
        """Whether it has its values alone, and no other numbers: its file is not of proto3."""
        return bool(self._info.is_closed)

    @property
    def reserved_ranges(self) -> list[tuple[int, int]]:
        """The ranges of numbers that it reserves, each with its first and its last number."""
        count = self._info.reserved_ranges
        return self._core.ranges(ENUM_RESERVED_RANGE, self._index, count)

    @property
    def reserved_names(self) -> list[str]:
        """The names that it reserves."""
        return list(self._core.texts(lib.enum_reserved_name, self._index))

    @property
    def allow_alias(self) -> bool:
        """Whether two of its values may have one number."""
        return bool(self._info.allow_alias)

    @cached_property
    def values(self) -> list[EnumValueDescriptor]:
        """Its values, in the order of declaration."""
        return parts_of(self._core, EnumValueDescriptor, self._index, self._info.values)

    def value(self, number: int) -> EnumValueDescriptor:
        """Its first value with a number, or a KeyError."""
        wanted = number_of(number)
        call, position = lib.enum_value_by_number, None
        if -(2**31) <= wanted < 2**31:
            position = self._core.number(call, self._index, wanted)
        return self._value_at(position, number)

    def value_named(self, name: Name) -> EnumValueDescriptor:
        """Its value with a name, or a KeyError."""
        told = name_bytes(name)
        call = lib.enum_value_by_name
        return self._value_at(self._core.number(call, self._index, told, len(told)), name)

    def _value_at(self, position: Optional[int], told: object) -> EnumValueDescriptor:
        if position is None:
            raise KeyError(f"{self.full_name} has no value {told!r}")
        return EnumValueDescriptor(self._core, self._index, position)

    @cached_property
    def values_by_name(self) -> dict[str, EnumValueDescriptor]:
        return by_name(self.values)

    @cached_property
    def values_by_number(self) -> dict[int, EnumValueDescriptor]:
        """Its values by number, of several with one number the first."""
        return {value.number: value for value in reversed(self.values)}


class EnumValueDescriptor(Deprecated):
    """A value of an enum."""

    _teller = ENUM_VALUE
    _kind = "enum_value"
    _options = "EnumValueOptions"
    _record = "EnumValueDescriptorProto"

    @cached_property
    def index(self) -> int:
        """Its position in the enum."""
        return self._position

    @property
    def number(self) -> int:
        """Its number."""
        number: int = self._info.number
        return number

    @property
    def type(self) -> EnumDescriptor:
        """The enum that it stands in."""
        return EnumDescriptor(self._core, self._index)

    @property
    def file(self) -> FileDescriptor:
        """The file that declares it."""
        return self.type.file


class ServiceDescriptor(Deprecated):
    """A service of a pool."""

    _teller = SERVICE
    _kind = "service"
    _options = "ServiceOptions"
    _record = "ServiceDescriptorProto"

    @property
    def file(self) -> FileDescriptor:
        """The file that declares it."""
        return FileDescriptor(self._core, self._info.file)

    @property
    def index(self) -> int:
        """Its position among the services of its file."""
        return self._core.below("service", self._info.file).index(self._index)

    @cached_property
    def methods(self) -> list[MethodDescriptor]:
        """Its methods, in the order of declaration."""
        return parts_of(self._core, MethodDescriptor, self._index, self._info.methods)

    @cached_property
    def methods_by_name(self) -> dict[str, MethodDescriptor]:
        return by_name(self.methods)

    def method(self, name: Name) -> MethodDescriptor:
        """The method with a name, or a KeyError."""
        told = name_bytes(name)
        position = self._core.number(lib.method_by_name, self._index, told, len(told))
        if position is None:
            raise KeyError(f"{self.full_name} has no method {name!r}")
        return MethodDescriptor(self._core, self._index, position)

    FindMethodByName = method


class MethodDescriptor(Deprecated):
    """A method of a service."""

    _teller = METHOD
    _kind = "method"
    _options = "MethodOptions"
    _record = "MethodDescriptorProto"

    @cached_property
    def index(self) -> int:
        """Its position in the service."""
        return self._position

    @property
    def containing_service(self) -> ServiceDescriptor:
        """The service that it stands in."""
        return ServiceDescriptor(self._core, self._index)

    @property
    def file(self) -> FileDescriptor:
        """The file that declares it."""
        return self.containing_service.file

    @property
    def input_type(self) -> Descriptor:
        """The message that it takes."""
        return Descriptor(self._core, self._info.input)

    @property
    def output_type(self) -> Descriptor:
        """The message that it gives."""
        return Descriptor(self._core, self._info.output)

    @property
    def client_streaming(self) -> bool:
        """Whether it takes a stream of messages."""
        return bool(self._info.client_streaming)

    @property
    def server_streaming(self) -> bool:
        """Whether it gives a stream of messages."""
        return bool(self._info.server_streaming)


CLASSES: tuple[Optional[type[Named]], ...] = (
    None,
    Descriptor,
    FieldDescriptor,
    OneofDescriptor,
    ServiceDescriptor,
    MethodDescriptor,
    EnumDescriptor,
    EnumValueDescriptor,
    ExtensionDescriptor,
)
"""The descriptors by the kinds of items, which a package has none of."""
