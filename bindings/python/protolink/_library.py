"""The calls of the library, as protolink.h declares them.

`tools/compare_header.py` of the repository compares these declarations, name by name and type by
type, with the header and with the library's own source.
"""

from __future__ import annotations

import ctypes
import os
from pathlib import Path
from types import SimpleNamespace
from typing import Optional

SONAME = "libprotolink.so.0.3"

DONE, REFUSED, FAULT, NO_MEMORY, SHORT, TOO_MANY, NOT_FOUND = range(7)
"""How a call of the library ends."""

KINDS = (
    "package",
    "message",
    "field",
    "oneof",
    "service",
    "method",
    "enum",
    "enum_value",
    "extension",
)
"""What kind of thing an item is, by the library's numbers."""

TYPES = (
    *("double", "float", "int64", "uint64", "int32", "fixed64", "fixed32", "bool", "string"),
    *("group", "message", "bytes", "uint32", "enum", "sfixed32", "sfixed64", "sint32", "sint64"),
)
"""The types of fields, by the library's numbers from 1."""

LABELS = ("optional", "required", "repeated")
"""How often a field stands in a message, by the library's numbers from 1."""

LEVELS = ("wire", "json", "source")
"""At which level two pools are compared, by the library's numbers."""

COMPATIBILITIES = ("backward", "forward", "full")
"""Which of two pools is to read what the other writes, by the library's numbers: the new one what
the older one writes, the older one what the new one writes, or each what the other writes."""

NONE = 2**32 - 1
"""Where an index may be missing: none."""

MOST = ctypes.c_size_t(-1).value
"""The largest number of a size."""


class RawPool(ctypes.Structure):
    _fields_ = [("at", ctypes.c_void_p)]


class Item(ctypes.Structure):
    _fields_ = [
        ("kind", ctypes.c_uint32),
        ("index", ctypes.c_uint32),
        ("position", ctypes.c_uint32),
    ]


class RawCounts(ctypes.Structure):
    _fields_ = [
        ("files", ctypes.c_uint32),
        ("messages", ctypes.c_uint32),
        ("enums", ctypes.c_uint32),
        ("services", ctypes.c_uint32),
        ("extensions", ctypes.c_uint32),
    ]


class RawAdded(ctypes.Structure):
    _fields_ = [
        ("files", ctypes.c_uint64),
        ("passed_over", ctypes.c_uint64),
        ("differing", ctypes.c_uint64),
    ]


class FileInfo(ctypes.Structure):
    _fields_ = [
        ("syntax", ctypes.c_uint32),
        ("imports", ctypes.c_uint64),
        ("public_imports", ctypes.c_uint64),
        ("messages", ctypes.c_uint64),
        ("enums", ctypes.c_uint64),
        ("services", ctypes.c_uint64),
        ("extensions", ctypes.c_uint64),
        ("is_deprecated", ctypes.c_uint32),
    ]


class MessageInfo(ctypes.Structure):
    _fields_ = [
        ("file", ctypes.c_uint32),
        ("parent", ctypes.c_uint32),
        ("fields", ctypes.c_uint64),
        ("oneofs", ctypes.c_uint64),
        ("extensions", ctypes.c_uint64),
        ("nested_messages", ctypes.c_uint64),
        ("nested_enums", ctypes.c_uint64),
        ("nested_extensions", ctypes.c_uint64),
        ("extension_ranges", ctypes.c_uint64),
        ("reserved_ranges", ctypes.c_uint64),
        ("reserved_names", ctypes.c_uint64),
        ("map_key", ctypes.c_uint32),
        ("map_value", ctypes.c_uint32),
        ("is_map_entry", ctypes.c_uint32),
        ("is_message_set", ctypes.c_uint32),
        ("is_deprecated", ctypes.c_uint32),
    ]


class Range(ctypes.Structure):
    _fields_ = [("start", ctypes.c_int32), ("end", ctypes.c_int32)]


class FieldInfo(ctypes.Structure):
    _fields_ = [
        ("number", ctypes.c_uint32),
        ("cardinality", ctypes.c_uint32),
        ("kind", ctypes.c_uint32),
        ("type_index", ctypes.c_uint32),
        ("oneof", ctypes.c_uint32),
        ("is_packed", ctypes.c_uint32),
        ("supports_presence", ctypes.c_uint32),
        ("has_default", ctypes.c_uint32),
        ("is_map", ctypes.c_uint32),
        ("is_list", ctypes.c_uint32),
        ("is_required", ctypes.c_uint32),
        ("is_group", ctypes.c_uint32),
        ("is_proto3_optional", ctypes.c_uint32),
        ("is_deprecated", ctypes.c_uint32),
    ]


class OneofInfo(ctypes.Structure):
    _fields_ = [("fields", ctypes.c_uint64), ("is_synthetic", ctypes.c_uint32)]


class EnumInfo(ctypes.Structure):
    _fields_ = [
        ("file", ctypes.c_uint32),
        ("parent", ctypes.c_uint32),
        ("values", ctypes.c_uint64),
        ("allow_alias", ctypes.c_uint32),
        ("reserved_ranges", ctypes.c_uint64),
        ("reserved_names", ctypes.c_uint64),
        ("is_closed", ctypes.c_uint32),
        ("is_deprecated", ctypes.c_uint32),
    ]


class EnumValueInfo(ctypes.Structure):
    _fields_ = [("number", ctypes.c_int32), ("is_deprecated", ctypes.c_uint32)]


class ServiceInfo(ctypes.Structure):
    _fields_ = [
        ("file", ctypes.c_uint32),
        ("methods", ctypes.c_uint64),
        ("is_deprecated", ctypes.c_uint32),
    ]


class MethodInfo(ctypes.Structure):
    _fields_ = [
        ("input", ctypes.c_uint32),
        ("output", ctypes.c_uint32),
        ("client_streaming", ctypes.c_uint32),
        ("server_streaming", ctypes.c_uint32),
        ("is_deprecated", ctypes.c_uint32),
    ]


class ExtensionInfo(ctypes.Structure):
    _fields_ = [
        ("file", ctypes.c_uint32),
        ("parent", ctypes.c_uint32),
        ("extendee", ctypes.c_uint32),
        ("number", ctypes.c_uint32),
        ("cardinality", ctypes.c_uint32),
        ("kind", ctypes.c_uint32),
        ("type_index", ctypes.c_uint32),
        ("is_packed", ctypes.c_uint32),
        ("has_default", ctypes.c_uint32),
        ("supports_presence", ctypes.c_uint32),
        ("is_map", ctypes.c_uint32),
        ("is_list", ctypes.c_uint32),
        ("is_group", ctypes.c_uint32),
        ("is_proto3_optional", ctypes.c_uint32),
        ("is_deprecated", ctypes.c_uint32),
    ]


_STATUS = ctypes.c_uint8
_INDEX = ctypes.c_uint32
_POOL = ctypes.POINTER(RawPool)
_ITEM = ctypes.POINTER(Item)
_BYTES = (ctypes.c_char_p, ctypes.c_size_t)
_BUFFER = (ctypes.POINTER(ctypes.c_uint8), ctypes.c_size_t, ctypes.POINTER(ctypes.c_size_t))
_PATH = (ctypes.POINTER(ctypes.c_int32), ctypes.c_size_t, ctypes.POINTER(ctypes.c_size_t))
_NUMBERS = (ctypes.POINTER(ctypes.c_uint32), ctypes.c_size_t, ctypes.POINTER(ctypes.c_size_t))
_NUMBER = ctypes.POINTER(ctypes.c_uint32)
_RANGE = ctypes.POINTER(Range)

_CALLS = {
    "protolink_version": (ctypes.c_uint32, ()),
    "protolink_pool_add_set": (_STATUS, (_POOL, *_BYTES)),
    "protolink_pool_add_file": (_STATUS, (_POOL, *_BYTES)),
    "protolink_pool_add_files": (
        _STATUS,
        (_POOL, *_BYTES, ctypes.POINTER(ctypes.c_size_t), ctypes.c_size_t),
    ),
    "protolink_pool_add_script": (_STATUS, (_POOL, *_BYTES)),
    "protolink_pool_added": (None, (_POOL, ctypes.POINTER(RawAdded))),
    "protolink_pool_report": (_STATUS, (_POOL, *_BUFFER)),
    "protolink_pool_report_json": (_STATUS, (_POOL, *_BUFFER)),
    "protolink_pool_limit_faults": (_STATUS, (_POOL, ctypes.c_size_t)),
    "protolink_pool_linked": (_STATUS, (_POOL, *_BUFFER)),
    "protolink_pool_linked_file": (_STATUS, (_POOL, _INDEX, *_BUFFER)),
    "protolink_pool_find": (_STATUS, (_POOL, *_BYTES, _ITEM, _NUMBER)),
    "protolink_pool_find_path": (_STATUS, (_POOL, *_BYTES, *_PATH)),
    "protolink_pool_counts": (None, (_POOL, ctypes.POINTER(RawCounts))),
    "protolink_pool_extension": (_STATUS, (_POOL, _INDEX, _INDEX, _NUMBER)),
    "protolink_pool_changes": (_STATUS, (_POOL, _POOL, _INDEX, _INDEX, *_BUFFER)),
    "protolink_pool_clone": (_STATUS, (_POOL, _POOL)),
    "protolink_pool_clear": (None, (_POOL,)),
    "protolink_file": (_STATUS, (_POOL, _INDEX, ctypes.POINTER(FileInfo))),
    "protolink_message": (_STATUS, (_POOL, _INDEX, ctypes.POINTER(MessageInfo))),
    "protolink_field": (_STATUS, (_POOL, _INDEX, _INDEX, ctypes.POINTER(FieldInfo))),
    "protolink_oneof": (_STATUS, (_POOL, _INDEX, _INDEX, ctypes.POINTER(OneofInfo))),
    "protolink_enum": (_STATUS, (_POOL, _INDEX, ctypes.POINTER(EnumInfo))),
    "protolink_enum_value": (_STATUS, (_POOL, _INDEX, _INDEX, ctypes.POINTER(EnumValueInfo))),
    "protolink_service": (_STATUS, (_POOL, _INDEX, ctypes.POINTER(ServiceInfo))),
    "protolink_method": (_STATUS, (_POOL, _INDEX, _INDEX, ctypes.POINTER(MethodInfo))),
    "protolink_extension": (_STATUS, (_POOL, _INDEX, ctypes.POINTER(ExtensionInfo))),
    "protolink_file_import": (_STATUS, (_POOL, _INDEX, _INDEX, _NUMBER)),
    "protolink_message_extension": (_STATUS, (_POOL, _INDEX, _INDEX, _NUMBER)),
    "protolink_oneof_field": (_STATUS, (_POOL, _INDEX, _INDEX, _INDEX, _NUMBER)),
    "protolink_file_items": (_STATUS, (_POOL, _INDEX, _INDEX, *_NUMBERS)),
    "protolink_message_items": (_STATUS, (_POOL, _INDEX, _INDEX, *_NUMBERS)),
    "protolink_message_extension_range": (_STATUS, (_POOL, _INDEX, _INDEX, _RANGE)),
    "protolink_message_reserved_range": (_STATUS, (_POOL, _INDEX, _INDEX, _RANGE)),
    "protolink_enum_reserved_range": (_STATUS, (_POOL, _INDEX, _INDEX, _RANGE)),
    "protolink_message_reserved_name": (_STATUS, (_POOL, _INDEX, _INDEX, *_BUFFER)),
    "protolink_enum_reserved_name": (_STATUS, (_POOL, _INDEX, _INDEX, *_BUFFER)),
    "protolink_file_by_name": (_STATUS, (_POOL, *_BYTES, _NUMBER)),
    "protolink_field_by_name": (_STATUS, (_POOL, _INDEX, *_BYTES, _NUMBER)),
    "protolink_field_by_json_name": (_STATUS, (_POOL, _INDEX, *_BYTES, _NUMBER)),
    "protolink_field_by_number": (_STATUS, (_POOL, _INDEX, _INDEX, _NUMBER)),
    "protolink_enum_value_by_name": (_STATUS, (_POOL, _INDEX, *_BYTES, _NUMBER)),
    "protolink_enum_value_by_number": (_STATUS, (_POOL, _INDEX, ctypes.c_int32, _NUMBER)),
    "protolink_method_by_name": (_STATUS, (_POOL, _INDEX, *_BYTES, _NUMBER)),
    "protolink_file_name": (_STATUS, (_POOL, _INDEX, *_BUFFER)),
    "protolink_file_package": (_STATUS, (_POOL, _INDEX, *_BUFFER)),
    "protolink_name": (_STATUS, (_POOL, _ITEM, *_BUFFER)),
    "protolink_full_name": (_STATUS, (_POOL, _ITEM, *_BUFFER)),
    "protolink_json_name": (_STATUS, (_POOL, _ITEM, *_BUFFER)),
    "protolink_default": (_STATUS, (_POOL, _ITEM, *_BUFFER)),
    "protolink_file_options": (_STATUS, (_POOL, _INDEX, *_BUFFER)),
    "protolink_options": (_STATUS, (_POOL, _ITEM, *_BUFFER)),
    "protolink_path": (_STATUS, (_POOL, _ITEM, *_PATH)),
    "protolink_span": (_STATUS, (_POOL, _ITEM, *_PATH)),
    "protolink_leading_comments": (_STATUS, (_POOL, _ITEM, *_BUFFER)),
    "protolink_trailing_comments": (_STATUS, (_POOL, _ITEM, *_BUFFER)),
    "protolink_detached_comments": (_STATUS, (_POOL, _ITEM, _INDEX, *_BUFFER)),
}
"""The calls, as protolink.h declares them: result and parameters."""

_LONG = {
    *("protolink_pool_add_set", "protolink_pool_add_file", "protolink_pool_add_files"),
    *("protolink_pool_add_script", "protolink_pool_linked", "protolink_pool_clone"),
    *("protolink_pool_changes", "protolink_pool_clear"),
}
"""The calls that may take long, and let other threads of the interpreter run."""


PACKAGE = Path(__file__).resolve().parent
"""The folder of this package."""


def _folder() -> Optional[Path]:
    """The folder that has the library: the one that PROTOLINK_LIB_DIR names, else this package.
    None where neither has it, so that the system is to find it."""
    named = os.environ.get("PROTOLINK_LIB_DIR")
    folders = [*([Path(named)] if named else []), PACKAGE]
    return next((folder for folder in folders if (folder / SONAME).exists()), None)


def _load(folder: Optional[Path]) -> SimpleNamespace:
    """The calls of the shared library, by their names without `protolink_`. Raises an ImportError
    where the library is not found, or lacks a call."""
    name = SONAME if folder is None else str(folder / SONAME)
    calls = SimpleNamespace()
    try:
        long, short = ctypes.CDLL(name), ctypes.PyDLL(name)
        for call, (result, parameters) in _CALLS.items():
            function = getattr(long if call in _LONG else short, call)
            function.restype, function.argtypes = result, parameters
            setattr(calls, call.replace("protolink_", "", 1), function)
    except (OSError, AttributeError) as fault:
        raise ImportError(f"{fault}; PROTOLINK_LIB_DIR may name the folder of {SONAME}") from fault
    return calls


FOLDER = _folder()
_lib = _load(FOLDER)
lib = _lib


def version() -> str:
    """The version of the library, as `0.3.0`."""
    number = lib.version()
    return f"{number // 1_000_000}.{number // 1000 % 1000}.{number % 1000}"
