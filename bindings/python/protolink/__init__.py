"""A linker of protobuf file descriptors whose promises are proved, over its shared library.

    import protolink
    from pathlib import Path

    pool = protolink.Pool()
    pool.add_set(Path("set.pb"))
    for field in pool.message("shop.Order").fields:
        print(field.name, field.number)
    pool.linked()            # the bytes of the linked FileDescriptorSet

What is refused raises `Refused`, whose `faults` are data. The pool is then what it was. What a pool
has is told by the names of protobuf's own descriptors, and by those of its descriptor_pool.

The library is `libprotolink.so.0.3`: in the folder that PROTOLINK_LIB_DIR names, else beside this
file, else where the system finds it. Without it the import raises an ImportError. Threads may share
a pool: look-ups take no lock, and wait only for calls that change it. A call that would wait for its
own thread, as in a handler of signals, raises a RuntimeError.
"""

from ._library import COMPATIBILITIES, KINDS, LABELS, LEVELS, SONAME, TYPES, version
from .descriptors import (
    Descriptor,
    EnumDescriptor,
    EnumValueDescriptor,
    ExtensionDescriptor,
    FieldDescriptor,
    FileDescriptor,
    Location,
    MethodDescriptor,
    OneofDescriptor,
    ServiceDescriptor,
)
from .faults import Change, Changes, Error, Fault, Place, Refused, TooMany, Unreadable
from .pool import Added, Counts, Definition, Pool

__all__ = [
    "COMPATIBILITIES",
    "KINDS",
    "LABELS",
    "LEVELS",
    "SONAME",
    "TYPES",
    "Added",
    "Change",
    "Changes",
    "Counts",
    "Definition",
    "Descriptor",
    "EnumDescriptor",
    "EnumValueDescriptor",
    "Error",
    "ExtensionDescriptor",
    "Fault",
    "FieldDescriptor",
    "FileDescriptor",
    "Location",
    "MethodDescriptor",
    "OneofDescriptor",
    "Place",
    "Pool",
    "Refused",
    "ServiceDescriptor",
    "TooMany",
    "Unreadable",
    "version",
]
