#!/usr/bin/env python3
"""The tests of the module protolink. PROTOLINK_LIB_DIR names the folder of the library.

    PROTOLINK_LIB_DIR=../../dist/lib python3 test_protolink.py

Those that need protobuf's package (on Debian python3-protobuf) are left out where it is missing.
PROTOLINK_SETS may name a folder of descriptor sets, of which protobuf's own pool has to tell what
this one tells.
"""

from __future__ import annotations

import base64
import copy
import json
import math
import os
import pickle
import random
import re
import signal
import subprocess
import sys
import tempfile
import textwrap
import threading
import time
import traceback
import unittest
import warnings
import weakref
from collections.abc import Callable, Iterator
from pathlib import Path
from typing import Any

import protolink

try:
    from google.protobuf import descriptor_pb2, descriptor_pool
except ImportError:
    descriptor_pb2 = None

SHOP = b"""\
file shop/order.proto
package shop
import shop/base.proto
message Order
field id 1 required int64 ~ ~
field status 2 optional enum .shop.Status ~
end
end
file shop/base.proto
package shop
enum Status
value UNKNOWN 0
end
end
"""

TRIPS = base64.b64decode(
    """
Cp8ECgp0b3VyLnByb3RvEgR0b3VyIuUBCgRUcmlwEisKBXN0b3BzGAEgAygLMhUudG91ci5UcmlwLlN0b3BzRW50cnlSBXN0
b3BzEhcKBGRheXMYAiABKAVIAFIEZGF5c4gBARIUCgVtaWxlcxgDIAMoBVIFbWlsZXMSFgoEZG9uZRgEIAEoCEICGAFSBGRv
bmUaRAoKU3RvcHNFbnRyeRIQCgNrZXkYASABKAlSA2tleRIgCgV2YWx1ZRgCIAEoCzIKLnRvdXIuU3RvcFIFdmFsdWU6AjgB
OgIYAUIHCgVfZGF5c0oECAcQCEoECAoQDVIDb2xkUgVvbGRlciIGCgRTdG9wKkYKBVN0YXRlEgsKB1VOS05PV04QABIMCgRP
UEVOEAEaAggBIgQIAxAFIhYI////////////ARD///////////8BKgRHT05FMnAKBVRyaXBzEh0KA0dldBIKLnRvdXIuU3Rv
cBoKLnRvdXIuVHJpcBIhCgVXYXRjaBIKLnRvdXIuU3RvcBoKLnRvdXIuVHJpcDABEiUKBFRlbGwSCi50b3VyLlRyaXAaCi50
b3VyLlN0b3AiA4gCASgBSlkKIwoCBAASBAMACwEaCSBBIHRyaXAuCiIMIEJlaGluZCBpdC4KCgsKBAQAAgASAwcCHgoYCgIE
ARIDDwAPMg0gT24gaXRzIG93bi4KCgsKBAYAAgESAxMCKGIGcHJvdG8z
"""
)
"""A set of one file, as protoc made it of the source below, with the locations of both messages, of
the field `stops` and of the method `Watch`."""

# syntax = "proto3";
# package tour;
# // A trip.
# message Trip { // Behind it.
#   option deprecated = true;
#   reserved 7, 10 to 12;
#   reserved "old", "older";
#   map<string, Stop> stops = 1;
#   optional int32 days = 2;
#   repeated int32 miles = 3;
#   bool done = 4 [deprecated = true];
# }
#
# // On its own.
#
# message Stop {}
# enum State { reserved 3 to 5, -1; reserved "GONE"; UNKNOWN = 0; OPEN = 1 [deprecated = true]; }
# service Trips {
#   rpc Get(Stop) returns (Trip);
#   rpc Watch(Stop) returns (stream Trip);
#   rpc Tell(stream Trip) returns (Stop) { option deprecated = true; }
# }

FAULTY = b"""\
file a.proto
package p
message M
end
message M
end
at 4,1,1 7,8,9
end
"""


def shop() -> protolink.Pool:
    pool = protolink.Pool()
    pool.add_script(SHOP)
    return pool


TOUR = b"""\
file tour.proto
package tour
syntax proto2
message Outer
field id 1 required int64 ~ ~
field many_sizes 2 repeated int32 ~ ~
packed true
json sizes
field inner_one 3 optional message .tour.Outer.Inner ~
field state 4 optional enum .tour.Outer.State ~
default DONE
field note 5 optional string ~ 0
default none
field raw 6 optional bytes ~ 0
default a\\001
field ratio 7 optional float ~ ~
default 0.1
field share 8 optional double ~ ~
default -inf
field flag 9 optional bool ~ ~
default true
field count 10 optional uint32 ~ ~
oneof choice
extensions 100 200
message Inner
end
enum State
value OPEN 0
value DONE 2
end
extend within 101 repeated int32 ~ .tour.Outer
end
extend weight 100 optional double ~ .tour.Outer
default 1.5
enum Kind
value PLAIN 0
end
service Shop
method Get .tour.Outer .tour.Outer.Inner
end
end
"""


ROWS = Path(__file__).resolve().parents[2] / "crates/test_rows/data/checks/changes"
"""The rows of the program that compare two versions: arguments, sets, and what is wanted of them."""

DEFAULTS = {"--level": "wire", "--compatibility": "backward", "--max-faults": "100"}


def row_pool(name: str) -> protolink.Pool:
    """The pool of a set of the rows."""
    pool = protolink.Pool()
    pool.add_set(ROWS / name)
    return pool


def rows_of_changes() -> Iterator[tuple[dict[str, str], dict[str, Any]]]:
    """The rows that a pool can be asked for too: what each asks, by the names of its arguments, and
    the object that is wanted of it."""
    for path in sorted(ROWS.glob("*.args")):
        *words, file = path.read_text().splitlines()
        said = dict(zip(words[::2], words[1::2]))
        told = path.with_suffix(".json")
        if said.keys() - DEFAULTS.keys() == {"--against"} and told.exists():
            wanted = json.loads(told.read_text())
            if len(wanted["compared"]) == 1 + (said.get("--compatibility") == "full"):
                yield {**DEFAULTS, **said, "FILE": file}, wanted


def change_as_json(change: protolink.Change, against: str) -> dict[str, Any]:
    """A change as the object of a row has it, against the older version that has a name."""
    level, direction, fault = change
    related = [place._asdict() for place in fault.related]
    head = {"level": level, "direction": direction, "against": against}
    return {**head, **fault._asdict(), "related": related}


def tour() -> protolink.Pool:
    pool = protolink.Pool()
    pool.add_script(TOUR)
    return pool


class Record:
    """A file as a database has it, as protobuf's package would."""

    def __init__(self, pool: protolink.Pool, index: int) -> None:
        file = pool.files()[index]
        self.name = file.name
        self.dependency = [it.name for it in file.dependencies]
        self.SerializeToString = lambda: file.serialized_pb


class Shelf:
    """A database of the files of pools. It notes what it is asked."""

    def __init__(
        self,
        pool: protolink.Pool,
        extensions: dict[tuple[str, int], str] = {},
        *others: protolink.Pool,
    ) -> None:
        pools, self.extensions, self.asked = (pool, *others), extensions, []
        records = [Record(it, index) for it in pools for index in range(len(it))]
        self.files = {record.name: record for record in records}
        self.pools = pools

    def FindFileByName(self, name: str) -> Record:
        self.asked.append(name)
        return self.files[name]

    def FindFileContainingSymbol(self, name: str) -> Record:
        self.asked.append(name)
        return self.files[self.pools[0].file_of(name).name]

    def FindFileContainingExtension(self, name: str, number: int) -> Record:
        return self.files[self.extensions[name, number]]

    def FindAllExtensionNumbers(self, name: str) -> list[int]:
        return [number for of, number in self.extensions if of == name]


def late() -> protolink.Pool:
    """A file with one more extension of what tour() has."""
    pool = tour()
    pool.add_script(
        "file late.proto\npackage late\nimport tour.proto\n"
        "extend more 150 optional int32 ~ .tour.Outer\nend\n"
    )
    return pool


WAIT = 60
"""How many seconds a thread may take that waits for nothing for ever."""

CHANGES: list[Callable[[protolink.Pool], object]] = [
    lambda pool: pool.add_script("file late.proto\nend\n"),
    lambda pool: pool.limit_faults(7),
    lambda pool: pool.close(),
]
"""Calls that change a pool."""

ORDER = shop().linked()
"""The set of shop()."""

MOMENTS, MOST_SECONDS = 20_000, 20
"""At how many moments an exception is thrown, and how long that may take."""


class Thrown(Exception):
    """What a handler of signals throws."""


class Lying(bytes):
    """Bytes that say another length than they have."""

    def __len__(self) -> int:
        return 1_000_000


def with_alarm(call: Callable[[], object], seconds: float, handler: Callable[[], object]) -> None:
    """Makes a call. Some seconds after it has begun a handler of signals is called, if it lasts."""
    signal.signal(signal.SIGALRM, lambda *_: handler())
    signal.setitimer(signal.ITIMER_REAL, max(seconds, 1e-6))
    call()
    signal.setitimer(signal.ITIMER_REAL, 0)


def throw() -> None:
    raise Thrown


def has_thrown(call: Callable[[], object], seconds: float) -> bool:
    """The same with a handler that throws: whether it did."""
    try:
        with_alarm(call, seconds, throw)
        return False
    except Thrown:
        return True


def end_of_child(call: Callable[[], object]) -> int:
    """How a child of a fork ends that makes a call: 0 where it is done in time."""
    with warnings.catch_warnings():
        warnings.simplefilter("ignore", DeprecationWarning)
        child = os.fork()
    if child == 0:
        try:
            signal.signal(signal.SIGALRM, signal.SIG_DFL)
            signal.alarm(WAIT)
            call()
            os._exit(0)
        except BaseException:
            traceback.print_exc()
        os._exit(1)
    return os.waitpid(child, 0)[1]


def look_ups(
    pool: protolink.Pool, outer: protolink.Descriptor, service: protolink.ServiceDescriptor
) -> list[Callable[[], object]]:
    """Calls of all kinds that read the pool of tour()."""
    core = pool._core
    return [
        lambda: pool.find("tour.Outer"),
        lambda: pool.find("tour.None"),
        lambda: pool.message("tour.Outer.Inner"),
        lambda: pool["tour.Outer.choice"],
        lambda: pool.file("tour.proto"),
        lambda: core.file_named(b"tour.proto"),
        lambda: core.file_named(b"none.proto"),
        lambda: pool.file_of("tour.Outer.DONE"),
        lambda: pool.full_name("field", 0, 1),
        lambda: pool.file_name(0),
        lambda: len(pool) > 0,
        lambda: outer.field(1),
        lambda: outer.field_named("state"),
        lambda: protolink.Descriptor(core, 0).fields,
        lambda: protolink.Descriptor(core, 0).name,
        lambda: protolink.Descriptor(core, 0).nested_types,
        lambda: protolink.Descriptor(core, 0).path,
        lambda: protolink.FieldDescriptor(core, 0, 3).enum_type,
        lambda: protolink.FileDescriptor(core, 0).message_types,
        lambda: protolink.FileDescriptor(core, 0).dependencies,
        lambda: pool.enum("tour.Outer.State").value(2),
        lambda: pool.enum("tour.Outer.State").value_named("DONE"),
        lambda: service.method("Get").input_type,
        lambda: outer.extension(100),
        lambda: outer.options,
    ]


class Descriptors(unittest.TestCase):
    """What a pool has, as descriptors."""

    def test_a_file_lists_what_it_declares(self) -> None:
        pool = shop()
        order, base = pool.files()
        self.assertEqual((order.name, order.package, order.index), ("shop/order.proto", "shop", 0))
        self.assertEqual((order.syntax, order.dependencies), ("proto2", [base]))
        self.assertEqual([it.full_name for it in order.message_types], ["shop.Order"])
        self.assertEqual(list(base.enum_types_by_name), ["Status"])
        self.assertEqual((base.services, base.extensions, base.message_types), ([], [], []))
        self.assertEqual(pool.file("shop/base.proto"), base)
        self.assertEqual(base.serialized_pb, pool.linked_file(1))
        self.assertEqual(list(pool), [order, base])

    def test_a_message_lists_what_it_declares(self) -> None:
        pool = tour()
        outer, inner = pool.messages()
        self.assertEqual((outer.name, outer.full_name), ("Outer", "tour.Outer"))
        self.assertEqual((outer.containing_type, inner.containing_type), (None, outer))
        self.assertEqual((outer.path, inner.path), ((4, 0), (4, 0, 3, 0)))
        self.assertEqual((outer.nested_types, inner.nested_types), ([inner], []))
        self.assertEqual(outer.nested_types_by_name, {"Inner": inner})
        state = outer.enum_types_by_name["State"]
        self.assertEqual(list(outer.enum_values_by_name), ["OPEN", "DONE"])
        self.assertEqual(outer.EnumValueName("State", 2), "DONE")
        self.assertEqual((state.containing_type, state.allow_alias), (outer, False))
        self.assertEqual(outer.fields_by_number[1], outer.fields_by_name["id"])
        self.assertEqual(outer.field(1), outer.fields[0])
        self.assertEqual(outer.field_named("many_sizes"), outer.fields[1])
        self.assertEqual(outer.field_json_named("sizes"), outer.fields[1])
        self.assertEqual(outer.field_json_named("innerOne"), outer.fields[2])
        self.assertEqual(outer.fields_by_camelcase_name["innerOne"], outer.fields[2])
        for missing in (lambda: outer.field(11), lambda: outer.field(-1)):
            with self.assertRaises(KeyError):
                missing()
        for missing in (lambda: outer.field_named("x"), lambda: outer.field_json_named("x")):
            with self.assertRaises(KeyError):
                missing()

    def test_fields_tell_their_types_and_defaults(self) -> None:
        outer = tour().message("tour.Outer")
        by_name = outer.fields_by_name
        self.assertEqual(by_name["id"].label, protolink.FieldDescriptor.LABEL_REQUIRED)
        self.assertEqual(by_name["id"].type, protolink.FieldDescriptor.TYPE_INT64)
        self.assertEqual(by_name["id"].cpp_type, protolink.FieldDescriptor.CPPTYPE_INT64)
        self.assertTrue(by_name["many_sizes"].is_packed)
        self.assertFalse(by_name["many_sizes"].has_presence)
        self.assertEqual(by_name["inner_one"].message_type.full_name, "tour.Outer.Inner")
        self.assertEqual(by_name["state"].enum_type.name, "State")
        self.assertIsNone(by_name["state"].message_type)
        choice = outer.oneofs_by_name["choice"]
        self.assertEqual(choice.fields, [by_name["note"], by_name["raw"]])
        self.assertEqual(by_name["note"].containing_oneof, choice)
        defaults = {name: field.default_value for name, field in by_name.items()}
        self.assertAlmostEqual(defaults.pop("ratio"), 0.1)
        wanted = {"id": 0, "many_sizes": [], "inner_one": None, "state": 2, "note": "none"}
        wanted |= {"raw": b"a\1", "share": -math.inf, "flag": True, "count": 0}
        self.assertEqual(defaults, wanted)
        self.assertFalse(by_name["id"].has_default_value)
        self.assertTrue(by_name["note"].has_default_value)

    def test_extensions(self) -> None:
        pool = tour()
        outer, weight = pool.message("tour.Outer"), pool.extension("tour.weight")
        within = pool["tour.Outer.within"]
        self.assertEqual(outer.all_extensions, [within, weight])
        self.assertEqual((outer.extensions, within.extension_scope), ([within], outer))
        self.assertEqual((weight.extension_scope, weight.containing_type), (None, outer))
        self.assertEqual(outer.extension(100), weight)
        self.assertTrue(weight.is_extension and not outer.fields[0].is_extension)
        self.assertEqual(pool.file("tour.proto").extensions_by_name, {"weight": weight})
        with self.assertRaises(KeyError):
            outer.extension(102)

    def test_services(self) -> None:
        pool = tour()
        service = pool.service("tour.Shop")
        (get,) = service.methods
        self.assertEqual((get.full_name, get.index), ("tour.Shop.Get", 0))
        self.assertEqual((get.input_type.name, get.output_type.name), ("Outer", "Inner"))
        self.assertEqual((get.containing_service, get.file.name), (service, "tour.proto"))
        self.assertEqual(service.FindMethodByName("Get"), pool.method("tour.Shop.Get"))

    def test_maps_streams_and_optional_fields(self) -> None:
        pool = protolink.Pool()
        pool.add_set(TRIPS)
        trip = pool.message("tour.Trip")
        stops, days, miles, done = trip.fields
        self.assertEqual((stops.is_map, stops.is_list, miles.is_list), (True, False, True))
        entry = stops.message_type
        self.assertEqual(trip.nested_types, [entry])
        self.assertTrue(entry.is_map_entry and not trip.is_map_entry)
        self.assertEqual(entry.map_entry_key_field, entry.field(1))
        self.assertEqual(entry.map_entry_value_field.message_type.name, "Stop")
        self.assertIsNone(trip.map_entry_key_field)
        self.assertTrue(days.is_proto3_optional and days.containing_oneof.is_synthetic)
        self.assertFalse(done.is_proto3_optional or done.is_required or done.is_group)
        trips = pool.service("tour.Trips")
        streams = [(it.name, it.client_streaming, it.server_streaming) for it in trips.methods]
        wanted = [("Get", False, False), ("Watch", False, True), ("Tell", True, False)]
        self.assertEqual(streams, wanted)
        with self.assertRaises(KeyError):
            trips.method("Put")

    def test_what_is_reserved_or_deprecated(self) -> None:
        pool = protolink.Pool()
        pool.add_set(TRIPS)
        trip, state = pool.message("tour.Trip"), pool.enum("tour.State")
        self.assertEqual(trip.reserved_ranges, [(7, 8), (10, 13)])
        self.assertEqual(trip.reserved_names, ["old", "older"])
        self.assertEqual((trip.extension_ranges, trip.is_extendable), ([], False))
        self.assertEqual(state.reserved_ranges, [(3, 5), (-1, -1)])
        self.assertEqual((state.reserved_names, state.is_closed), (["GONE"], False))
        self.assertEqual(trip.options, b"\x18\1")
        self.assertEqual((trip.has_options, trip.is_deprecated), (True, True))
        stop = pool.message("tour.Stop")
        self.assertEqual((stop.options, stop.has_options, stop.is_deprecated), (b"", False, False))
        self.assertEqual((state.value(1), state.value_named("OPEN")), (state.values[1],) * 2)
        self.assertTrue(state.value(1).is_deprecated and trip.field(4).is_deprecated)
        self.assertTrue(pool.method("tour.Trips.Tell").is_deprecated)
        self.assertEqual((trip.file.options, trip.file.is_deprecated), (b"", False))
        for missing in (2, 2**40):
            with self.assertRaises(KeyError):
                state.value(missing)
        ranges = [(tour().message("tour.Outer").extension_ranges)]
        self.assertEqual(ranges, [[(100, 200)]])

    def test_places_and_comments(self) -> None:
        pool = protolink.Pool()
        pool.add_set(TRIPS)
        trip, stop = pool.message("tour.Trip"), pool.message("tour.Stop")
        wanted = ((4, 0), (3, 0, 11, 1), " A trip.\n", " Behind it.\n", [])
        self.assertEqual(trip.location, wanted)
        self.assertEqual(stop.location, ((4, 1), (15, 0, 15), None, None, [" On its own.\n"]))
        self.assertIsNone(trip.field(4).location)
        self.assertIs(trip.location, trip.location)

    def test_of_several_locations_of_an_item_the_first_counts(self) -> None:
        pool = protolink.Pool()
        places = "at 4,0,1 8,8,8\nat 4,0 1,2,3\nat 4,0 4,5,6\nat 4,200 7,8,9,10\n"
        messages = "".join(f"message M{n}\nend\n" for n in range(201))
        pool.add_script(f"file a.proto\n{messages}{places}end\n")
        first, last = pool.message("M0"), pool.message("M200")
        self.assertEqual(first.location, ((4, 0), (1, 2, 3), None, None, []))
        self.assertEqual(last.location, ((4, 200), (7, 8, 9, 10), None, None, []))
        self.assertIsNone(pool.message("M199").location)

    def test_locations_are_those_of_the_library(self) -> None:
        pool = protolink.Pool()
        pool.add_set(TRIPS)
        lib, told = protolink._library.lib, 0
        kinds = (pool.messages(), pool.enums(), pool.services())
        items = [item for kind in kinds for item in kind]
        items += [part for it in items for part in self.parts(it)]
        for it in items:
            item = protolink._library.Item(it._number, it._index, it._position)
            span = it._core.integers(lib.span, item)
            if span is None:
                self.assertIsNone(it.location)
                continue
            leading = it._core.text(lib.leading_comments, item)
            trailing = it._core.text(lib.trailing_comments, item)
            detached = list(it._core.texts(lib.detached_comments, item))
            self.assertEqual(it.location, (it.path, span, leading, trailing, detached))
            told += 1
        self.assertEqual(told, 4)

    @staticmethod
    def parts(item: object) -> list[object]:
        """The fields, values or methods of an item."""
        lists = (getattr(item, name, []) for name in ("fields", "values", "methods"))
        return [part for parts in lists for part in parts]

    def test_records_are_bytes(self) -> None:
        pool = tour()
        file = pool.file("tour.proto")
        self.assertEqual(pool.field("tour.Outer.note").serialized_pb[:6], b"\x0a\x04note")
        for kind in protolink.KINDS[1:]:
            items = [it for it in self.everything(file) if it._kind == kind]
            self.assertTrue(items, kind)
            for item in items:
                name = item.name.encode()
                record = item.serialized_pb
                self.assertEqual(record[: len(name) + 2], bytes((10, len(name))) + name)
                self.assertIn(record, file.serialized_pb)

    @staticmethod
    def everything(file: protolink.FileDescriptor) -> list[object]:
        """The items of a file whose one message has all kinds but services."""
        (outer,), (service,) = file.message_types, file.services
        enums = [*file.enum_types, *outer.enum_types]
        lists = (outer.fields, outer.oneofs, outer.nested_types, outer.extensions)
        values = [value for enum in enums for value in enum.values]
        items = [outer, service, *service.methods, *enums, *values, *file.extensions]
        return [*items, *(item for items in lists for item in items)]

    def test_public_imports(self) -> None:
        pool = protolink.Pool()
        pool.add_script("file a.proto\nimport b.proto\nimport c.proto\npublic 1\nend\n"
                        "file b.proto\nend\nfile c.proto\nend\n")
        self.assertEqual(pool.file("a.proto").public_dependencies, [pool.file("c.proto")])

    def test_names_mean_descriptors(self) -> None:
        pool = tour()
        for name, kind in (
            ("tour.Outer", protolink.Descriptor),
            ("tour.Outer.id", protolink.FieldDescriptor),
            ("tour.Outer.choice", protolink.OneofDescriptor),
            ("tour.Outer.DONE", protolink.EnumValueDescriptor),
            ("tour.Kind", protolink.EnumDescriptor),
            ("tour.weight", protolink.ExtensionDescriptor),
            ("tour.Shop.Get", protolink.MethodDescriptor),
        ):
            with self.subTest(name):
                self.assertIs(type(pool[name]), kind)
                self.assertEqual(pool[name].full_name, name)
                self.assertIn(name, pool)
                self.assertEqual(repr(pool[name]), f"<protolink.{kind.__name__} {name!r}>")
        self.assertNotIn("tour.None", pool)
        self.assertNotIn(5, pool)
        for missing in ("tour", "tour.None", "tour.Outer.Inner.id", "\ud800"):
            with self.assertRaises(KeyError):
                pool[missing]
        with self.assertRaisesRegex(KeyError, "the pool has no message 'tour.Kind'"):
            pool.message("tour.Kind")
        with self.assertRaisesRegex(TypeError, "a name is a str"):
            pool.message(5)

    def test_equal_are_those_of_one_place(self) -> None:
        pool, other = tour(), tour()
        self.assertEqual(pool["tour.Outer"], pool.messages()[0])
        self.assertNotEqual(pool["tour.Outer"], other["tour.Outer"])
        self.assertNotEqual(pool["tour.Outer"], pool["tour.Kind"])
        self.assertEqual(len({pool["tour.Outer"], pool["tour.Outer"], other["tour.Outer"]}), 2)
        self.assertIs(copy.deepcopy(pool["tour.Outer"]).pool, pool)

    def test_a_descriptor_is_one_as_long_as_it_is_held(self) -> None:
        pool = tour()
        outer, service = pool.messages()[0], pool.service("tour.Shop")
        self.assertIs(pool.message("tour.Outer"), outer)
        self.assertIs(outer.fields[2].containing_type, outer)
        self.assertIs(outer.fields[2].message_type.containing_type, outer)
        self.assertIs(pool.field("tour.Outer.note"), outer.field_named("note"))
        self.assertIs(service.methods[0].containing_service, service)
        self.assertIs(service.methods[0], pool.method("tour.Shop.Get"))
        self.assertIs(outer.file, pool.files()[0])
        self.assertIs(outer.enum_types[0].values[1].type, outer.enum_types[0])
        self.assertIsNot(tour().messages()[0], outer)

    def test_a_descriptor_that_no_one_holds_is_not_kept(self) -> None:
        pool = tour()
        gone = weakref.ref(pool.messages()[0])
        self.assertIsNone(gone())

    def test_descriptors_that_no_one_holds_are_no_longer_noted(self) -> None:
        pool, few = protolink.Pool(), protolink._held.FEW
        messages = "".join(f"message M{n}\nend\n" for n in range(3 * few))
        pool.add_script(f"file a.proto\n{messages}end\n")
        held = [protolink.Descriptor(pool._core, n) for n in range(0, 3 * few, 3)]
        for number in range(3 * few):
            self.assertEqual(protolink.Descriptor(pool._core, number).name, f"M{number}")
        known = pool._core.held._known[protolink.Descriptor]
        self.assertLess(len(known.ones), 2 * few + 1)
        for number, message in enumerate(held):
            self.assertIs(protolink.Descriptor(pool._core, 3 * number), message)

    def test_threads_that_ask_at_once_have_one_descriptor(self) -> None:
        pool, made = tour(), []
        interval = sys.getswitchinterval()
        sys.setswitchinterval(1e-6)
        try:
            for _ in range(50):
                begin = threading.Barrier(4)

                def ask() -> None:
                    begin.wait()
                    made.append(protolink.FieldDescriptor(pool._core, 0, 3))

                threads = [threading.Thread(target=ask) for _ in range(4)]
                for thread in threads:
                    thread.start()
                for thread in threads:
                    thread.join(WAIT)
                self.assertEqual(len(set(map(id, made))), 1)
                made.clear()
        finally:
            sys.setswitchinterval(interval)

    def test_a_descriptor_is_not_changed(self) -> None:
        outer = tour().message("tour.Outer")
        for name in ("name", "fields", "has_options", "pool", "path"):
            with self.assertRaisesRegex(AttributeError, name):
                setattr(outer, name, None)
            with self.assertRaisesRegex(AttributeError, name):
                delattr(outer, name)
        self.assertEqual(outer.name, "Outer")

    def test_descriptors_hold_when_files_are_added(self) -> None:
        pool = shop()
        order = pool.message("shop.Order")
        pool.add_script(TOUR)
        self.assertEqual(order, pool.message("shop.Order"))
        self.assertEqual(len(pool), 3)
        self.assertEqual(pool.file("tour.proto").message_types, [pool["tour.Outer"]])

    def test_a_descriptor_keeps_what_its_pool_has(self) -> None:
        outer = tour().message("tour.Outer")
        self.assertEqual(outer.field(1).name, "id")
        self.assertIs(outer.pool, outer.fields[0].pool)
        self.assertEqual(outer.pool.message("tour.Outer"), outer)

    def test_names_that_were_found_go_with_their_pool(self) -> None:
        pool = tour()
        found = pool.message("tour.Outer")
        self.assertIs(pool.message("tour.Outer"), found)
        self.assertTrue(found.fields and found.fields_by_name)
        gone = weakref.ref(pool._core)
        del pool, found
        self.assertIsNone(gone())

    def test_a_pool_that_is_closed_has_nothing(self) -> None:
        with tour() as pool:
            outer = pool.message("tour.Outer")
            self.assertEqual(len(pool), 1)
        self.assertEqual(len(pool), 0)
        with self.assertRaises(LookupError):
            outer.fields
        with self.assertRaises(KeyError):
            pool.file("tour.proto")

    def test_a_descriptor_of_a_pool_that_was_closed_answers_nothing(self) -> None:
        """Also what it was asked before, and also where the pool is filled again."""
        pool = tour()
        outer, service = pool.message("tour.Outer"), pool.service("tour.Shop")
        self.assertEqual((outer.name, outer.fields[3].index), ("Outer", 3))
        items = [outer, outer.file, *self.everything(outer.file)]
        asked = [(it, name) for it in items for name in self.answers(it)]
        for item, name in asked[:: len(asked) // 50]:
            getattr(item, name)
        pool.close()
        for refill in (None, SHOP, TOUR):
            if refill is not None:
                pool.add_script(refill)
            for item, name in asked:
                with self.subTest(f"{type(item).__name__}.{name}"):
                    with self.assertRaisesRegex(LookupError, "the pool was closed"):
                        getattr(item, name)
            for call in (lambda: outer.field(1), lambda: service.method("Get")):
                with self.assertRaisesRegex(LookupError, "the pool was closed"):
                    call()
            self.assertEqual(repr(outer), "<protolink.Descriptor of no pool any more>")
        self.assertEqual(pool.message("tour.Outer").name, "Outer")
        self.assertNotEqual(pool.message("tour.Outer"), outer)

    def test_threads_that_close_a_pool_at_once_close_it_once(self) -> None:
        pool, ends = shop(), []
        close = pool._core.close

        def close_twice() -> None:
            close()
            ends.append(pool)
            if len(ends) == 1:
                pool.close()
                pool.add_script(TOUR)

        pool._core.close = close_twice
        pool.close()
        self.assertEqual(pool.message("tour.Outer").name, "Outer")

    @staticmethod
    def answers(item: object) -> list[str]:
        """The properties of a descriptor, but those of which the pool is not asked: they are none,
        or descriptors, which ask it then; and but the one that wants protobuf's package."""
        unasked = {
            protolink.FieldDescriptor: {"containing_type", "extension_scope"},
            protolink.ExtensionDescriptor: {"containing_oneof"},
            protolink.OneofDescriptor: {"containing_type"},
            protolink.EnumValueDescriptor: {"type"},
            protolink.MethodDescriptor: {"containing_service"},
        }.get(type(item), set())
        told = {name: it for class_ in type(item).__mro__ for name, it in vars(class_).items()}
        names = {name for name in told if isinstance(told[name], property)}
        return sorted(names - unasked - {"_options_message"})


class Pools(unittest.TestCase):
    def test_an_empty_pool_has_nothing(self) -> None:
        pool = protolink.Pool()
        self.assertEqual(pool.counts(), (0, 0, 0, 0, 0))
        self.assertEqual((pool.linked(), pool.report(), pool.faults), (b"", "", []))
        self.assertIsNone(pool.find("p"))
        with self.assertRaises(IndexError):
            pool.linked_file(0)

    def test_names_mean_definitions(self) -> None:
        pool = shop()
        self.assertEqual(pool.counts(), (2, 1, 1, 0, 0))
        self.assertEqual(pool.find(".shop.Order"), ("message", 0, 0, 0, (4, 0, 1)))
        self.assertEqual(pool.find("shop.Order.status"), ("field", 0, 1, 0, (4, 0, 2, 1, 1)))
        self.assertEqual(pool.find("shop.UNKNOWN"), ("enum_value", 0, 0, 1, (5, 0, 2, 0, 1)))
        self.assertEqual(pool.full_name("field", 0, 1), "shop.Order.status")
        self.assertEqual(pool.file_name(1), "shop/base.proto")
        self.assertIsNone(pool.find("shop.None"))
        for index in (2, -1, 2**32, 2**40):
            with self.assertRaises(IndexError):
                pool.file_name(index)

    def test_a_path_may_be_long(self) -> None:
        pool, depth = protolink.Pool(), 12
        opened = "".join(f"message M{n}\n" for n in range(depth))
        pool.add_script("file a.proto\n" + opened + "end\n" * (depth + 1))
        name = ".".join(f"M{n}" for n in range(depth))
        path = (4, 0, *(3, 0) * (depth - 1))
        self.assertEqual(pool.find(name).path, (*path, 1))
        self.assertEqual(pool[name].path, path)

    def test_names_that_are_no_texts_mean_nothing(self) -> None:
        pool = shop()
        for name in ("shop.Order\0", "\0", "\ud800", b"shop.\xff", "x" * 10_000):
            with self.subTest(name[:10]):
                self.assertIsNone(pool.find(name))
                self.assertNotIn(name, pool)
        self.assertEqual(pool.find(b"shop.Order"), pool.find("shop.Order"))
        for name in (5, None, bytearray(b"shop.Order")):
            with self.assertRaisesRegex(TypeError, "a name is a str"):
                pool.find(name)

    def test_a_refusal_tells_faults_and_changes_nothing(self) -> None:
        pool = shop()
        before = pool.linked()
        with self.assertRaises(protolink.Refused) as refused:
            pool.add_script(FAULTY)
        (fault,) = refused.exception.faults
        self.assertEqual(fault.code, "DuplicateName")
        self.assertEqual((fault.file, fault.line, fault.column), ("a.proto", 8, 9))
        self.assertEqual((fault.path, fault.element), ([4, 1, 1], "p.M"))
        self.assertEqual(fault.related[0].path, [4, 0, 1])
        self.assertEqual(str(fault), "a.proto:8:9: name 'p.M' is defined twice")
        self.assertEqual(pool.faults, [fault])
        self.assertTrue(pool.report().startswith(f"{fault}\n"))
        self.assertEqual(pool.linked(), before)
        pool.add_set(before)
        self.assertEqual((pool.faults, pool.report()), ([], ""))

    def test_a_hundred_faults_are_told_or_as_many_as_are_wanted(self) -> None:
        fields = "".join(f"field f{n} {n} optional message .p.N ~\n" for n in range(1, 251))
        script = f"file a.proto\nmessage M\n{fields}end\nend\n".encode()
        pool = protolink.Pool()

        def told_and_more(pool: protolink.Pool) -> tuple[int, int]:
            with self.assertRaises(protolink.Refused) as refused:
                pool.add_script(script)
            self.assertEqual(pool.faults, refused.exception.faults)
            return len(pool.faults), refused.exception.more

        self.assertEqual(told_and_more(pool), (100, 150))
        self.assertIn("and 150 more\n", pool.report())
        for most, told in ((0, (0, 250)), (3, (3, 247)), (250, (250, 0)), (2**70, (250, 0))):
            pool.limit_faults(most)
            self.assertEqual(told_and_more(pool), told)
            self.assertEqual(told_and_more(pool.clone()), told)
        with self.assertRaises(ValueError):
            pool.limit_faults(-1)

    def test_what_cannot_be_read_is_told(self) -> None:
        with self.assertRaisesRegex(protolink.Unreadable, "byte 2"):
            shop().add_set(b"\x0a\x05")
        with self.assertRaisesRegex(protolink.Unreadable, "line 1"):
            shop().add_script(b"nonsense\n")

    def test_linked_files_are_linked_again(self) -> None:
        pool, again, apart = shop(), protolink.Pool(), protolink.Pool()
        again.add_set(pool.linked())
        self.assertEqual(again.linked(), pool.linked())
        for file in pool.linked_files():
            apart.add_file(file)
        self.assertEqual(apart.counts(), pool.counts())

    def test_files_of_protobuf_go_in_one_by_one(self) -> None:
        pool = shop()
        apart = protolink.Pool()
        base, order = (apart.AddSerializedFile(file) for file in pool.linked_files())
        self.assertEqual((base.name, order.name), ("shop/base.proto", "shop/order.proto"))
        self.assertEqual(apart.AddSerializedFile(pool.linked_file(1)), base)

    def test_another_file_of_a_known_name_is_a_type_error(self) -> None:
        pool, other = shop(), protolink.Pool()
        other.add_script("file shop/base.proto\npackage other\nend\n")
        with self.assertRaises(TypeError) as refused:
            pool.AddSerializedFile(other.linked_file(0))
        (fault,) = refused.exception.faults
        self.assertEqual((fault.code, fault.file), ("UnequalFile", "shop/base.proto"))
        self.assertIn("the pool has another file 'shop/base.proto'", str(refused.exception))
        self.assertEqual(pool.file("shop/base.proto").package, "shop")
        for call, wrong in (
            (pool.AddSerializedFile, b"\x0a\x05"),
            (pool.add_script, FAULTY),
            (pool.add_script, "nonsense"),
        ):
            with self.assertRaises(TypeError) as refused:
                call(wrong)
            self.assertIsInstance(refused.exception, protolink.Error)

    def test_descriptors_are_added_to_their_own_pool(self) -> None:
        pool, other = tour(), tour()
        outer = pool.message("tour.Outer")
        for name, descriptor, theirs in (
            ("AddDescriptor", outer, other.message("tour.Outer")),
            ("AddEnumDescriptor", pool.enum("tour.Kind"), other.enum("tour.Kind")),
            ("AddServiceDescriptor", pool.service("tour.Shop"), other.service("tour.Shop")),
            ("AddExtensionDescriptor", outer.extension(100), other.extension("tour.weight")),
            ("AddFileDescriptor", outer.file, other.files()[0]),
        ):
            add = getattr(pool, name)
            self.assertIsNone(add(descriptor))
            with self.assertRaises(ValueError):
                add(theirs)
            for wrong in (0, None, pool.field("tour.Outer.note")):
                with self.assertRaises(TypeError):
                    add(wrong)

    def test_an_empty_pool_is_true(self) -> None:
        pool = protolink.Pool()
        self.assertTrue(pool)
        self.assertEqual(len(pool), 0)

    def test_several_files_are_one_batch(self) -> None:
        pool = shop()
        together = protolink.Pool()
        together.add_files(pool.linked_file(index) for index in range(len(pool)))
        self.assertEqual(together.linked(), pool.linked())
        together.add_files([])
        self.assertEqual(len(together), 2)
        with self.assertRaises(protolink.Unreadable):
            together.add_files([b"\x0a\x05"])

    def test_what_became_of_files_is_told(self) -> None:
        pool = shop()
        linked = pool.linked()
        self.assertEqual(pool.add_set(linked), (0, 2, 0))
        script = "file c.proto\nend\nfile shop/base.proto\nend\n"
        self.assertEqual(pool.add_script(script), (1, 1, 1))
        again = protolink.Pool()
        added = again.add_file(pool.linked_file(1))
        self.assertEqual((added.files, added.passed_over, added.differing), (1, 0, 0))
        self.assertEqual(again.add_set(linked), (1, 1, 0))
        self.assertEqual(again.add_files([]), protolink.Added(0, 0, 0))
        self.assertEqual(again.add_set(b""), protolink.Added(0, 0, 0))

    def test_a_file_twice_counts_once(self) -> None:
        pool = protolink.Pool()
        file = shop().linked_file(1)
        self.assertEqual(pool.add_files([file, file]), (1, 0, 0))
        with self.assertRaises(protolink.Refused) as refused:
            pool.add_script("file a.proto\nend\nfile a.proto\npackage p\nend\n")
        (fault,) = refused.exception.faults
        self.assertEqual((fault.code, fault.file), ("UnequalFile", "a.proto"))
        self.assertEqual(fault.message, "file 1 and file 2 have unequal copies: package")

    def test_what_a_pool_changes_of_an_older_one_is_told(self) -> None:
        def pool_of(field: str) -> protolink.Pool:
            pool = protolink.Pool()
            pool.add_script(f"file a.proto\npackage p\nmessage M\n{field} ~ ~\nend\nend\n")
            return pool

        older = pool_of("field id 1 optional int64")
        new = pool_of("field key 1 optional int32")
        (change,) = new.changes(older)
        self.assertEqual((change.level, change.direction), ("wire", "backward"))
        self.assertEqual(change.fault.code, "field-kind")
        self.assertEqual(str(change), "a.proto: p.M.key: 'p.M.key' (1): int64 became int32")
        self.assertEqual(change.fault.related[0].path, [4, 0, 2, 0])
        at_json = new.changes(older, level="json")
        self.assertEqual((at_json[0], at_json.more), (change, 0))
        self.assertEqual([change.level for change in at_json], ["wire", "json"])
        self.assertEqual(older.changes(new), [])
        self.assertEqual(new.changes(new, "source"), [])
        new.limit_faults(1)
        limited = new.changes(older, "json")
        self.assertEqual((limited, limited.more), ([change], 1))
        with self.assertRaises(ValueError):
            new.changes(older, "bytes")
        with self.assertRaises(ValueError):
            new.changes(older, "wire", "sideways")

    def test_a_field_that_is_added_changes_nothing_in_either_direction(self) -> None:
        older, new = (row_pool(f"field-added.{side}.pb") for side in ("old", "new"))
        for compatibility in protolink.COMPATIBILITIES:
            changes = new.changes(older, compatibility=compatibility)
            self.assertEqual((changes, changes.more), ([], 0), compatibility)
        (change,) = older.changes(new)
        self.assertEqual(change.fault.code, "number-free")

    def test_changes_of_both_directions_are_counted_together(self) -> None:
        older, new = (row_pool(f"kind-in-full.{side}.pb") for side in ("old", "new"))
        directions = [change.direction for change in new.changes(older, compatibility="full")]
        self.assertEqual(directions, ["backward", "forward"])
        new.limit_faults(0)
        limited = new.changes(older, compatibility="full")
        self.assertEqual((limited, limited.more), ([], 2))
        self.assertEqual(new.changes(older, compatibility="forward").more, 1)

    def test_changes_are_those_of_the_rows(self) -> None:
        count = 0
        for asked, wanted in rows_of_changes():
            older, new = row_pool(asked["--against"]), row_pool(asked["FILE"])
            new.limit_faults(int(asked["--max-faults"]))
            changes = new.changes(older, asked["--level"], asked["--compatibility"])
            with self.subTest(asked["FILE"]):
                found = [change_as_json(change, asked["--against"]) for change in changes]
                self.assertEqual(found, wanted["changes"])
                self.assertEqual(changes.more, sum(it["more"] for it in wanted["compared"]))
            count += 1
        self.assertGreater(count, 100)

    def test_a_path_is_read(self) -> None:
        with tempfile.TemporaryDirectory() as room:
            path = Path(room) / "set.pb"
            path.write_bytes(shop().linked())
            pool = protolink.Pool()
            pool.add_set(path)
            self.assertEqual(len(pool), 2)

    def test_the_code_of_the_page_runs(self) -> None:
        page = (Path(__file__).resolve().parent / "README.md").read_text()
        blocks = re.findall(r"(?:^    .*\n|^\n)+", page, re.MULTILINE)
        code = [textwrap.dedent(block) for block in blocks if "protolink.Pool()" in block]
        self.assertTrue(code)
        if descriptor_pb2 is None:
            code = [block for block in code if "google.protobuf" not in block]
        with tempfile.TemporaryDirectory() as room:
            (Path(room) / "set.pb").write_bytes(shop().linked())
            for block in code:
                words = [sys.executable, "-B", "-c", block]
                folder = str(Path(__file__).resolve().parent)
                environment = {**os.environ, "PYTHONPATH": folder}
                done = subprocess.run(words, cwd=room, env=environment, check=False)
                self.assertEqual(done.returncode, 0)

    def test_only_bytes_are_taken(self) -> None:
        pool = protolink.Pool()
        data = shop().linked()
        for other in (5, None, [10, 0]):
            for call in (pool.add_set, pool.add_file, pool.add_script):
                with self.assertRaisesRegex(TypeError, "is bytes, a path or a message"):
                    call(other)
        for call in (pool.add_set, pool.add_file):
            with self.assertRaisesRegex(TypeError, "give a path as pathlib.Path"):
                call("set.pb")
        self.assertEqual(pool.counts().files, 0)
        for same in (bytearray(data), memoryview(data), memoryview(data * 2)[: len(data)]):
            again = protolink.Pool()
            again.add_set(same)
            self.assertEqual(again.linked(), data)

    def test_a_copy_is_apart(self) -> None:
        pool = shop()
        copies = (pool.clone(), copy.copy(pool), copy.deepcopy(pool))
        pool.add_script("file c.proto\nend\n")
        self.assertEqual(pool.counts().files, 3)
        self.assertEqual([copied.counts().files for copied in copies], [2, 2, 2])

    def test_a_pool_is_not_pickled(self) -> None:
        with self.assertRaisesRegex(TypeError, "a Pool can't be pickled"):
            pickle.dumps(shop())

    def test_a_pool_may_go_to_another_thread(self) -> None:
        pool, found = shop(), []
        thread = threading.Thread(target=lambda: found.append(pool.find("shop.Order")))
        thread.start()
        thread.join()
        self.assertEqual(found[0].kind, "message")

    def test_threads_may_share_a_pool(self) -> None:
        pool, wrong = protolink.Pool(), []

        def add_and_refuse(thread: int) -> None:
            for number in range(150):
                name = f"m{thread}x{number}"
                pool.add_script(f"file {name}.proto\nmessage {name}\nend\nend\n".encode())
                try:
                    pool.add_script(f"file {name}y.proto\nmessage {name}\nend\nend\n".encode())
                except protolink.Refused as refused:
                    wrong.extend(fault for fault in refused.faults if fault.element != name)
                else:
                    wrong.append(name)
                if pool.full_name(*pool.find(name)[:2]) != name:
                    wrong.append(name)

        threads = [threading.Thread(target=add_and_refuse, args=(n,)) for n in range(4)]
        for thread in threads:
            thread.start()
        for thread in threads:
            thread.join()
        self.assertEqual(wrong, [])
        self.assertEqual(pool.counts()[:2], (600, 600))

    def test_threads_look_up_and_add_while_a_pool_is_copied(self) -> None:
        pool, wrong = shop(), []

        def copy_it(_: int) -> None:
            for _ in range(60):
                copy, again = pool.clone(), protolink.Pool()
                again.add_set(pool.linked())
                wrong.extend(it for it in (copy, again) if it.find("shop.Order") is None)

        def look_up(_: int) -> None:
            for _ in range(600):
                if pool.full_name(*pool.find("shop.Order")[:2]) != "shop.Order":
                    wrong.append(pool)

        def add(thread: int) -> None:
            for number in range(60):
                pool.add_script(f"file n{thread}x{number}.proto\nend\n")

        tasks = [copy_it, look_up, add] * 2
        threads = [threading.Thread(target=it, args=(n,)) for n, it in enumerate(tasks)]
        for thread in threads:
            thread.start()
        for thread in threads:
            thread.join()
        self.assertEqual(wrong, [])
        self.assertEqual(len(pool), 122)

    def test_look_ups_wait_for_no_lock(self) -> None:
        pool = tour()
        outer, shop_ = pool.message("tour.Outer"), pool.service("tour.Shop")
        found: list[object] = []

        def look_up() -> None:
            found.extend(call() for call in look_ups(pool, outer, shop_))

        with pool._core._turns.lock:
            thread = threading.Thread(target=look_up, daemon=True)
            thread.start()
            thread.join(WAIT)
        self.assertEqual(len(found), len(look_ups(pool, outer, shop_)))

    def test_a_look_up_waits_for_a_call_that_changes_the_pool(self) -> None:
        """It finds what was there before, and what was added."""
        for ask in (
            lambda pool: pool.find("shop.Order").kind,
            lambda pool: pool.message("shop.Order").name,
            lambda pool: pool.file("shop/base.proto").index,
            lambda pool: pool.message("late.Late").full_name,
            lambda pool: pool.file("late.proto").name,
            lambda pool: pool.find("late.Late").path,
            lambda pool: len(pool),
            lambda pool: pool.full_name("message", 0),
            lambda pool: [it.name for it in pool.files()[0].message_types],
            lambda pool: pool.report(),
            lambda pool: "shop.None" in pool,
            lambda pool: len(pool.linked()) > 100,
            lambda pool: len(pool.clone()),
        ):
            pool, begun, end, answers = shop(), threading.Event(), threading.Event(), []

            def add_late(*told: object) -> int:
                begun.set()
                self.assertTrue(end.wait(WAIT))
                return int(protolink._library.lib.pool_add_script(*told))

            script = b"file late.proto\npackage late\nmessage Late\nend\nend\n"
            threads = [
                threading.Thread(target=pool._core.add, args=(add_late, script), daemon=True),
                threading.Thread(target=lambda: answers.append(ask(pool)), daemon=True),
            ]
            threads[0].start()
            self.assertTrue(begun.wait(WAIT))
            threads[1].start()
            threads[1].join(0.02)
            self.assertEqual(answers, [])
            end.set()
            for thread in threads:
                thread.join(WAIT)
            self.assertEqual(answers, [ask(pool)])

    def test_threads_look_up_all_there_is_while_files_are_added(self) -> None:
        """And are refused, and other pools are freed; nothing that was there is missed."""
        pool, wrong = tour(), []
        outer, service = pool.message("tour.Outer"), pool.service("tour.Shop")
        wanted = [call() for call in look_ups(pool, outer, service)]

        def look_up(_: int) -> None:
            for number in range(100):
                asked = look_ups(pool, outer, service)
                wrong.extend(it for it, call in enumerate(asked) if call() != wanted[it])
                if number % 10 == 0:
                    pool._forget()

        def add(thread: int) -> None:
            for number in range(40):
                name = f"n{thread}x{number}"
                script = f"file {name}.proto\nmessage {name}\nend\nend\n"
                with protolink.Pool() as other:
                    other.add_script(script)
                pool.add_script(script)
                if pool.message(name).file.message_types != [pool.message(name)]:
                    wrong.append(name)
                try:
                    pool.add_script(f"file {name}y.proto\nmessage {name}\nend\nend\n")
                except protolink.Refused as refused:
                    wrong.extend(it for it in refused.faults if it.element != name)

        tasks = [look_up, add, look_up, add, look_up]
        threads = [
            threading.Thread(target=it, args=(n,), daemon=True) for n, it in enumerate(tasks)
        ]
        interval = sys.getswitchinterval()
        sys.setswitchinterval(1e-5)
        try:
            for thread in threads:
                thread.start()
            for thread in threads:
                thread.join(WAIT)
        finally:
            sys.setswitchinterval(interval)
        self.assertFalse(any(thread.is_alive() for thread in threads))
        self.assertEqual(wrong, [])
        self.assertEqual(len(pool), 81)

    def test_a_call_that_fails_gives_the_pool_back(self) -> None:
        class Ended(Exception):
            pass

        def fail(*_: object) -> int:
            raise Ended

        pool = shop()
        for call in (fail, lambda *_: pool.message("shop.Order") and fail()):
            with self.assertRaises(Ended):
                pool._core.add(call, b"")
            self.assertIsNotNone(pool._core._calm)
            self.assertEqual(pool.message("shop.Order").fields[0].name, "id")
        pool.add_script(TOUR)
        self.assertEqual(len(pool), 3)

    def test_a_change_within_a_change_is_refused(self) -> None:
        """As one in a handler of signals: the outer one has the pool for itself to its end."""
        pool, seen = shop(), []

        def add_twice(*told: object) -> int:
            for change in CHANGES:
                with self.assertRaisesRegex(RuntimeError, "within a call that changes it"):
                    change(pool)
            seen.append(pool._core._view.at)
            self.assertEqual(pool.find("shop.Order").kind, "message")
            self.assertEqual(len(pool.clone()), 2)
            seen.append(pool._core._view.at)
            return int(protolink._library.lib.pool_add_script(*told))

        pool._core.add(add_twice, b"file outer.proto\nend\n")
        self.assertEqual(seen, [None, None])
        self.assertIsNotNone(pool._core._view.at)
        self.assertEqual([it.name for it in pool.files()[2:]], ["outer.proto"])

    def test_without_a_lock_of_the_interpreter_look_ups_wait(self) -> None:
        pool = protolink.pool.pool_of(protolink._core.CoreInTurn())
        pool.add_script(TOUR)
        outer, service = pool.message("tour.Outer"), pool.service("tour.Shop")
        other = tour()
        asked = look_ups(other, other.message("tour.Outer"), other.service("tour.Shop"))
        for ours, theirs in zip(look_ups(pool, outer, service), asked):
            self.assertEqual(repr(ours()), repr(theirs()))
        self.assertIsNone(pool.find("tour.None"))
        self.assertIs(type(pool.clone()._core), protolink._core.CoreInTurn)
        done = threading.Event()
        thread = threading.Thread(target=lambda: len(pool) and done.set(), daemon=True)
        with pool._core._turns.lock:
            thread.start()
            self.assertFalse(done.wait(0.02))
        self.assertTrue(done.wait(WAIT))

    def test_what_was_found_is_kept_and_does_not_grow_without_end(self) -> None:
        pool = tour()
        self.assertIs(pool.file("tour.proto"), pool.FindFileByName("tour.proto"))
        self.assertEqual(pool.file(b"tour.proto"), pool.file("tour.proto"))
        pool._files.update(dict.fromkeys(map(str, range(protolink.pool.MOST_KEPT))))
        pool._kept.update(dict.fromkeys(map(str, range(protolink.pool.MOST_KEPT))))
        del pool._files["tour.proto"]
        self.assertEqual(pool.file("tour.proto").name, "tour.proto")
        self.assertEqual(pool.message("tour.Outer").name, "Outer")
        self.assertEqual((len(pool._files), len(pool._kept)), (1, 1))

    def test_a_pool_is_printed_by_its_counts(self) -> None:
        told = "<protolink.Pool: files=0, messages=0, enums=0, services=0, extensions=0>"
        self.assertEqual(repr(protolink.Pool()), told)

    def test_what_a_pool_lacks_is_found_in_its_database(self) -> None:
        for ask, name in (
            (lambda pool: pool.FindMessageTypeByName("shop.Order").name, "Order"),
            (lambda pool: pool.FindFieldByName("shop.Order.status").enum_type.name, "Status"),
            (lambda pool: pool.FindFileByName("shop/order.proto").name, "shop/order.proto"),
            (lambda pool: pool.FindFileContainingSymbol("shop.UNKNOWN").name, "shop/base.proto"),
            (lambda pool: pool.find(".shop.Order").kind, "message"),
            (lambda pool: pool[b"shop.Order"].name, "Order"),
            (lambda pool: "shop.Order" in pool, True),
        ):
            database = Shelf(shop())
            pool = protolink.Pool(descriptor_db=database)
            self.assertEqual(len(pool), 0)
            self.assertEqual(ask(pool), name)
            asked = list(database.asked)
            self.assertEqual(ask(pool), name)
            self.assertEqual(database.asked, asked)
            for missing in (pool.message, pool.file, pool.file_of, pool.__getitem__):
                with self.assertRaises(KeyError):
                    missing("shop.None")
            self.assertNotIn("shop.None", pool)
        self.assertTrue(pool.clone().message("shop.Order"))
        pool.close()
        self.assertEqual(pool.message("shop.Order").name, "Order")

    def test_extensions_are_found_in_a_database(self) -> None:
        pool = protolink.Pool(Shelf(tour(), {("tour.Outer", 7): "late.proto"}, late()))
        outer = pool.message("tour.Outer")
        self.assertEqual(len(pool), 1)
        self.assertEqual(len(pool.FindAllExtensions(outer)), 3)
        self.assertEqual(len(pool), 2)
        pool = protolink.Pool(Shelf(tour(), {("tour.Outer", 150): "late.proto"}, late()))
        outer = pool.message("tour.Outer")
        self.assertEqual(pool.FindExtensionByNumber(outer, 150).full_name, "late.more")
        with self.assertRaises(KeyError):
            pool.FindExtensionByNumber(outer, 151)

    def test_a_file_of_a_database_that_is_refused_is_a_key_error(self) -> None:
        database = Shelf(shop())
        del database.files["shop/base.proto"]
        pool = protolink.Pool(database)
        with self.assertRaisesRegex(KeyError, "shop/base.proto"):
            pool.message("shop.Order")
        self.assertNotIn("shop.Order", pool)
        self.assertEqual(len(pool), 0)

    def test_a_database_may_have_files_by_name_alone(self) -> None:
        class Files:
            def __init__(self) -> None:
                self.FindFileByName = Shelf(shop()).FindFileByName

        pool = protolink.Pool(Files())
        with self.assertRaises(KeyError):
            pool.message("shop.Order")
        self.assertEqual(pool.file("shop/order.proto").name, "shop/order.proto")
        self.assertEqual(pool.message("shop.Order").name, "Order")
        self.assertEqual(pool.FindAllExtensions(pool.message("shop.Order")), [])

    def test_kinds_of_items(self) -> None:
        pool = shop()
        for kind in protolink.KINDS[1:]:
            with self.subTest(kind), self.assertRaises(IndexError):
                pool.full_name(kind, 1000)
        with self.assertRaises(ValueError):
            pool.full_name("nope", 0)

    def test_a_library_that_is_none(self) -> None:
        """The import fails as that of any module does which is not there."""
        with tempfile.TemporaryDirectory() as room:
            (Path(room) / protolink.SONAME).write_bytes(b"none")
            folder = Path(__file__).resolve().parent
            done = subprocess.run(
                [sys.executable, "-B", "-c", "import protolink"],
                cwd=folder,
                env={**os.environ, "PROTOLINK_LIB_DIR": room},
                stderr=subprocess.PIPE,
                check=False,
            )
        self.assertEqual(done.returncode, 1)
        self.assertIn(b"\nImportError: ", done.stderr)

    def test_the_extension_is_taken_where_it_was_built(self) -> None:
        folder = Path(os.environ.get("PROTOLINK_LIB_DIR") or Path(protolink.__file__).parent)
        is_built = (folder / "_finding.abi3.so").is_file()
        self.assertEqual(protolink._names.finding is not None, is_built)

    def test_the_extension_takes_bytes_alone(self) -> None:
        made = protolink._names.finding
        if made is None:
            self.skipTest("the extension was not built")
        pool = shop()
        names = pool._core._names
        for find, name in (
            (names.found, b"shop.Order"),
            (names.defined, b"shop.Order"),
            (names.file, b"shop/base.proto"),
        ):
            self.assertIsNone(find(b"none"))
            self.assertIsNotNone(find(name))
            for wrong in (name.decode(), 5, None):
                with self.assertRaises(TypeError):
                    find(wrong)
        for wrong in ((), (1, 2, 3), (1, 2, 3, 4, 5), ("1", 2, 3, 4)):
            for call in (made.finders, made.teller, made.texter, made.lister):
                with self.assertRaises(TypeError):
                    call(*wrong)
        with self.assertRaises(ValueError):
            made.teller(1, 1, "I" * 100)
        core, told = pool._core, protolink._told
        parts = protolink.FieldDescriptor._parts
        for ask, least in ((told.MESSAGE.info, 3), (told.NAME, 4), (parts, 3)):
            for wrong in ((), (core._pointer,), (core._pointer, "1", 2, 3)[:least]):
                with self.assertRaises(TypeError):
                    ask(*wrong)
            with self.assertRaises(OverflowError):
                ask(core._pointer, *[-1] * (least - 1))

    def test_the_version_is_told(self) -> None:
        self.assertRegex(protolink.version(), r"^\d+\.\d+\.\d+$")


class Signals(unittest.TestCase):
    """What handlers of signals do while their thread is in a call of a pool."""

    def setUp(self) -> None:
        """Keeps quiet of what is thrown in `__del__`, where the interpreter passes it over."""
        was, hook = signal.getsignal(signal.SIGALRM), sys.unraisablehook
        sys.unraisablehook = lambda told: None if told.exc_type is Thrown else hook(told)
        self.addCleanup(setattr, sys, "unraisablehook", hook)
        self.addCleanup(signal.signal, signal.SIGALRM, was)
        self.addCleanup(signal.setitimer, signal.ITIMER_REAL, 0)

    def test_an_exception_at_any_moment_leaves_the_pool_usable(self) -> None:
        """Of a handler that throws. The moments are by chance, and in each call as many."""
        calls = [
            *CHANGES,
            self.refuse,
            lambda pool: pool.linked(),
            lambda pool: pool.clone(),
            lambda pool: pool.changes(pool),
            lambda pool: pool.find("p.None") or pool.message("p.M1").fields,
        ]
        lasts = [self.seconds(call) for call in calls]
        thrown, moments, begun, chance = 0, 0, time.monotonic(), random.Random(1)
        while moments < MOMENTS and time.monotonic() < begun + MOST_SECONDS:
            at, pool = moments % len(calls), self.pool()
            call = calls[at]
            thrown += has_thrown(lambda: call(pool), chance.random() * lasts[at])
            with_alarm(lambda: self.try_all(pool), WAIT, lambda: self.fail("a call does not end"))
            moments += 1
        if moments < MOMENTS:
            print(f"{moments:,} moments in {MOST_SECONDS} seconds", file=sys.stderr)
        self.assertGreater(thrown, moments // 10)

    @staticmethod
    def pool() -> protolink.Pool:
        pool = protolink.Pool()
        fields = "".join(f"message M{n}\nfield id 1 optional int64 ~ ~\nend\n" for n in range(25))
        pool.add_script(f"file a.proto\npackage p\n{fields}end\n")
        return pool

    def refuse(self, pool: protolink.Pool) -> None:
        with self.assertRaises(protolink.Refused):
            pool.add_script("file b.proto\nimport c.proto\nend\n")

    def seconds(self, call: Callable[[protolink.Pool], object]) -> float:
        """About how long a call takes: the least of some."""
        times = []
        for pool in [self.pool() for _ in range(9)]:
            begun = time.perf_counter()
            call(pool)
            times.append(time.perf_counter() - begun)
        return min(times)

    def try_all(self, pool: protolink.Pool) -> None:
        """Tries a pool after an exception, which may have closed it."""
        self.assertIsNone(pool.find("p.N"))
        if pool.find("p.M2") is not None:
            self.assertEqual(pool.message("p.M2").fields[0].name, "id")
        self.assertEqual(pool.add_set(ORDER), (2, 0, 0))
        self.assertEqual(pool.message("shop.Order").name, "Order")
        pool.close()
        self.assertEqual(len(pool), 0)
        self.assertEqual(pool.add_set(ORDER), (2, 0, 0))

    def test_a_long_read_does_not_wait_for_itself(self) -> None:
        """A change in it is refused at once, as one in a handler of signals, and look-ups work."""
        for change in CHANGES:
            pool, found = shop(), []

            def within(view: object, *_: object) -> int:
                found.append(pool.message("shop.Order").name)
                found.append(len(pool.clone()))
                with self.assertRaisesRegex(RuntimeError, "within linked, clone or changes"):
                    change(pool)
                return 0

            self.assertEqual(pool._core.read_long(within), 0)
            self.assertEqual(found, ["Order", 2])
            change(pool)

    def test_a_handler_changes_the_pool_or_is_refused_at_once(self) -> None:
        pool, made, refused, chance = shop(), [], [], random.Random(2)

        def add() -> None:
            try:
                pool.add_script(f"file h{len(made)}.proto\nend\n")
                made.append(pool)
            except RuntimeError as error:
                refused.append(error)

        last = self.seconds(lambda _: pool.linked())
        for _ in range(2000):
            with_alarm(pool.linked, chance.random() * last, add)
        self.assertEqual(len(pool), 2 + len(made))
        self.assertTrue(made)
        self.assertTrue(all("the pool can't be changed within" in str(it) for it in refused))

    def test_a_torn_change_is_mended_by_the_next_look_up(self) -> None:
        """As an exception in the midst of the end of a change would leave it."""
        pool = shop()
        for ask in (lambda: pool.find("shop.None"), lambda: len(pool), lambda: pool.find("shop.M")):
            core = pool._core
            core._calm = core._view.at = None
            ask()
            self.assertIsNotNone(core._calm)
            self.assertEqual(core._view.at, core._pool.at)
            self.assertEqual(pool.find("shop.Order").kind, "message")

    def test_a_long_read_that_is_torn_is_waited_for_by_none(self) -> None:
        pool = shop()
        pool._core._turns._reads[threading.Lock()] = threading.get_ident()
        pool._core._turns._reads[threading.Lock()] = 0
        self.assertEqual(pool.add_script(TOUR), (1, 0, 0))
        self.assertEqual(pool._core._turns._reads, {})


@unittest.skipUnless(hasattr(os, "fork"), "there is no fork")
class Forks(unittest.TestCase):
    """What the child of a fork does with the pools of a process that has threads."""

    def test_a_child_goes_on_beside_threads_that_use_the_pool(self) -> None:
        pool, stop = shop(), threading.Event()

        def use(thread: int) -> None:
            number = 0
            while not stop.is_set():
                pool.linked()
                len(pool.clone())
                pool.find("shop.None")
                pool.add_script(f"file t{thread}x{number}.proto\nend\n")
                number += 1

        def go_on() -> None:
            nonlocal pool
            try:
                self.assertEqual(pool.message("shop.Order").name, "Order")
                self.assertEqual(pool.clone().add_script(TOUR), (1, 0, 0))
                self.assertEqual(pool.add_script(TOUR), (1, 0, 0))
            except RuntimeError as error:
                self.assertIn("the child lost it", str(error))
            pool.close()
            self.assertEqual(pool.add_script(TOUR), (1, 0, 0))
            del pool

        def let_go() -> None:
            nonlocal pool
            del pool

        threads = [threading.Thread(target=use, args=(n,), daemon=True) for n in range(3)]
        for thread in threads:
            thread.start()
        ends = [end_of_child(it) for _ in range(10) for it in (go_on, let_go)]
        stop.set()
        for thread in threads:
            thread.join(WAIT)
        self.assertEqual(ends, [0] * 20)

    def fork_within(self, start: Callable[..., object], child: Callable[[], object]) -> int:
        """How a child ends that is forked while a thread is in a call of the library."""
        begun, end = threading.Event(), threading.Event()

        def call(*_: object) -> int:
            begun.set()
            self.assertTrue(end.wait(WAIT))
            return 0

        thread = threading.Thread(target=start, args=(call,), daemon=True)
        thread.start()
        self.assertTrue(begun.wait(WAIT))
        try:
            return end_of_child(child)
        finally:
            end.set()
            thread.join(WAIT)

    def test_a_pool_that_was_being_changed_is_lost_to_the_child(self) -> None:
        pool = shop()
        order = pool.message("shop.Order")
        self.assertEqual((order.name, pool.file("shop/base.proto").index), ("Order", 1))

        def child() -> None:
            for call in (
                *CHANGES[:2],
                lambda pool: pool.find("shop.Order"),
                lambda pool: pool["shop.Order"],
                lambda pool: pool.message("shop.Order"),
                lambda pool: pool.file("shop/base.proto"),
                lambda pool: pool.linked(),
                lambda pool: pool.clone(),
                lambda pool: pool.changes(pool),
                lambda pool: len(pool),
                lambda pool: order.name,
            ):
                with self.assertRaisesRegex(RuntimeError, "the child lost it"):
                    call(pool)
            pool.close()
            self.assertIsNone(pool.find("shop.Order"))
            self.assertEqual(pool.add_script(TOUR), (1, 0, 0))

        self.assertEqual(self.fork_within(lambda call: pool._core.add(call, b""), child), 0)
        self.assertEqual((len(pool), order.name), (2, "Order"))

    def test_a_pool_that_was_being_read_goes_on_in_the_child(self) -> None:
        pool = shop()

        def child() -> None:
            self.assertEqual(len(pool.clone()), 2)
            self.assertEqual(pool.add_script(TOUR), (1, 0, 0))
            pool.close()

        self.assertEqual(self.fork_within(pool._core.read_long, child), 0)
        self.assertEqual(len(pool), 2)

    def test_a_handler_that_forks_within_a_change_has_the_pool_as_its_parent(self) -> None:
        pool, ends = shop(), []

        def child() -> None:
            self.assertEqual(pool.find("shop.Order").kind, "message")
            with self.assertRaises(RuntimeError):
                pool.close()

        pool._core.add(lambda *_: ends.append(end_of_child(child)) or 0, b"")
        self.assertEqual(ends, [0])


class Types(unittest.TestCase):
    """What is handed over."""

    def test_what_is_of_a_wrong_type_is_a_type_error(self) -> None:
        pool = tour()
        outer, state = pool.message("tour.Outer"), pool.enum("tour.Outer.State")
        service, file = pool.service("tour.Shop"), pool.files()[0]
        names = [
            *(pool.message, pool.field, pool.oneof, pool.enum, pool.enum_value, pool.service),
            *(pool.method, pool.extension, pool.file, pool.file_of, pool.find),
            *(outer.field_named, outer.field_json_named, state.value_named, service.method),
            *(pool.__getitem__, lambda name: outer.EnumValueName(name, 0)),
            *(lambda name: pool.full_name(name, 0), lambda name: pool.changes(pool, name)),
            lambda name: pool.changes(pool, "wire", name),
        ]
        numbers = [
            *(outer.field, outer.extension, state.value, pool.file_name, pool.linked_file),
            *(pool.limit_faults, lambda number: pool.FindExtensionByNumber(outer, number)),
            *(lambda number: pool.full_name("message", number),),
            *(lambda number: pool.full_name("field", 0, number),),
            lambda number: outer.EnumValueName("State", number),
        ]
        pools_and_records = [
            *(pool.changes, pool.FindAllExtensions, outer.CopyToProto, file.CopyToProto),
            *(pool.add_set, pool.add_file, pool.add_files, pool.add_script, pool.Add),
            *(pool.AddSerializedFile, lambda it: pool.FindExtensionByNumber(it, 100)),
            lambda it: pool.add_files([it]),
        ]
        for calls, wrong in (
            (names, (5, 1.5, None, [], bytearray(b"tour.Outer"))),
            (numbers, ("1", 1.5, None, [], b"1")),
            (pools_and_records, (5, 1.5, None, object(), [1])),
        ):
            for number, call in enumerate(calls):
                for value in wrong:
                    with self.subTest(f"{number} of {value!r}"), self.assertRaises(TypeError):
                        call(value)
        self.assertEqual(len(pool), 1)

    def test_names_may_be_bytes_and_numbers_of_any_class_of_ints(self) -> None:
        pool = tour()
        outer = pool.message("tour.Outer")
        self.assertEqual(outer.field_named(b"id"), outer.field(True))
        self.assertEqual(outer.field_json_named(b"innerOne"), outer.fields[2])
        self.assertEqual(pool.service("tour.Shop").method(b"Get").name, "Get")
        self.assertEqual(pool.enum("tour.Outer.State").value_named(b"DONE").number, 2)
        for missing in (outer.field_named, pool.service("tour.Shop").method):
            with self.assertRaises(KeyError):
                missing("\ud800")

    def test_bytes_that_say_another_length_are_read_to_their_end(self) -> None:
        pool, again = tour(), protolink.Pool()
        data = Lying(pool.linked())
        self.assertEqual(again.add_set(data), (1, 0, 0))
        self.assertEqual(again.linked(), pool.linked())
        record = Lying(pool.linked_file(0))
        for add in (again.add_file, again.AddSerializedFile, lambda it: again.add_files([it, it])):
            add(record)
        self.assertEqual(protolink.Pool().add_script(Lying(TOUR)), (1, 0, 0))
        with self.assertRaisesRegex(protolink.Unreadable, "byte 2"):
            again.add_set(Lying(b"\x0a\x05"))
        self.assertEqual(pool.message(Lying(b"tour.Outer")), pool.message("tour.Outer"))
        self.assertEqual(pool.message("tour.Outer").field_named(Lying(b"id")).number, 1)
        names, name = pool._core._names, Lying(b"tour.Outer")
        self.assertEqual(names.found(name), (1, 0, 0, 0))
        self.assertEqual(names.defined(name), (1, 0, 0, 0, (4, 0, 1)))
        self.assertEqual(names.file(Lying(b"tour.proto")), 0)

    def test_what_each_call_makes_anew_is_asked_once(self) -> None:
        """Where it is a pool of sets, or was asked before, and of few changes."""
        lib = protolink._library.lib
        asked: list[str] = []
        data = shop().linked()

        def counted(name: str, call: Callable[..., int]) -> Callable[..., int]:
            return lambda *told: asked.append(name) or call(*told)

        pool, large = protolink.Pool(), "".join(f"message M{n}\nend\n" for n in range(3000))
        pool.add_script(f"file large.proto\n{large}end\n")
        names = ("pool_linked", "pool_linked_file", "pool_changes")
        was = {name: getattr(lib, name) for name in names}
        try:
            for name in names:
                setattr(lib, name, counted(name, was[name]))
            self.assertGreater(len(pool.linked()), protolink._core.FIRST_LONG_ROOM)
            pool.add_set(data)
            pool.linked()
            pool.linked_file(1)
            pool.clone().linked()
            pool.changes(pool)
        finally:
            for name in names:
                setattr(lib, name, was[name])
        wanted = ["pool_linked", "pool_linked", "pool_linked_file", "pool_linked", "pool_changes"]
        self.assertEqual(asked, wanted)


SAME = {
    "FileDescriptor": ("name", "package", "syntax"),
    "Descriptor": ("name", "full_name", "syntax", "is_extendable", "extension_ranges"),
    "FieldDescriptor": (
        *("name", "full_name", "index", "number", "type", "cpp_type", "label", "has_presence"),
        *("has_default_value", "is_extension", "json_name", "camelcase_name", "default_value"),
    ),
    "OneofDescriptor": ("name", "full_name", "index"),
    "EnumDescriptor": ("name", "full_name"),
    "EnumValueDescriptor": ("name", "index", "number"),
    "ServiceDescriptor": ("name", "full_name", "index"),
    "MethodDescriptor": (
        *("name", "full_name", "index", "client_streaming", "server_streaming"),
    ),
}
"""What descriptors tell that are to be the same, by the names of protobuf's classes."""

ONE = {
    "Descriptor": ("file", "containing_type"),
    "FieldDescriptor": (
        *("file", "containing_type", "message_type", "enum_type", "containing_oneof"),
        "extension_scope",
    ),
    "OneofDescriptor": ("containing_type",),
    "EnumDescriptor": ("file", "containing_type"),
    "EnumValueDescriptor": ("type",),
    "ServiceDescriptor": ("file",),
    "MethodDescriptor": ("containing_service", "input_type", "output_type"),
}
"""The descriptors that a descriptor tells, which are to have one name, or to be None in both."""

MANY = {
    "FileDescriptor": ("dependencies", "public_dependencies"),
    "Descriptor": ("fields", "oneofs", "nested_types", "enum_types", "extensions"),
    "OneofDescriptor": ("fields",),
    "EnumDescriptor": ("values",),
    "ServiceDescriptor": ("methods",),
}
"""The lists of descriptors."""

BY_KEY = {
    "FileDescriptor": (
        *("message_types_by_name", "enum_types_by_name", "extensions_by_name"),
        "services_by_name",
    ),
    "Descriptor": (
        *("fields_by_name", "fields_by_number", "fields_by_camelcase_name", "oneofs_by_name"),
        *("nested_types_by_name", "enum_types_by_name", "enum_values_by_name"),
        "extensions_by_name",
    ),
    "EnumDescriptor": ("values_by_name", "values_by_number"),
    "ServiceDescriptor": ("methods_by_name",),
}
"""The dictionaries of descriptors."""


def name_of(descriptor: object) -> object:
    """The name by which a descriptor is compared."""
    return getattr(descriptor, "full_name", getattr(descriptor, "name", None))


def is_same(ours: object, theirs: object) -> bool:
    """Whether two values are one, or both are no number."""
    return ours == theirs or (ours != ours and theirs != theirs)


@unittest.skipIf(descriptor_pb2 is None, "protobuf's package is missing")
class Protobuf(unittest.TestCase):
    """protobuf's own pool takes the linked files, and tells the same."""

    def hand_over(self, data: bytes) -> None:
        pool = protolink.Pool()
        pool.add_set(descriptor_pb2.FileDescriptorSet.FromString(data))
        theirs = descriptor_pool.DescriptorPool()
        for file in pool.linked_files():
            theirs.AddSerializedFile(file)
        for file in pool.files():
            self.compare_file(file, theirs.FindFileByName(file.name), theirs)
        self.compare_missing(pool, theirs)

    def compare(self, ours: object, theirs: object) -> None:
        """Compares all that two descriptors tell."""
        kind = type(ours).__name__.replace("Extension", "Field")
        self.assertEqual(ours.GetOptions(), theirs.GetOptions(), ours)
        for name in SAME[kind]:
            told, wanted = getattr(ours, name), getattr(theirs, name)
            self.assertTrue(is_same(told, wanted), (ours, name, told, wanted))
        for name in ONE.get(kind, ()):
            told, wanted = getattr(ours, name), getattr(theirs, name)
            self.assertEqual(name_of(told), name_of(wanted), (ours, name))
        for name in MANY.get(kind, ()):
            told, wanted = getattr(ours, name), getattr(theirs, name)
            self.assertEqual([it.name for it in told], [it.name for it in wanted], (ours, name))
        for name in BY_KEY.get(kind, ()):
            told, wanted = getattr(ours, name), getattr(theirs, name)
            named = {key: value.name for key, value in wanted.items()}
            self.assertEqual({key: it.name for key, it in told.items()}, named, (ours, name))

    def compare_file(self, ours, theirs, pool) -> None:
        self.compare(ours, theirs)
        own = ours.pool
        for message in ours.message_types:
            self.compare_message(message, pool)
        for enum in ours.enum_types:
            self.compare_enum(enum, pool)
        for extension in ours.extensions:
            self.compare_extension(extension, pool)
        for service in ours.services:
            found = own.FindServiceByName(service.full_name)
            self.compare(found, pool.FindServiceByName(service.full_name))
            for method in service.methods:
                found = own.FindMethodByName(method.full_name)
                self.compare(found, pool.FindMethodByName(method.full_name))

    def compare_message(self, message, pool) -> None:
        own, name = message.pool, message.full_name
        self.assertEqual(own.FindMessageTypeByName(name), message)
        self.compare(message, pool.FindMessageTypeByName(name))
        file = pool.FindFileContainingSymbol(name).name
        self.assertEqual(own.FindFileContainingSymbol(name).name, file)
        for field in message.fields:
            found = own.FindFieldByName(field.full_name)
            self.compare(found, pool.FindFieldByName(field.full_name))
        for oneof in message.oneofs:
            found = own.FindOneofByName(oneof.full_name)
            self.compare(found, pool.FindOneofByName(oneof.full_name))
        for nested in message.nested_types:
            self.compare_message(nested, pool)
        for enum in message.enum_types:
            self.compare_enum(enum, pool)
        for extension in message.extensions:
            self.compare_extension(extension, pool)
        told = {it.full_name for it in own.FindAllExtensions(message)}
        wanted = pool.FindAllExtensions(pool.FindMessageTypeByName(name))
        self.assertEqual(told, {it.full_name for it in wanted})

    def compare_enum(self, enum, pool) -> None:
        theirs = pool.FindEnumTypeByName(enum.full_name)
        self.compare(enum.pool.FindEnumTypeByName(enum.full_name), theirs)
        for ours, value in zip(enum.values, theirs.values):
            self.compare(ours, value)

    def compare_extension(self, extension, pool) -> None:
        own, name = extension.pool, extension.full_name
        self.compare(own.FindExtensionByName(name), pool.FindExtensionByName(name))
        extended = extension.containing_type
        found = own.FindExtensionByNumber(extended, extension.number)
        theirs = pool.FindMessageTypeByName(extended.full_name)
        wanted = pool.FindExtensionByNumber(theirs, extension.number)
        self.assertEqual(found.full_name, wanted.full_name)

    def compare_missing(self, ours, theirs) -> None:
        """What neither pool has raises the same in both."""
        for name in (
            *("FindFileByName", "FindFileContainingSymbol", "FindMessageTypeByName"),
            *("FindFieldByName", "FindOneofByName", "FindEnumTypeByName", "FindServiceByName"),
            *("FindMethodByName", "FindExtensionByName"),
        ):
            for pool in (ours, theirs):
                with self.assertRaises(KeyError):
                    getattr(pool, name)("no.such.name")

    def test_sets_that_are_made_by_hand(self) -> None:
        for data in (shop().linked(), tour().linked(), TRIPS):
            self.hand_over(data)

    def test_records_are_copied(self) -> None:
        pool = protolink.Pool()
        pool.add_set(TRIPS)
        (file,) = descriptor_pb2.FileDescriptorSet.FromString(pool.linked()).file
        for ours, proto in (
            (pool.file("tour.proto"), file),
            (pool.message("tour.Trip"), file.message_type[0]),
            (pool.message("tour.Trip").fields[0].message_type, file.message_type[0].nested_type[0]),
            (pool.enum("tour.State"), file.enum_type[0]),
            (pool.method("tour.Trips.Tell"), file.service[0].method[2]),
        ):
            copied = type(proto)()
            ours.CopyToProto(copied)
            self.assertEqual(copied, proto)
            self.assertEqual(type(proto).FromString(ours.serialized_pb), proto)

    def test_a_record_is_copied_to_one_of_its_kind_alone(self) -> None:
        pool = protolink.Pool()
        pool.add_set(TRIPS)
        for ours, wrong in (
            (pool.message("tour.Trip"), descriptor_pb2.FileDescriptorProto()),
            (pool.file("tour.proto"), descriptor_pb2.DescriptorProto()),
            (pool.field("tour.Trip.stops"), descriptor_pb2.DescriptorProto()),
        ):
            with self.assertRaisesRegex(TypeError, "is copied to a"):
                ours.CopyToProto(wrong)

    def test_options_are_kept(self) -> None:
        pool = protolink.Pool()
        pool.add_set(TRIPS)
        for item in (pool.message("tour.Trip"), pool.file("tour.proto")):
            self.assertIs(item.GetOptions(), item.GetOptions())
        self.assertTrue(pool.message("tour.Trip").GetOptions().deprecated)

    def test_message_classes_are_made_of_protobufs_own_pool(self) -> None:
        from google.protobuf import message_factory

        pool = shop()
        theirs = pool.to_protobuf()
        self.assertIs(pool.to_protobuf(), theirs)
        order = theirs.FindMessageTypeByName("shop.Order")
        make = getattr(message_factory, "GetMessageClass", None)
        class_ = make(order) if make else message_factory.MessageFactory(theirs).GetPrototype(order)
        self.assertEqual(class_.FromString(class_(id=7).SerializeToString()).id, 7)
        with self.assertRaises(KeyError):
            theirs.FindMessageTypeByName("tour.Outer")
        pool.add_script(TOUR)
        self.assertIs(pool.to_protobuf(), theirs)
        self.assertEqual(theirs.FindMessageTypeByName("tour.Outer").name, "Outer")
        pool.close()
        self.assertIsNot(pool.to_protobuf(), theirs)

    def test_a_database_of_protobuf_is_one(self) -> None:
        from google.protobuf import descriptor_database

        database = descriptor_database.DescriptorDatabase()
        for file in descriptor_pb2.FileDescriptorSet.FromString(shop().linked()).file:
            database.Add(file)
        pool = protolink.Pool(database)
        self.assertEqual(pool.FindFieldByName("shop.Order.status").enum_type.name, "Status")
        with self.assertRaises(KeyError):
            pool.FindFileByName("none.proto")
        self.assertEqual(pool.FindAllExtensions(pool.message("shop.Order")), [])

    def test_sets_from_disk(self) -> None:
        folder = os.environ.get("PROTOLINK_SETS")
        if not folder:
            self.skipTest("PROTOLINK_SETS names no folder")
        sets = sorted(Path(folder).glob("*.pb"))
        self.assertTrue(sets)
        for path in sets:
            with self.subTest(path.name):
                self.hand_over(path.read_bytes())


    def test_the_registry_judges_two_hundred_versions(self) -> None:
        """Every fifth version has a type that is not there, or another type for a field."""
        common = descriptor_pb2.FileDescriptorSet()
        common.file.add(name="common.proto", package="shop").message_type.add(name="Page")
        with tempfile.TemporaryDirectory() as name:
            room = Path(name)
            (room / "common.pb").write_bytes(common.SerializeToString())
            versions = [room / f"{number:03}.pb" for number in range(200)]
            for number, path in enumerate(versions):
                path.write_bytes(self.version(number).SerializeToString())
            folder = Path(__file__).resolve().parent
            words = [sys.executable, "-B", folder / "examples/registry.py", room / "common.pb"]
            said = subprocess.run(
                [*words, *versions],
                env={**os.environ, "PYTHONPATH": str(folder)},
                stdout=subprocess.PIPE,
                text=True,
                check=False,
            )
        lines = said.stdout.splitlines()
        self.assertEqual((said.returncode, lines[-1]), (1, "160 taken, 40 not taken"))
        self.assertIn("  order.proto: shop.Order.field0: name '.shop.None' is not defined", lines)
        self.assertIn("  shop.Order.field0 was optional int32, and is optional string", lines)

    @staticmethod
    def version(number: int):
        """A version of a schema, which has one field more than the one before it."""
        made = descriptor_pb2.FileDescriptorSet()
        file = made.file.add(name="order.proto", package="shop", dependency=["common.proto"])
        order = file.message_type.add(name="Order")
        for at in range(number + 1):
            order.field.add(name=f"field{at}", number=at + 1, label=1, type=5)
        if number % 10 == 4:
            order.field[0].type, order.field[0].type_name = 11, ".shop.None"
        if number % 10 == 9:
            order.field[0].type = 9
        return made


if __name__ == "__main__":
    unittest.main()
