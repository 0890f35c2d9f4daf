"""Random versions of a schema, and random changes of them.

Gentle changes often change nothing on the wire: kinds get wider, fields come, and go with
their numbers reserved. Wild ones are all others.
"""

from __future__ import annotations

import copy
from random import Random
from typing import Callable

from schema_versions import (
    DEFAULTS,
    KEYS,
    LOW,
    SCALARS,
    TOP,
    Enum,
    Field,
    Message,
    Version,
    defaults_of,
    is_in,
    mended,
    without,
)

WIDER = {
    "int32": ["int64", "E", "G"],
    "uint32": ["uint64", "int64"],
    "sint32": ["sint64"],
    "bool": ["int32", "int64", "uint32", "uint64"],
    "E": ["int32", "int64", "G"],
    "G": ["int32", "int64", "E"],
    "string": ["bytes"],
    "bytes": ["string"],
}
"""Kinds that often have all values of another."""

ENUM_NUMBERS = [0, 1, 2, 3, 5, -1, 2**31 - 1]
Change = Callable[[Random, Version, str], None]
"""A change of a message of a version, or of what is around it."""


def label_for(rng: Random, version: Version, file: str) -> str:
    """A label that a field of a file may have."""
    if version.is_proto3(file):
        return rng.choice(["plain", "plain", "optional", "repeated"])
    return rng.choice(["optional"] * 4 + ["repeated"] * 2)


def kind_in(rng: Random, version: Version, name: str) -> str:
    """A kind for a field of a message: the inner ones hold few messages."""
    inner = {"N": ["O", "N"], "O": ["int32"], "Q": ["N"]}.get(name, ["N"] * 3 + ["O"] * 2)
    held = [one for one in inner if one in version.messages]
    if held and rng.random() < (0.2 if name == "M" else 0.06):
        return rng.choice(held)
    return rng.choice([*SCALARS, "E", "E", "G"])


def random_field(rng: Random, version: Version, name: str, number: int) -> Field:
    """A field of a message, with a number."""
    file = version.file_of(name)
    made = Field(f"f{number}", number, kind_in(rng, version, name), label_for(rng, version, file))
    made.group = rng.random() < 0.15
    if rng.random() < 0.15:
        made.label, made.key = rng.choice(["map", "map", "entries"]), rng.choice(KEYS)
    if rng.random() < 0.3:
        made.default = rng.choice(defaults_of(version, made) or ["0"])
    if rng.random() < 0.2:
        made.packed = rng.random() < 0.5
    return made


def random_enum(rng: Random, name: str, file: str) -> Enum:
    """An enum of two to five values."""
    numbers = rng.sample(ENUM_NUMBERS, rng.randint(1, 4))
    numbers = numbers if rng.random() < 0.3 else [0, *(n for n in numbers if n != 0)]
    return Enum(file, [(f"{name}_{'ABCDE'[at]}", number) for at, number in enumerate(numbers)])


def random_message(rng: Random, version: Version, name: str, size: int) -> None:
    """Gives a version a message of some fields."""
    message = version.messages[name]
    message.fields = [random_field(rng, version, name, number) for number in range(1, size + 1)]
    for one in message.fields:
        if one.label in ("optional", "plain") and rng.random() < 0.2:
            one.oneof = rng.choice(["o", "p"])
        if one.label == "optional" and rng.random() < 0.05:
            one.label = "required"
    if rng.random() < 0.3:
        message.reserved = rng.choice([[(20, 21)], [(20, 23)], [(20, 22), (25, 26)]])
    if rng.random() < 0.3:
        message.left = [(100, 110)]
        for number in rng.sample(range(100, 110), rng.randint(0, 2)):
            add_extension(rng, version, name, number)


def add_extension(rng: Random, version: Version, name: str, number: int) -> None:
    """Gives a message an extension, if it has none of the number."""
    message = version.messages[name]
    if all(one.number != number for one in message.all_fields()):
        made = random_field(rng, version, name, number)
        made.name = f"x{name.lower()}{number}"
        made.label = "repeated" if made.entry() is not None else made.label
        message.extensions.append(made)


def random_version(rng: Random) -> Version:
    """A version of up to twenty fields in all."""
    syntaxes = {file: rng.choice(["proto2", "proto3"]) for file in (LOW, TOP)}
    files = {name: rng.choice([LOW, TOP]) for name in "NOQ"}
    messages = {name: Message(files.get(name, TOP), []) for name in "NOQM"}
    enums = {"E": random_enum(rng, "E", LOW), "G": random_enum(rng, "G", TOP)}
    version = Version(syntaxes, messages, enums)
    sizes = {"N": rng.randint(1, 4), "O": rng.randint(1, 3), "Q": rng.randint(1, 2)}
    for name in messages:
        random_message(rng, version, name, sizes.get(name, rng.randint(1, 11)))
    return mended(version)


def one_of(rng: Random, version: Version, name: str) -> Field:
    """A field or an extension of a message."""
    return rng.choice(version.messages[name].all_fields())


def widen(rng: Random, version: Version, name: str) -> None:
    """Gives a field a kind that often has all values of its own."""
    one = one_of(rng, version, name)
    one.kind = rng.choice(WIDER.get(one.kind, [one.kind]))
    one.default = rng.choice([one.default, *DEFAULTS.get(one.kind, [])[:1]])


def rekind(rng: Random, version: Version, name: str) -> None:
    """Gives a field any kind."""
    one = one_of(rng, version, name)
    one.kind, one.group = kind_in(rng, version, name), rng.random() < 0.1


def rekey(rng: Random, version: Version, name: str) -> None:
    """Gives the maps of a message other keys."""
    for one in version.messages[name].fields:
        one.key = rng.choice(KEYS) if one.label in ("map", "entries") else one.key


def relabel(rng: Random, version: Version, name: str) -> None:
    """Lets a field come more often, or tell its presence otherwise."""
    one = one_of(rng, version, name)
    if not one.is_list() and one.label != "required":
        one.oneof = None
        labels = ["optional", "plain"] if one.kind in version.messages else ["repeated", "plain"]
        one.label = rng.choice([*labels, "optional"])


def relabel_any(rng: Random, version: Version, name: str) -> None:
    """Gives a field any label, or requires it."""
    one = one_of(rng, version, name)
    if one.entry() is None:
        one.oneof, one.label = None, rng.choice(["optional", "repeated", "required", "plain"])


def require(rng: Random, version: Version, name: str) -> None:
    """Requires a field, or one that is new."""
    if rng.random() < 0.5:
        add_field(rng, version, name)
    one = version.messages[name].fields[-1]
    if not one.is_list():
        one.oneof, one.label = None, "required"


def switch_entries(rng: Random, version: Version, name: str) -> None:
    """Turns a map into messages under the name of its entries, or messages into a map."""
    ones = [one for one in version.messages[name].fields if one.entry() is not None]
    for one in ones[:1]:
        one.label = "entries" if one.label == "map" else "map"


def leave_oneof(rng: Random, version: Version, name: str) -> None:
    """Takes a field out of its oneof."""
    ones = [one for one in version.messages[name].fields if one.oneof is not None]
    for one in ones[:1]:
        one.oneof = None


def join_oneof(rng: Random, version: Version, name: str) -> None:
    """Puts two fields into a oneof, or one."""
    oneof = rng.choice(["o", "p", "q"])
    for one in rng.choices(version.messages[name].fields, k=2):
        if one.label in ("optional", "plain"):
            one.oneof = oneof


def add_field(rng: Random, version: Version, name: str) -> None:
    """Gives a message one more field, whose number may be one that is free again."""
    message = version.messages[name]
    taken = {one.number for one in message.all_fields()}
    free = [number for number in range(1, 14) if number not in taken]
    number = max([*(n for n in taken if n < 90), 0]) + 1
    if rng.random() < 0.5 and free:
        number = free[0]
    if number not in taken and not is_in(message.reserved, number):
        message.fields.append(random_field(rng, version, name, number))


def take_reserved(rng: Random, version: Version, name: str) -> None:
    """Gives a message a field with a number that it reserves."""
    message = version.messages[name]
    if message.reserved:
        start, end = rng.choice(message.reserved)
        message.fields.append(random_field(rng, version, name, rng.randrange(start, end)))


def remove_field(rng: Random, version: Version, name: str) -> int:
    """Takes a field or an extension away. Its number is the result, or 0 where there is but one."""
    message = version.messages[name]
    if len(message.fields) < 2:
        return 0
    one = one_of(rng, version, name)
    message.fields = [other for other in message.fields if other is not one]
    message.extensions = [other for other in message.extensions if other is not one]
    return one.number


def reserve_field(rng: Random, version: Version, name: str) -> None:
    """Takes a field away and reserves its number."""
    number, message = remove_field(rng, version, name), version.messages[name]
    if number:
        message.left = without(message.left, number)
        message.reserved.append((number, number + 1))


def free_field(rng: Random, version: Version, name: str) -> None:
    """Takes a field away and leaves its number free."""
    remove_field(rng, version, name)


def leave_field(rng: Random, version: Version, name: str) -> None:
    """Takes a field away and leaves its number to extensions."""
    number, message = remove_field(rng, version, name), version.messages[name]
    if number and not is_in(message.left, number):
        message.left.append((number, number + 1))


def extend(rng: Random, version: Version, name: str) -> None:
    """Gives a message an extension, in a range that is left to it, or leaves it one."""
    left = version.messages[name].left
    if not left or rng.random() < 0.1:
        left += [(start, start + 10) for start in (100, 110) if not is_in(left, start)][:1]
        return
    start, end = rng.choice(left)
    number = rng.randrange(start, end)
    add_extension(rng, version, name, number)


def extension_to_field(rng: Random, version: Version, name: str) -> None:
    """Turns an extension into a field."""
    message = version.messages[name]
    for one in message.extensions[:1]:
        message.extensions.remove(one)
        message.fields.append(one)


def reserve_more(rng: Random, version: Version, name: str) -> None:
    """Lets a message reserve more numbers, beside those that it does or with them in one range."""
    message = version.messages[name]
    if not message.reserved:
        message.reserved = [(30, 33)]
        return
    start, end = message.reserved.pop()
    message.reserved = [(first, last) for first, last in message.reserved if last <= start - 1]
    message.reserved.append((start, end + rng.randint(0, 2)))


def reserve_less(rng: Random, version: Version, name: str) -> None:
    """Drops a range that a message reserves, or a number of it."""
    message = version.messages[name]
    if message.reserved:
        start, end = rng.choice(message.reserved)
        for number in range(start, end) if rng.random() < 0.5 else [rng.randrange(start, end)]:
            message.reserved = without(message.reserved, number)


def rename_field(rng: Random, version: Version, name: str) -> None:
    """Gives a field another name."""
    one = rng.choice(version.messages[name].fields)
    one.name = f"{'g' if one.name[0] == 'f' else 'f'}{one.number}"


def set_default(rng: Random, version: Version, name: str) -> None:
    """Gives some fields another default, or none."""
    for one in version.messages[name].all_fields():
        if rng.random() < 0.4:
            one.default = rng.choice([None, *defaults_of(version, one)])


def repack(rng: Random, version: Version, name: str) -> None:
    """Has lists of numbers written in another form."""
    for one in version.messages[name].all_fields():
        one.packed = rng.choice([None, True, False])


def add_value(rng: Random, version: Version, _: str) -> None:
    """Gives an enum one more value, maybe a second name of a number."""
    name, enum = rng.choice(list(version.enums.items()))
    free = [f"{name}_{letter}" for letter in "FHIJ" if f"{name}_{letter}" not in dict(enum.values)]
    if free:
        at = rng.randint(1, len(enum.values))
        enum.values.insert(at, (free[0], rng.choice([4, -7, *ENUM_NUMBERS])))


def remove_value(rng: Random, version: Version, _: str) -> None:
    """Takes a value of an enum away."""
    enum = rng.choice(list(version.enums.values()))
    if len(enum.values) > 1:
        enum.values.remove(rng.choice(enum.values))


def reorder_values(rng: Random, version: Version, _: str) -> None:
    """Puts the values of an enum into another order."""
    rng.shuffle(rng.choice(list(version.enums.values())).values)


def rename_values(rng: Random, version: Version, _: str) -> None:
    """Lets the names of an enum have each other's numbers."""
    enum = rng.choice(list(version.enums.values()))
    numbers = enum.numbers()
    rng.shuffle(numbers)
    enum.values = [(name, number) for (name, _), number in zip(enum.values, numbers)]


def rename(version: Version, name: str, other: str) -> None:
    """Gives a message another name, in the fields that hold it too."""
    version.messages = {
        other if one == name else one: message for one, message in version.messages.items()
    }
    for message in version.messages.values():
        for one in message.all_fields():
            one.kind = other if one.kind == name else one.kind


def rename_message(rng: Random, version: Version, _: str) -> None:
    """Gives an inner message another name."""
    for name, other in rng.choice([("N", "P"), ("O", "P"), ("P", "O")]), ("P", "N"):
        if name in version.messages and other not in version.messages:
            rename(version, name, other)
            return


def remove_message(rng: Random, version: Version, _: str) -> None:
    """Takes a message away that no field holds."""
    version.messages.pop("Q", None)


def return_message(rng: Random, version: Version, _: str) -> None:
    """Adds a message, or lets one come back with fields of its own."""
    if "Q" not in version.messages:
        version.messages["Q"] = Message(rng.choice([LOW, TOP]), [])
        random_message(rng, version, "Q", rng.randint(1, 2))


def move_message(rng: Random, version: Version, name: str) -> None:
    """Moves a message to the other file."""
    if name != "M":
        version.messages[name].file = rng.choice([LOW, TOP])


def change_syntax(rng: Random, version: Version, _: str) -> None:
    """Turns a file of proto2 into one of proto3, or back."""
    file = rng.choice([LOW, TOP])
    version.syntaxes[file] = "proto2" if version.is_proto3(file) else "proto3"


GENTLE: list[Change] = [
    *[widen] * 4, relabel, leave_oneof, *[add_field] * 4, *[reserve_field] * 3, extend, extend,
    extension_to_field, reserve_more, rename_field, set_default, repack, add_value, reorder_values,
    rename_message, return_message, move_message, change_syntax,
]  # fmt: skip
WILD: list[Change] = [
    *[rekind] * 4, rekey, *[relabel_any] * 2, require, *[switch_entries] * 2, *[join_oneof] * 2,
    *[take_reserved] * 2, *[free_field] * 2, leave_field, *[reserve_less] * 2, remove_value,
    rename_values, remove_message,
]  # fmt: skip


FREEING: list[Change] = [
    free_field, leave_field, *[reserve_field] * 3, remove_message, reserve_less,
]  # fmt: skip
REUSING: list[Change] = [add_field, take_reserved, extend, return_message]


def changed(rng: Random, version: Version, gentle: bool) -> Version:
    """A version that changes up to five things of another one."""
    made = copy.deepcopy(version)
    wild = not gentle and rng.random() < 0.8
    for _ in range(rng.randint(0 if gentle else 1, 5)):
        name = rng.choice([*made.messages, "M", "M", "M"])
        among = WILD if wild and rng.random() < 0.4 else GENTLE
        rng.choice(among)(rng, made, name)
        mended(made)
    return made


def freed(rng: Random, version: Version) -> Version:
    """A version that takes a field away from another one, or a message."""
    made = copy.deepcopy(version)
    rng.choice(FREEING)(rng, made, rng.choice([*made.messages, "M", "M"]))
    return mended(made)


def reused(rng: Random, version: Version) -> Version:
    """A version that uses again what may have come free in another one."""
    made = copy.deepcopy(version)
    for name in list(made.messages):
        for change in REUSING:
            if rng.random() < 0.4:
                change(rng, made, name)
                mended(made)
    return made


def random_chain(rng: Random, steps: int) -> list[Version]:
    """Some versions, each of which changes the one before. Some use a number or a name again."""
    versions = [random_version(rng)]
    if steps > 1 and rng.random() < 0.4:
        second = freed(rng, versions[0])
        return [*versions, second, reused(rng, second)]
    gentle = rng.random() < 0.6
    for _ in range(steps):
        versions.append(changed(rng, versions[-1], gentle))
    return versions
