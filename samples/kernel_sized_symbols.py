#!/usr/bin/env python3
"""Prints a symbol file of the size of a real kernel's, about 30 MB, and the same one each time.

It has 12,000 user types of 14 fields each, 100 enums, the usual base types, and 150,000 symbols at rising addresses,
every third with a type. What it describes is made up. To try it:

    python3 samples/kernel_sized_symbols.py > symbols.json
    ./memlens samples/sixteen.raw symbols.json <<< 'layout type_00041'
"""
import json
USER_TYPES, FIELDS, ENUMS, SYMBOLS = 12_000, 14, 100, 150_000
FIRST_ADDRESS, ROOM = 0xFFFFFFFF81000000, 64  # a field has so much room, and needs no more
BASES = {"void": (0, False, "void"), "char": (1, True, "char"), "_Bool": (1, False, "bool"),
         "short int": (2, True, "int"), "int": (4, True, "int"), "unsigned int": (4, False, "int"),
         "long int": (8, True, "int"), "long unsigned int": (8, False, "int"), "double": (8, True, "float"),
         "pointer": (8, False, "int")}  # size, signed, kind
INTEGERS = ["char", "short int", "int", "unsigned int", "long int", "long unsigned int"]


def kind_of(number):
    return "struct" if number % 20 else "union"


def user(number):
    return {"kind": kind_of(number), "name": f"type_{number:05}"}


def descriptor(number):
    """A type of one of seven kinds, by the number."""
    base = {"kind": "base", "name": INTEGERS[number % len(INTEGERS)]}
    bits = {"kind": "base", "name": "unsigned int"}
    return [base, {"kind": "pointer", "subtype": user(number * 7 % USER_TYPES)},
            {"kind": "pointer", "subtype": {"kind": "function"}}, {"kind": "pointer", "subtype": base},
            {"kind": "array", "count": 1 + number % 8, "subtype": base},
            {"kind": "enum", "name": f"enum_{number % ENUMS:02}"},
            {"kind": "bitfield", "bit_position": number % 24, "bit_length": 1 + number % 8, "type": bits}][number % 7]


def user_type(number):
    """A union or a struct. The struct behind each union brings that in as its last field, which is anonymous."""
    step = ROOM if number % 20 else 0
    names = [f"field_{number % 97:02}_{at:02}" for at in range(FIELDS)]
    fields = {name: {"offset": step * at, "type": descriptor(number + at)} for at, name in enumerate(names)}
    if number % 20 == 1:
        fields[names[-1]].update(anonymous=True, type=user(number - 1))
    return {"size": step * (FIELDS - 1) + ROOM, "kind": kind_of(number), "fields": fields}


def symbol(number):
    address = {"address": FIRST_ADDRESS + 64 * number}
    return address if number % 3 else {"type": descriptor(number), **address}


bases = {name: dict(zip(("size", "signed", "kind", "endian"), (*base, "little"))) for name, base in BASES.items()}
constants = {f"VALUE_{k:02}": k for k in range(12)}
enums = {f"enum_{n:02}": {"size": 4, "base": "unsigned int", "constants": constants} for n in range(ENUMS)}
users = {f"type_{n:05}": user_type(n) for n in range(USER_TYPES)}
symbols = {f"symbol_{n:06}": symbol(n) for n in range(SYMBOLS)}
print(json.dumps({"metadata": {}, "base_types": bases, "enums": enums, "user_types": users, "symbols": symbols}))
