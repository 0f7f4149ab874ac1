#!/usr/bin/env python3
"""Makes the images and symbol files that somebody would make to exhaust memlens, and says how to run each.

    tools/hostile_files.py FOLDER

For each case FOLDER gets NAME.script, and an image or a symbol file of its own; the other one is a sample. It prints a line
for each: its name, the image, the symbol file and the script, separated by tabs. To try one:

    ./memlens IMAGE SYMBOLS < SCRIPT

Each run ends by itself but that of `tables_that_name_themselves`, whose scan asks for 128 TiB that the image does hold.
"""

import array
import json
import os
import struct
import sys

HERE = os.path.dirname(os.path.abspath(__file__))
SAMPLES = os.path.join(os.path.dirname(HERE), "samples")
sys.path.insert(0, SAMPLES)

from small_machine import BANNER, LINKED, SYMBOLS  # noqa: E402

MIB = 1 << 20
MOST = 128 * MIB  # how long a symbol file may be


def va(at):
    return LINKED + at


def offset(name):
    return SYMBOLS[name][0]


class Machine:
    """A raw image of a kernel whose addresses from LINKED on are the image, with one task that is the first."""

    def __init__(self, size):
        self.image = bytearray(size)
        self.words(0x0FF8, 0x1003)  # the root's last entry names the table at 0x1000,
        self.words(0x1FF0, 0x83)  # and that maps 1 GiB
        self.text(offset("linux_banner"), BANNER)
        self.words(offset("modules"), va(offset("modules")), va(offset("modules")))
        self.task(offset("init_task"), 0, offset("init_task"), b"swapper/0", files=va(offset("init_files")))

    def words(self, at, *numbers):
        struct.pack_into(f"<{len(numbers)}Q", self.image, at, *numbers)

    def text(self, at, data):
        self.image[at : at + len(data)] = data

    def task(self, at, pid, following, name, mm=0, files=0):
        self.words(at + 16, va(following + 16), 0, mm)
        struct.pack_into("<ii", self.image, at + 48, pid, pid)
        self.words(at + 56, va(at), files)
        self.text(at + 80, name)

    def one_task(self, pid, mm=0, files=0):
        """Puts one task behind the first."""
        first = offset("init_task")
        self.words(first + 16, va(0x7000 + 16))
        self.task(0x7000, pid, first, b"init", mm, files)


# Symbol files, each as its text


def nested_arrays():
    """126 arrays in one another, as deep as JSON may be here, again and again."""
    nest = "[" * 124 + "]" * 124
    return '{"metadata": [' + ",".join([nest] * ((MOST - 20) // (len(nest) + 1))) + "]}"


def one_string():
    return '{"metadata": "' + "a" * (MOST - 16) + '"}'


def many_numbers():
    return '{"metadata": [' + "1," * (MOST // 2 - 10) + "1]}"


def empty_user_types():
    """As many as fit."""
    kinds = ",".join('"%x":{"size":0,"kind":"struct","fields":{}}' % number for number in range(2_800_000))
    return '{"user_types": {' + kinds + "}}"


def anonymous_diamonds():
    """Each struct has the next one twice, as anonymous members: two to the power of 63 ways lead to the last."""

    def member(number):
        return {"offset": 0, "anonymous": True, "type": {"kind": "struct", "name": f"s{number}"}}

    users = {f"s{number}": {"size": 8, "kind": "struct", "fields": {"a": member(number + 1), "b": member(number + 1)}} for number in range(63)}
    users["s63"] = {"size": 8, "kind": "struct", "fields": {}}
    return json.dumps({"user_types": users})


def symbols_at_one_address(count):
    return '{"symbols": {' + ",".join('"%x":{"address":1}' % number for number in range(count)) + "}}"


# Images


def longest_ring():
    """256 MiB with a task at every eighth byte behind the first ones, each linked to the next. Their members overlap."""
    size, begin = 256 * MIB, 0x10000
    machine = Machine(size)
    machine.image[begin : size - 0x100] = array.array("Q", range(va(begin + 8), va(size - 0xF8), 8)).tobytes()
    machine.words(size - 0x108, va(offset("init_task") + 16))
    machine.words(offset("init_task") + 16, va(begin))
    return machine.image


def tables_that_name_themselves():
    """A task whose table of page tables names itself in every entry, so that all its addresses lead to that page."""
    machine = Machine(0x20000)
    machine.one_task(1, mm=va(0xA000))
    machine.words(0xA000, 0, va(0x10000))
    machine.words(0x10000, *[0x10003] * 512)
    return machine.image


def full_descriptor_table(slots):
    """A task with so many open files: mounts and dentries that lead to themselves in a ring of two, in turn."""
    table = 0x10000
    machine = Machine(table + slots * 8 + 0x1000)
    machine.one_task(1, files=va(0xA000))
    machine.words(0xA000, va(0xA020))
    machine.words(0xA020, slots, va(table))
    for number in range(2):  # each file's path begins at a dentry of the ring, under a mount of the ring
        machine.words(0x9000 + 0x40 * number, va(0x9110), va(0x9200 + 0x40 * number))
        other = 1 - number
        machine.words(0x9100 + 0x40 * number, va(0x9100 + 0x40 * other), va(0x9200 + 0x40 * other), va(0x9300))
        machine.words(0x9200 + 0x40 * number, va(0x9200 + 0x40 * other), 0, va(0x9400))
    machine.text(0x9400, b"name")
    machine.image[table : table + slots * 8] = struct.pack("<2Q", va(0x9000), va(0x9040)) * (slots // 2)
    return machine.image


def main(folder):
    image, symbols = os.path.join(SAMPLES, "sixteen.raw"), os.path.join(SAMPLES, "small_machine.json")
    files = {
        "nested_arrays": nested_arrays,
        "one_string": one_string,
        "many_numbers": many_numbers,
        "empty_user_types": empty_user_types,
        "anonymous_diamonds": anonymous_diamonds,
        "symbols_at_one_address": lambda: symbols_at_one_address(500_000),
        "many_symbols_at_one_address": lambda: symbols_at_one_address(3_500_000),
    }
    images = {
        "longest_ring": (longest_ring, "pslist"),
        "longest_ring_as_a_tree": (longest_ring, "pstree"),
        "tables_that_name_themselves": (tables_that_name_themselves, "scan task:1 0 0x7fffffffffff 4142434445464748"),
        "full_descriptor_table": (lambda: full_descriptor_table(1 << 20), "lsof 1"),
    }
    scripts = {"anonymous_diamonds": "layout s0\ntype phys 0 s0.none"}
    os.makedirs(folder, exist_ok=True)

    def put(name, data):
        path = os.path.join(folder, name)
        with open(path, "wb") as out:
            out.write(data)
        return path

    for name, make in files.items():
        script = put(name + ".script", scripts.get(name, "near 1").encode() + b"\n")
        print(name, image, put(name + ".json", make().encode()), script, sep="\t")
    for name, (make, line) in images.items():
        print(name, put(name + ".raw", make()), symbols, put(name + ".script", line.encode() + b"\n"), sep="\t")


if __name__ == "__main__":
    if len(sys.argv) != 2:
        sys.exit(__doc__)
    main(sys.argv[1])
