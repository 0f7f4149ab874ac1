#!/usr/bin/env python3
"""Makes a raw image of a machine with many tasks, to measure the walks over it. Its symbol file is small_machine.json.

    python3 samples/many_tasks.py IMAGE TASKS [AREAS FILES [chain]]

Each task has so many areas of memory and open files, all of `/bin/sh`. The parent of task i is task i / 2, or with `chain`
task i + 1, so that each parent stands behind its child. To try it:

    python3 samples/many_tasks.py many.raw 10000
    ./memlens many.raw samples/small_machine.json <<< pstree
"""

import struct
import sys

from small_machine import BANNER, LINKED, SYMBOLS

FIRST_TASK, TASK = 0x100000, 0x200  # where the tasks stand, and how much room each has with its tables
AREA, SLOT = 0x40, 8


def va(at):
    return LINKED + at


def main(path, tasks, areas=0, files=0, shape="tree"):
    tasks, areas, files = int(tasks), int(areas), int(files)
    room = areas * AREA + files * SLOT
    behind = FIRST_TASK + TASK * (tasks + 1)  # the areas and slots of task i stand from behind + i * room on
    image = bytearray(behind + room * (tasks + 1))

    def words(at, *numbers):
        struct.pack_into(f"<{len(numbers)}Q", image, at, *numbers)

    def text(at, data):
        image[at : at + len(data)] = data

    def offset(name):
        return SYMBOLS[name][0]

    def task(at, pid, parent, name, mm, open_files, following):
        words(at + 16, va(following + 16), 0, mm)
        struct.pack_into("<ii", image, at + 48, pid, pid)
        words(at + 56, va(parent), open_files)
        text(at + 80, name)

    def place(number):
        return FIRST_TASK + TASK * number if number else offset("init_task")

    # One entry maps 1 GiB of the kernel's addresses to the start of physical memory.
    words(0x0FF8, 0x1003)
    words(0x1FF0, 0x83)
    text(offset("linux_banner"), BANNER)
    words(offset("modules"), va(offset("modules")), va(offset("modules")))

    # The root mount with `/bin/sh`, and its file.
    words(0x9000, va(0x9000), va(0x9040), va(0x9040))
    for dentry, parent, name, letters in (
        (0x9040, 0x9040, 0x9200, b"/"),
        (0x9080, 0x9040, 0x9210, b"bin"),
        (0x90C0, 0x9080, 0x9220, b"sh"),
    ):
        words(dentry, va(parent), 0, va(name))
        text(name, letters)
    words(0x9100, va(0x9010), va(0x90C0))

    task(place(0), 0, place(0), b"swapper/0", 0, va(offset("init_files")), place(1) if tasks else place(0))
    for number in range(1, tasks + 1):
        at = place(number)
        parent = number // 2 if shape == "tree" else (number + 1) % (tasks + 1)
        own = at + 0x100  # its memory, its files and their table
        task(at, number, place(parent), b"task%06d" % number, va(own), va(own + 0x40), place((number + 1) % (tasks + 1)))
        first = behind + number * room
        words(own, va(first) if areas else 0, va(0))
        words(own + 0x40, va(own + 0x60))
        words(own + 0x60, files, va(first + areas * AREA))
        for area in range(areas):
            link = va(first + (area + 1) * AREA) if area + 1 < areas else 0
            start = 0x400000 + 0x2000 * area
            words(first + area * AREA, start, start + 0x1000, link, 5, area, va(0x9100) if area % 2 else 0)
        words(first + areas * AREA, *[va(0x9100)] * files)

    with open(path, "wb") as out:
        out.write(image)


if __name__ == "__main__":
    main(*sys.argv[1:])
