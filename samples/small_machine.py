#!/usr/bin/env python3
"""Makes small_machine.lime and small_machine.json beside this file: the memory of a small Linux machine as a LiME image,
and the symbol file of its kernel.

The machine has 72 KiB of memory in two ranges. Its kernel was moved: it stands 0x10000 further on in physical memory
than it was linked for, and at addresses that are 0x1200000 greater than those of its symbols. It runs init, a kernel
thread and a shell, which has two areas of memory and two open files.
"""

import base64
import json
import pathlib
import struct

BANNER = b"Linux version 6.1.0-small (maker@small) #1 SMP PREEMPT_DYNAMIC\n\0"

LINKED = 0xFFFFFFFF80000000  # where a kernel's image is linked to begin
PHYSICAL = 0x10000  # how far it was moved in physical memory
SHIFT = 0x1200000  # how far its addresses were moved

FIRST = (0x1000, 0x1FFF)  # the ranges of the machine's memory
SECOND = (0x10000, 0x20FFF)


def pointer():
    return {"kind": "pointer", "subtype": {"kind": "base", "name": "void"}}


def base(name):
    return {"kind": "base", "name": name}


def struct_of(name):
    return {"kind": "struct", "name": name}


def characters(count):
    return {"kind": "array", "count": count, "subtype": base("char")}


def user_type(length, **fields):
    rows = {name: {"offset": offset, "type": of} for name, (offset, of) in fields.items()}
    return {"size": length, "kind": "struct", "fields": rows}


def number(size, signed, kind="int"):
    return {"size": size, "signed": signed, "kind": kind, "endian": "little"}


BASE_TYPES = {
    "char": number(1, True, "char"),
    "int": number(4, True),
    "long unsigned int": number(8, False),
    "unsigned int": number(4, False),
    "void": number(0, False, "void"),
}

USER_TYPES = {
    "list_head": user_type(16, next=(0, pointer()), prev=(8, pointer())),
    "task_struct": user_type(
        256,
        __state=(0, base("unsigned int")),
        tasks=(16, struct_of("list_head")),
        mm=(32, pointer()),
        pid=(48, base("int")),
        tgid=(52, base("int")),
        real_parent=(56, pointer()),
        files=(64, pointer()),
        comm=(80, characters(16)),
    ),
    "mm_struct": user_type(64, mmap=(0, pointer()), pgd=(8, pointer())),
    "vm_area_struct": user_type(
        64,
        vm_start=(0, base("long unsigned int")),
        vm_end=(8, base("long unsigned int")),
        vm_next=(16, pointer()),
        vm_flags=(24, base("long unsigned int")),
        vm_pgoff=(32, base("long unsigned int")),
        vm_file=(40, pointer()),
    ),
    "files_struct": user_type(16, fdt=(0, pointer())),
    "fdtable": user_type(32, max_fds=(0, base("unsigned int")), fd=(8, pointer())),
    "path": user_type(16, mnt=(0, pointer()), dentry=(8, pointer())),
    "file": user_type(32, f_path=(0, struct_of("path"))),
    "qstr": user_type(16, name=(8, pointer())),
    "dentry": user_type(
        64,
        d_parent=(0, pointer()),
        d_name=(8, struct_of("qstr")),
        d_inode=(24, pointer()),
        d_op=(32, pointer()),
    ),
    "inode": user_type(16, i_ino=(0, base("long unsigned int"))),
    "dentry_operations": user_type(8, d_dname=(0, pointer())),
    "vfsmount": user_type(16, mnt_root=(0, pointer())),
    "mount": user_type(
        48, mnt_parent=(0, pointer()), mnt_mountpoint=(8, pointer()), mnt=(16, struct_of("vfsmount"))
    ),
    "module_layout": user_type(8, size=(0, base("unsigned int"))),
    "module": user_type(
        128,
        list=(8, struct_of("list_head")),
        name=(24, characters(56)),
        core_layout=(80, struct_of("module_layout")),
        init_layout=(88, struct_of("module_layout")),
    ),
}

# each symbol at an offset from where the kernel's image is linked to begin
SYMBOLS = {
    "init_top_pgt": (0x0000, None),
    "init_task": (0x3000, struct_of("task_struct")),
    "init_files": (0x4000, struct_of("files_struct")),
    "modules": (0x5000, struct_of("list_head")),
    "sys_call_table": (0x6000, {"kind": "array", "count": 3, "subtype": {"kind": "pointer", "subtype": {"kind": "function"}}}),
    "linux_banner": (0x8000, characters(len(BANNER))),
    "__x64_sys_read": (0xC000, None),
    "__x64_sys_write": (0xC080, None),
    "__x64_sys_open": (0xC100, None),
    "pipefs_dname": (0xC180, None),
}


def symbol_file():
    symbols = {}
    for name, (offset, of) in SYMBOLS.items():
        symbols[name] = {"address": LINKED + offset}
        if of is not None:
            symbols[name]["type"] = of
    symbols["linux_banner"]["constant_data"] = base64.b64encode(BANNER).decode()
    return {"base_types": BASE_TYPES, "user_types": USER_TYPES, "symbols": symbols}


def va(offset):
    """The address of what stands so far behind the start of the kernel's image."""
    return LINKED + SHIFT + offset


memory = {first: bytearray(last - first + 1) for first, last in (FIRST, SECOND)}


def put(at, data):
    """Bytes at a physical address."""
    first = max(first for first in memory if first <= at)
    place = at - first
    assert place + len(data) <= len(memory[first])
    memory[first][place : place + len(data)] = data


def kernel(offset, data):
    """Bytes so far behind the start of the kernel's image."""
    put(PHYSICAL + offset, data)


def words(offset, *numbers):
    kernel(offset, struct.pack(f"<{len(numbers)}Q", *numbers))


def task(offset, pid, parent, name, mm, files, following, former):
    words(offset + 16, va(following + 16), va(former + 16), mm)
    kernel(offset + 48, struct.pack("<ii", pid, pid))
    words(offset + 56, va(parent), files)
    kernel(offset + 80, name)


def make_tables():
    """The page tables of the kernel, and those of the shell, which maps one page of its own beside the kernel's."""
    words(0x0FF8, PHYSICAL + 0x1003)
    words(0x1FF0, PHYSICAL + 0x2003)
    words(0x2000 + 8 * (SHIFT >> 21), PHYSICAL + 0xF003)
    words(0xF000, *(PHYSICAL + 0x1000 * page + 3 for page in range(17)))
    words(0xEFF8, PHYSICAL + 0x1003)
    words(0xE000, PHYSICAL + 0xB007)
    words(0xB000, PHYSICAL + 0xD007)
    words(0xD010, PHYSICAL + 0x10007)
    words(0x10000, FIRST[0] + 5)


def make_tasks():
    """The idle task, init, a kernel thread and a shell, with the shell's areas of memory and its open files."""
    task(0x3000, 0, 0x3000, b"swapper/0", 0, va(0x4000), 0x7000, 0x7200)
    task(0x7000, 1, 0x3000, b"init", va(0x7500), va(0x4000), 0x7100, 0x3000)
    task(0x7100, 2, 0x3000, b"kthreadd", 0, va(0x4000), 0x7200, 0x7000)
    task(0x7200, 100, 0x7000, b"sh", va(0x7300), va(0x7400), 0x3000, 0x7100)
    words(0x7500, 0, va(0xE000))
    words(0x7300, va(0x7340), va(0xE000))
    words(0x7340, 0x400000, 0x401000, va(0x7380), 5, 0, va(0x9100))
    words(0x7380, 0x7FFD0000, 0x7FFD2000, 0, 3, 0, 0)
    words(0x7400, va(0x7420))
    words(0x7420, 3, va(0x7440))
    words(0x7440, va(0x9120), 0, va(0x9100))
    put(FIRST[0], b"\x7fELF\x02\x01\x01")


def make_files():
    """The root mount with `/bin/sh`, a pipe, and a file of each of the two."""
    words(0x9000, va(0x9000), va(0x9040), va(0x9040))
    for dentry, parent, name, text in (
        (0x9040, 0x9040, 0x9200, b"/"),
        (0x9080, 0x9040, 0x9210, b"bin"),
        (0x90C0, 0x9080, 0x9220, b"sh"),
        (0x9140, 0x9140, 0x9230, b""),
    ):
        words(dentry, va(parent), 0, va(name))
        kernel(name, text)
    words(0x9100, va(0x9010), va(0x90C0))
    words(0x9120, va(0x9010), va(0x9140))
    words(0x9158, va(0x9180), va(0x9190))
    words(0x9180, 4711)
    words(0x9190, va(0xC180))


def make_kernel():
    """The banner, one module, and the system calls, of which the last leads to no symbol."""
    kernel(0x8000, BANNER)
    words(0x5000, va(0xA008), va(0xA008))
    words(0xA008, va(0x5000), va(0x5000))
    kernel(0xA018, b"hide_me")
    kernel(0xA050, struct.pack("<I", 0x3000))
    words(0x6000, va(0xC000), va(0xC080), 0xFFFFFFFFC0001040)


def lime(ranges):
    """The ranges in LiME's format, version 1."""
    return b"".join(
        struct.pack("<IIQQQ", 0x4C694D45, 1, first, first + len(data) - 1, 0) + data for first, data in ranges
    )


def main():
    make_tables()
    make_tasks()
    make_files()
    make_kernel()
    beside = pathlib.Path(__file__).parent
    beside.joinpath("small_machine.lime").write_bytes(lime(sorted(memory.items())))
    beside.joinpath("small_machine.json").write_text(json.dumps(symbol_file(), indent=1) + "\n")


if __name__ == "__main__":
    main()
