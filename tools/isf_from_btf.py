#!/usr/bin/env python3
"""Makes a symbol file (JSON of the ISF schema) from a kernel's BTF and its list of symbols.

    tools/isf_from_btf.py BTF SYMBOLS [--banner FILE] > symbols.json

BTF is `/sys/kernel/btf/vmlinux` of the machine, a copy of it, or an ELF file `vmlinux` that has a section `.BTF`.
SYMBOLS is the `System.map` of that very kernel, or its `/proc/kallsyms` as root reads it. Where BTF is an ELF file, the
data of `linux_banner` is read from it; else `--banner` names a file with the banner, as `/proc/version` has it. With the
banner in it, memlens finds a kernel only in an image that holds this banner.

Only the standard library of Python 3 is needed. The format is that of the kernel's documentation, `bpf/btf.rst`.
"""
import argparse
import base64
import json
import struct
import sys

# Kinds of BTF types.
INT, POINTER, ARRAY, STRUCT, UNION, ENUM, FORWARD, TYPEDEF = range(1, 9)
VOLATILE, CONST, RESTRICT, FUNCTION, PROTOTYPE, VARIABLE, SECTION, FLOAT, DECLARATION_TAG, TYPE_TAG, ENUM64 = range(9, 20)

# Types that only name or qualify another one.
TRANSPARENT = {TYPEDEF, VOLATILE, CONST, RESTRICT, TYPE_TAG}

# What follows the head of a type, in bytes: so many once, and so many for each of its parts.
EXTRA = {
    INT: (4, 0),
    ARRAY: (12, 0),
    STRUCT: (0, 12),
    UNION: (0, 12),
    ENUM: (0, 8),
    PROTOTYPE: (0, 8),
    VARIABLE: (4, 0),
    SECTION: (0, 12),
    DECLARATION_TAG: (4, 0),
    ENUM64: (0, 12),
}

INT_SIGNED, INT_CHAR, INT_BOOL = 1, 2, 4
VOID = {"kind": "base", "name": "void"}


class Refused(Exception):
    """The input is not what it should be."""


class Type:
    """One BTF type: its kind, its name, its size or the number of the type that it refers to, and what follows."""

    def __init__(self, kind, flag, name, word, parts, data):
        self.kind, self.flag, self.name, self.word, self.parts, self.data = kind, flag, name, word, parts, data


# ---- reading


def section_of(elf, name):
    """The bytes of a section of a 64-bit little-endian ELF file, None where it has no such section."""
    for section, offset, _, size in sections_of(elf):
        if section == name:
            return elf[offset : offset + size]
    return None


def sections_of(elf):
    """The sections of an ELF file: name, offset in the file, address, size."""
    if elf[4:6] != b"\x02\x01":
        raise Refused("the ELF file is not a 64-bit little-endian one")
    table = struct.unpack_from("<Q", elf, 0x28)[0]
    size, count, names = struct.unpack_from("<HHH", elf, 0x3A)
    heads = [struct.unpack_from("<IIQQQQ", elf, table + size * i) for i in range(count)]
    for name, kind, _, address, offset, length in heads:
        start = heads[names][4] + name
        yield elf[start : elf.index(b"\0", start)].decode(), offset, address, 0 if kind == 8 else length


def bytes_at(elf, address, most):
    """The bytes at an address of a section that the ELF file holds, at most so many; None where there are none."""
    for _, offset, start, size in sections_of(elf):
        if start and start <= address < start + size:
            at = offset + address - start
            return elf[at : at + min(most, start + size - address)]
    return None


def read_types(btf):
    """The types of a BTF file by number; 0 is `void`."""
    if len(btf) < 24 or btf[:2] != b"\x9f\xeb":
        raise Refused("the first file is neither BTF nor an ELF file with a section .BTF")
    head, type_at, type_length, name_at, name_length = struct.unpack_from("<IIIII", btf, 4)
    names = btf[head + name_at : head + name_at + name_length]
    data = btf[head + type_at : head + type_at + type_length]

    def text(offset):
        return names[offset : names.index(b"\0", offset)].decode("utf-8", "replace")

    types, at = [None], 0
    while at < len(data):
        name, info, word = struct.unpack_from("<III", data, at)
        kind, parts = info >> 24 & 0x1F, info & 0xFFFF
        once, each = EXTRA.get(kind, (0, 0))
        at += 12
        length = once + each * parts
        types.append(Type(kind, info >> 31, text(name), word, parts, data[at : at + length]))
        at += length
    return types, text


def read_symbols(path):
    """The symbols of a list with an address, a letter and a name on each line; those of modules are left out."""
    symbols = {}
    with open(path, encoding="ascii", errors="replace") as lines:
        for line in lines:
            words = line.split()
            if len(words) == 3:
                symbols.setdefault(words[2], int(words[0], 16))
    if not symbols or not any(symbols.values()):
        raise Refused("the list of symbols has no addresses; read /proc/kallsyms as root")
    return symbols


# ---- types


class Converter:
    """Makes the sections of a symbol file from BTF types."""

    def __init__(self, types, text):
        self.types, self.text = types, text
        self.names = self.unique_names()
        self.base_types = {"void": base_type(0, False, "void"), "pointer": base_type(8, False, "int")}

    def unique_names(self):
        """The name of each struct, union and enum: its own, unless it has none or an earlier type has it."""
        names, taken = {}, set()
        for number, type_ in enumerate(self.types):
            if number and type_.kind in (STRUCT, UNION, ENUM, ENUM64):
                name = type_.name or f"unnamed_{number}"
                if name in taken:
                    name = f"{name}__{number}"
                taken.add(name)
                names[number] = name
        return names

    def resolved(self, number):
        """The number of the type behind typedefs and qualifiers."""
        while number and self.types[number].kind in TRANSPARENT:
            number = self.types[number].word
        return number

    def named(self, kind, number):
        return {"kind": kind, "name": self.names[number]}

    def base(self, name, size, signed, kind):
        """The descriptor of a base type; one of another size or sign under the same name gets a name of its own."""
        made = base_type(size, signed, kind)
        if self.base_types.setdefault(name, made) != made:
            name = f"{name}__{size}{'s' if signed else 'u'}"
            self.base_types[name] = made
        return {"kind": "base", "name": name}

    def descriptor(self, number):
        """The descriptor of a type."""
        number = self.resolved(number)
        if number == 0:
            return VOID
        type_ = self.types[number]
        if type_.kind == INT:
            return self.integer(type_)
        if type_.kind == POINTER:
            return {"kind": "pointer", "subtype": self.descriptor(type_.word)}
        if type_.kind == ARRAY:
            element, _, count = struct.unpack("<III", type_.data)
            return {"kind": "array", "count": count, "subtype": self.descriptor(element)}
        if type_.kind == STRUCT:
            return self.named("struct", number)
        if type_.kind == UNION:
            return self.named("union", number)
        if type_.kind in (ENUM, ENUM64):
            return self.named("enum", number)
        if type_.kind == FORWARD:
            return {"kind": "union" if type_.flag else "struct", "name": type_.name}
        if type_.kind in (PROTOTYPE, FUNCTION):
            return {"kind": "function"}
        if type_.kind == FLOAT:
            return self.base(type_.name, type_.word, True, "float")
        raise Refused(f"type {number} of kind {type_.kind} stands where an object is described")

    def integer(self, type_):
        encoding = struct.unpack("<I", type_.data)[0] >> 24 & 0xF
        kind = "bool" if encoding & INT_BOOL else "char" if encoding & INT_CHAR or type_.name.endswith("char") else "int"
        return self.base(type_.name, type_.word, bool(encoding & INT_SIGNED), kind)

    def size(self, number):
        """The size of a type that a bit field may have."""
        type_ = self.types[self.resolved(number)]
        return type_.word if type_.kind in (INT, ENUM, ENUM64) else 8

    def field(self, member, is_bits):
        """The name of a member of a struct or union, and its field."""
        name, of, offset = member
        width, bit = (offset >> 24, offset & 0xFFFFFF) if is_bits else (0, offset)
        made = {"offset": bit // 8, "type": self.descriptor(of)}
        if width:
            made = self.bit_field(of, bit, width)
        return self.text(name), made

    def bit_field(self, of, bit, width):
        """A bit field stands in the aligned unit of its type that it begins in, or from the byte on that it begins in."""
        unit = 8 * self.size(of)
        start = bit - bit % unit
        if bit + width > start + unit:
            start = bit - bit % 8
        made = {"kind": "bitfield", "bit_position": bit - start, "bit_length": width, "type": self.descriptor(of)}
        return {"offset": start // 8, "type": made}

    def user_type(self, number):
        type_ = self.types[number]
        fields = {}
        for index, member in enumerate(struct.iter_unpack("<III", type_.data)):
            name, made = self.field(member, type_.flag)
            if not name:
                name = f"unnamed_field_{index}"
                made["anonymous"] = made["type"]["kind"] in ("struct", "union")
            fields[name] = made
        kind = "struct" if type_.kind == STRUCT else "union"
        return {"size": type_.word, "kind": kind, "fields": fields}

    def enumeration(self, number):
        type_ = self.types[number]
        if type_.kind == ENUM:
            parts = "<Ii" if type_.flag else "<II"
            constants = {self.text(name): value for name, value in struct.iter_unpack(parts, type_.data)}
        else:
            constants = {}
            for name, low, high in struct.iter_unpack("<III", type_.data):
                value = low | high << 32
                constants[self.text(name)] = value - (1 << 64) if type_.flag and value >> 63 else value
        sign = "int" if type_.flag else "uint"
        base = self.base(f"enum_{sign}{8 * type_.word}", type_.word, bool(type_.flag), "int")
        return {"size": type_.word, "base": base["name"], "constants": constants}

    def variables(self):
        """The types of the variables that BTF knows, by name."""
        return {t.name: self.descriptor(t.word) for t in self.types[1:] if t.kind == VARIABLE}


def base_type(size, signed, kind):
    return {"size": size, "signed": signed, "kind": kind, "endian": "little"}


# ---- the symbol file


def symbol_file(types, text, symbols, banner):
    converter = Converter(types, text)
    users, enums = {}, {}
    for number, name in converter.names.items():
        if types[number].kind in (STRUCT, UNION):
            users[name] = converter.user_type(number)
        else:
            enums[name] = converter.enumeration(number)
    variables = converter.variables()
    entries = {}
    for name, address in symbols.items():
        entries[name] = {"address": address}
        if name in variables:
            entries[name]["type"] = variables[name]
    if banner and "linux_banner" in entries:
        data = banner.rstrip(b"\0") + b"\0"
        entries["linux_banner"]["constant_data"] = base64.b64encode(data).decode()
    return {
        "metadata": {"format": "6.2.0", "producer": {"name": "isf_from_btf", "version": "1.0.0"}},
        "base_types": converter.base_types,
        "enums": enums,
        "user_types": users,
        "symbols": entries,
    }


def banner_of(elf, symbols, path):
    """The banner: that of the file that is named, else that of the ELF file, else none."""
    if path:
        with open(path, "rb") as file:
            return file.read()
    if elf is None or "linux_banner" not in symbols:
        return None
    found = bytes_at(elf, symbols["linux_banner"], 4096)
    return found and found.split(b"\0")[0]


def main():
    parser = argparse.ArgumentParser(description="Makes an ISF symbol file from a kernel's BTF and its list of symbols.")
    parser.add_argument("btf", help="/sys/kernel/btf/vmlinux, or an ELF file vmlinux with a section .BTF")
    parser.add_argument("symbols", help="System.map of that kernel, or its /proc/kallsyms as root reads it")
    parser.add_argument("--banner", help="a file with the kernel's banner, as /proc/version has it")
    words = parser.parse_args()
    try:
        with open(words.btf, "rb") as file:
            data = file.read()
        elf = data if data[:4] == b"\x7fELF" else None
        btf = section_of(elf, ".BTF") if elf else data
        if btf is None:
            raise Refused("the ELF file has no section .BTF")
        symbols = read_symbols(words.symbols)
        types, text = read_types(btf)
        json.dump(symbol_file(types, text, symbols, banner_of(elf, symbols, words.banner)), sys.stdout, separators=(",", ":"))
    except (OSError, Refused, struct.error, ValueError) as error:
        print(f"isf_from_btf: {error}", file=sys.stderr)
        return 1
    return 0


if __name__ == "__main__":
    sys.exit(main())
