#!/usr/bin/env python3
"""image.py LINKED NAME: what a Mach-O dylib or a Windows DLL for Arm is in memory once it is loaded, as NAME.bin, and NAME.s, an ELF source of that memory
with the C entries as symbols: code of another system for a program of Linux. No byte of it is changed. It finds its own constants by distances in
pages, so the image starts at a page as it would there, and the three systems pass numbers and pointers in the same registers."""
import struct
import sys


def put(image, address, data):
    """The bytes of a section or segment at its address."""
    image.extend(bytes(max(0, address + len(data) - len(image))))
    image[address:address + len(data)] = data


def text(data, at):
    return data[at:data.index(0, at)].decode("ascii")


def mach_o(file):
    """Segments, and the external symbols that are defined, without the underscore that macOS puts before a name of C's."""
    image, symbols, at = bytearray(), {}, 32
    for _ in range(struct.unpack_from("<I", file, 16)[0]):
        command, size = struct.unpack_from("<II", file, at)
        if command == 0x19:  # LC_SEGMENT_64
            address, _, offset, length = struct.unpack_from("<QQQQ", file, at + 24)
            put(image, address, file[offset:offset + length])
        elif command == 0x2:  # LC_SYMTAB
            table, count, names, _ = struct.unpack_from("<IIII", file, at + 8)
            for entry in range(table, table + 16 * count, 16):
                name, kind, _, _, value = struct.unpack_from("<IBBHQ", file, entry)
                if kind & 0x0F == 0x0F:  # external, defined in a section
                    symbols[text(file, names + name).removeprefix("_")] = value
        at += size
    return image, symbols


def dll(file):
    """Sections, and the names of the export table."""
    image, header = bytearray(), struct.unpack_from("<I", file, 0x3C)[0]
    sections, optional = struct.unpack_from("<H", file, header + 6)[0], struct.unpack_from("<H", file, header + 20)[0]
    for section in range(sections):
        length, address, stored, offset = struct.unpack_from("<IIII", file, header + 24 + optional + 40 * section + 8)
        put(image, address, file[offset:offset + min(length, stored)])
    exports = struct.unpack_from("<I", file, header + 24 + 112)[0]
    count, functions, names, ordinals = struct.unpack_from("<IIII", image, exports + 24)
    symbols = {}
    for i in range(count):
        ordinal = struct.unpack_from("<H", image, ordinals + 2 * i)[0]
        symbols[text(image, struct.unpack_from("<I", image, names + 4 * i)[0])] = struct.unpack_from("<I", image, functions + 4 * ordinal)[0]
    return image, symbols


def main():
    linked, name = sys.argv[1:]
    with open(linked, "rb") as source:
        file = source.read()
    image, symbols = dll(file) if file.startswith(b"MZ") else mach_o(file)
    with open(name + ".bin", "wb") as memory:
        memory.write(image)
    with open(name + ".s", "w", encoding="ascii") as source:
        print(f'.section .image, "ax", %progbits\n.balign 65536\nimage:\n.incbin "{name}.bin"', file=source)
        for symbol, at in sorted(symbols.items()):
            if symbol.startswith("vaimalofo_"):
                print(f".globl {symbol}\n.type {symbol}, %function\n.set {symbol}, image + {at}", file=source)
        print('.section .note.GNU-stack, "", %progbits', file=source)


main()
