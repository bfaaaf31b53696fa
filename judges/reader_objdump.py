#!/usr/bin/env python3
"""What words are read as, against GNU objdump.

Reads lines from standard input, a word in hex and what it was read as, alone in its run, numbers in decimal or with 0x in hex:
    WORD_HEX constant REGISTER SIZE VALUE
    WORD_HEX movk REGISTER SIZE HALFWORD PLACE
    WORD_HEX logical OPERATION WIDTH RN RD VALUE
    WORD_HEX displacement FORMAT BASE DISTANCE
    WORD_HEX unknown
objdump must read the same instruction from the word, with the same register, size, immediate, place or target; from an unknown one none of
these. What it prints decides, never a bit of the word. A wide move to register 31, which objdump shows as one to a zero register, is unknown.
All lines go through one run. The last line is `N passed, M failed`; the exit status is 1 if a line failed. Where the tool is missing it says
`skipped: ..` and exits 0, after it has read all lines: who writes them must not meet a closed pipe.
"""
import re
import sys

import displacements_as
import forms_objdump
import logical_as
from gnu import beside_objdump

WIDE = re.compile(r"mov([znk]) ([wx])(\d+), #(0x[0-9a-f]+)(?:, lsl #(\d+))?")
# With a vector in the place of a register it is another instruction.
LOGICAL = r"(and|orr|eor|ands) ([wx]\w+|w?sp), [wx]\w+, #0x[0-9a-f]+"
OURS = [WIDE.pattern, LOGICAL, *forms_objdump.FORMATS]
SIZES = {"w": 32, "x": 64}
# The kinds, and what the numbers of each are below.
KINDS = {
    "constant": (31, 65, 2**64),
    "movk": (31, 65, 2**16, 4),
    "logical": (4, 65, 32, 32, 2**64),
    "displacement": (6, 2**32, 2**63),
    "unknown": (),
}


def parse(line):
    """The word of a line, its kind and its numbers; or None and why there are none."""
    word, *said = line.split()
    kind = said[0] if said else ""
    try:
        word, numbers = int(word, 16), [int(item, 0) for item in said[1:]]
    except ValueError:
        return None, "not WORD_HEX, a kind and its numbers"
    if kind not in KINDS or len(numbers) != len(KINDS[kind]) or any(n >= end for n, end in zip(numbers, KINDS[kind])):
        return None, "no such kind, or other numbers than it has"
    return word, kind, numbers


def wide(text):
    """A wide move as a line would have it, alone in its run; None where objdump reads none."""
    read = WIDE.fullmatch(text)
    if not read:
        return None
    letter, size, register, half, shift = read[1], SIZES[read[2]], int(read[3]), int(read[4], 16), int(read[5] or 0)
    if letter == "k":
        return "movk", [register, size, half, shift // 16]
    value = half << shift if letter == "z" else ~(half << shift)
    return "constant", [register, size, value % 2**size]


def logical(operation, width, rn, rd, value):
    target, source = logical_as.register(rd, width, operation != 3), logical_as.register(rn, width, False)
    return f"{logical_as.OPERATIONS[operation]} {target}, {source}, #{value:#x}"


def prefetch(number):
    """The names of a PRFM's operation: its number, and one made of what is fetched, how near and how often."""
    names = [f"#0x{number:02x}"]
    if number >> 3 < 3:
        names.append(["pld", "pli", "pst"][number >> 3] + ["l1", "l2", "l3", "slc"][number >> 1 & 3] + ["keep", "strm"][number & 1])
    return names


def displaced(form, base, distance, address):
    """The texts of a displacement at an address; an ADRP's goes from the page."""
    start = address - address % 4096 if form == 4 else address
    text = displacements_as.FORMATS[form](base, f"{(start + distance) % 2**64:#x}")
    if text and text.startswith("prfm"):
        return [re.sub(r"#\d+", name, text) for name in prefetch(base & 31)]
    return [text]


def wrong(given, address, text):
    """Whether objdump's text for the word at the address is not what the word was read as."""
    _, kind, numbers = given
    if kind == "unknown":
        return any(re.fullmatch(form, text) for form in OURS)
    if kind == "logical":
        return text != logical(*numbers)
    if kind == "displacement":
        return text not in displaced(*numbers, address)
    return (kind, numbers) != wide(text)


if __name__ == "__main__":
    sys.exit(beside_objdump(parse, wrong))
