#!/usr/bin/env python3
"""Displacement words against GNU as.

Reads lines `FORMAT BASE_HEX DISTANCE_DECIMAL WORD_HEX` from standard input and compares each word with what GNU as (and, for the page of an
ADRP, GNU ld) gives for the instruction of that base at that distance. All lines go through one run of the assembler. The last line is
`N passed, M failed`; the exit status is 1 if a line failed. Where the tools are missing it says `skipped: ..` and exits 0, after it has
read all lines: who writes them must not meet a closed pipe.
"""
import sys
import tempfile

from gnu import assemble, close, lacks, sorted_out

CONDITIONS = "eq ne cs cc mi pl vs vc hi ls ge lt gt le al nv".split()


def x(n):
    return "xzr" if n == 31 else f"x{n}"


def w(n):
    return "wzr" if n == 31 else f"w{n}"


def branch26(base, to):
    return {0x14000000: f"b {to}", 0x94000000: f"bl {to}"}.get(base)


def branch19(base, to):
    if base & ~0xF == 0x54000000:
        return f"b.{CONDITIONS[base & 0xF]} {to}"
    if base & 0x7EFFFFE0 == 0x34000000:
        name = "cbnz" if base >> 24 & 1 else "cbz"
        return f"{name} {(x if base >> 31 else w)(base & 31)}, {to}"
    return None


def branch14(base, to):
    if base & 0x7E07FFE0 != 0x36000000:
        return None
    name = "tbnz" if base >> 24 & 1 else "tbz"
    bit = base >> 31 << 5 | base >> 19 & 31
    return f"{name} {(x if base >> 31 else w)(base & 31)}, #{bit}, {to}"


def adr(base, to):
    return f"adr {x(base & 31)}, {to}" if base & ~31 == 0x10000000 else None


def adrp(base, to):
    return f"adrp {x(base & 31)}, {to}" if base & ~31 == 0x90000000 else None


def ldr19(base, to):
    n = base & 31
    return {
        0x18000000: f"ldr {w(n)}, {to}",
        0x58000000: f"ldr {x(n)}, {to}",
        0x98000000: f"ldrsw {x(n)}, {to}",
        0xD8000000: f"prfm #{n}, {to}",
        0x1C000000: f"ldr s{n}, {to}",
        0x5C000000: f"ldr d{n}, {to}",
        0x9C000000: f"ldr q{n}, {to}",
    }.get(base & ~31)


FORMATS = [branch26, branch19, branch14, adr, adrp, ldr19]


def parse(line):
    """The instruction of a line and its word; or why there is none."""
    parts = line.split()
    try:
        form, base, distance, word = int(parts[0]), int(parts[1], 16), int(parts[2]), int(parts[3], 16)
    except (ValueError, IndexError):
        return None, "not FORMAT BASE_HEX DISTANCE_DECIMAL WORD_HEX"
    if len(parts) != 4 or not 0 <= form < len(FORMATS):
        return None, "not FORMAT BASE_HEX DISTANCE_DECIMAL WORD_HEX, a format from 0 to 5"
    text = FORMATS[form](base, f". {'-' if distance < 0 else '+'} {abs(distance)}")
    return (text, word) if text else (None, f"the base {base:08x} is no instruction of format {form}")


def main():
    lines = [l.strip() for l in sys.stdin if l.strip()]
    if lacks("as", "ld", "objcopy"):
        return 0
    asked = [parse(l) for l in lines]
    failures, known = sorted_out(asked)
    with tempfile.TemporaryDirectory() as folder:
        words, refused = assemble([asked[i][0] for i in known], folder) if known else ([], {})
    for k, i in enumerate(known):
        text, word = asked[i]
        if k in refused:
            failures[i] = f"GNU as refuses `{text}`: {refused[k]}"
        elif words[k] != word:
            failures[i] = f"GNU as gives {words[k]:08x} for `{text}`"
    return close(lines, failures)


if __name__ == "__main__":
    sys.exit(main())
