#!/usr/bin/env python3
"""Logical words against GNU as and objdump.

Reads lines `OPERATION WIDTH RN RD VALUE_HEX WORD_HEX` from standard input, with `no` for the word where the value has none. GNU as must give
the same word for the instruction, or refuse its immediate; and objdump must read the operation, the registers and the value from the word. All
lines go through one run of each. The last line is `N passed, M failed`; the exit status is 1 if a line failed. Where the tools are
missing it says `skipped: ..` and exits 0, after it has read all lines: who writes them must not meet a closed pipe.
"""
import sys
import tempfile

from gnu import assemble, close, disassemble, lacks, sorted_out

OPERATIONS = ["and", "orr", "eor", "ands"]


def register(number, width, stack):
    """Number 31 is the stack pointer where a logical instruction other than ANDS writes, and else the zero register."""
    if number == 31:
        return {(32, True): "wsp", (64, True): "sp", (32, False): "wzr", (64, False): "xzr"}[width, stack]
    return f"{'x' if width == 64 else 'w'}{number}"


def parse(line):
    """The instruction's text and its word, None for `no`; or None and why there is none."""
    parts = line.split()
    try:
        operation, width, rn, rd = (int(p) for p in parts[:4])
        value, word = int(parts[4], 16), None if parts[5] == "no" else int(parts[5], 16)
    except (ValueError, IndexError):
        return None, "not OPERATION WIDTH RN RD VALUE_HEX WORD_HEX"
    if len(parts) != 6 or not (0 <= operation < 4 and width in (32, 64) and 0 <= rn < 32 and 0 <= rd < 32 and 0 <= value < 2**width):
        return None, "a number is out of range"
    target, source = register(rd, width, operation != 3), register(rn, width, False)
    return f"{OPERATIONS[operation]} {target}, {source}, #{value:#x}", word


def main():
    lines = [l.strip() for l in sys.stdin if l.strip()]
    if lacks("as", "ld", "objcopy", "objdump"):
        return 0
    asked = [parse(l) for l in lines]
    failures, known = sorted_out(asked)
    spelled = [i for i in known if asked[i][1] is not None]
    with tempfile.TemporaryDirectory() as folder:
        words, refused = assemble([asked[i][0] for i in known], folder) if known else ([], {})
        read = dict(zip(spelled, disassemble([asked[i][1] for i in spelled], folder))) if spelled else {}
    for k, i in enumerate(known):
        text, word = asked[i]
        if k in refused and word is not None:
            failures[i] = f"GNU as refuses `{text}`: {refused[k]}"
        elif k not in refused and words[k] != word:
            failures[i] = f"GNU as gives {words[k]:08x} for `{text}`"
        elif word is not None and read.get(i) != text:
            failures[i] = f"objdump reads `{read.get(i)}` and not `{text}`"
    return close(lines, failures)


if __name__ == "__main__":
    sys.exit(main())
