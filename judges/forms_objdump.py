#!/usr/bin/env python3
"""Which displacement format a word is an instruction of, against GNU objdump.

Reads lines `WORD_HEX ASKED SAID` from standard input: the formats (digits from 0 to 5) for which the word's form was asked, and those of them
whose form it was said to have, `-` for none. objdump must read from the word an instruction of just these formats. What it prints decides,
never a bit of the word. All lines go through one run. The last line is `N passed, M failed`; the exit status is 1 if a line failed. Where the
tool is missing it says `skipped: ..` and exits 0, after it has read all lines: who writes them must not meet a closed pipe.
"""
import re
import sys

from gnu import beside_objdump

# An address stands alone: a register or a vector in its place is in brackets, as in LDR (register) and the ADR of SVE.
ADDRESS = r"0x[0-9a-f]+"
FORMATS = [
    rf"bl? {ADDRESS}",
    rf"(b\.[a-z]{{2}}|cbn?z [wx]\w+,) {ADDRESS}",
    rf"tbn?z [wx]\w+, #\w+, {ADDRESS}",
    rf"adr x\w+, {ADDRESS}",
    rf"adrp x\w+, {ADDRESS}",
    rf"(ldr [wxsdq]\w+|ldrsw x\w+|prfm #?\w+), {ADDRESS}",
]


def parse(line):
    """The word of a line, the formats asked and the formats said; or None and why there are none."""
    parts = line.split()
    if len(parts) != 3 or not re.fullmatch(r"[0-9a-f]{1,8} [0-5]+ ([0-5]+|-)", " ".join(parts)):
        return None, "not WORD_HEX ASKED SAID"
    asked, said = set(parts[1]), set(parts[2]) - {"-"}
    return (int(parts[0], 16), asked, said) if said <= asked else (None, "more is said than asked")


def wrong(given, address, text):
    _, asked, said = given
    formats = {str(n) for n, form in enumerate(FORMATS) if re.fullmatch(form, text)}
    return formats & asked != said


if __name__ == "__main__":
    sys.exit(beside_objdump(parse, wrong))
