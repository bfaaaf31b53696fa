#!/usr/bin/env python3
"""Displacement words to a target, and the low bits that go with an ADRP, against GNU ld.

Reads lines `ADDRESS_HEX BASE_HEX TARGET_HEX WORD_HEX` from standard input, with LOW_DECIMAL behind where the base is an ADRP; or `ADDRESS_HEX
BASE_HEX TARGET_HEX far` where the target, or its page, was said to be out of range. GNU as leaves a word to a symbol to the linker, and for an
ADRP the ADD behind it (R_AARCH64_ADD_ABS_LO12_NC). GNU ld, with the instruction at the address and the symbol at the target, must put the word
there and the low bits into the ADD, or find the target too far: it says so, and for B and BL it puts a veneer behind the branch. It counts
addresses modulo 2^64 itself. The last line is `N passed, M failed`; the exit status is 1 if a line failed. Where the tools are missing it
says `skipped: ..` and exits 0, after it has read all lines: who writes them must not meet a closed pipe.
"""
import os
import re
import struct
import sys
import tempfile

from displacements_as import FORMATS, adrp
from gnu import close, lacks, run, sorted_out

# Words that one run of the linker is given: each has a section of its own.
BATCH = 2500


def parse(line):
    """Address, base, target, and the word with the low bits of an ADRP, or None for too far; or None and why there are none."""
    parts = line.split()
    try:
        address, base, target = (int(part, 16) for part in parts[:3])
        said = None
        if parts[3:] != ["far"]:
            word, *low = parts[3:]
            said = int(word, 16), *map(int, low)
    except ValueError:
        return None, "not ADDRESS_HEX BASE_HEX TARGET_HEX WORD_HEX, LOW_DECIMAL behind an ADRP, or far in place of them"
    if not instruction(base, "t") or address % 4:
        return None, "the base is no displacement with an empty field, or no instruction stands at the address"
    if said and len(said) != (2 if adrp(base, "t") else 1):
        return None, "low bits that go with no ADRP, or an ADRP without them"
    return address, base, target, said


def instruction(base, to):
    """The instruction of a base, or None where it has none of the six forms."""
    return next((found for form in FORMATS if (found := form(base, to))), None)


def section_bytes(path):
    """The bytes of each section of an ELF file, by its name."""
    with open(path, "rb") as f:
        data = f.read()
    (start,) = struct.unpack_from("<Q", data, 0x28)
    size, count, names = struct.unpack_from("<3H", data, 0x3A)
    heads = [struct.unpack_from("<2I4Q", data, start + size * i) for i in range(count)]
    text = heads[names][4]
    return {data[text + h[0] : data.index(0, text + h[0])].decode(): data[h[4] : h[4] + h[5]] for h in heads}


def link(asked, folder):
    """For each line the word, for an ADRP with the ADD's field, or None where the linker finds the target too far."""
    source, script, thing, linked = (os.path.join(folder, n) for n in ("words.s", "words.ld", "words.o", "words"))
    with open(source, "w") as f:
        for i, (_, base, _, _) in enumerate(asked):
            f.write(f'.section .word{i},"ax"\n{instruction(base, f"t{i}")}\n.section .adds,"ax"\nadd x0, x0, :lo12:t{i}\n')
    with open(script, "w") as f:
        f.write("SECTIONS {\n")
        f.writelines(f"t{i} = {target:#x};\n.word{i} {address:#x} : {{ *(.word{i}) }}\n" for i, (address, _, target, _) in enumerate(asked))
        f.write(".adds 0 : { *(.adds) }\n}\n")
    made = run("as", "-o", thing, source)
    if made.returncode != 0:
        sys.exit("the assembler failed: " + made.stderr[:2000])
    # Many words stand at one address; a target too far is told for each, and the rest is linked all the same.
    made = run("ld", "-n", "--no-check-sections", "--noinhibit-exec", "--verbose", "-T", script, "-o", linked, thing)
    told = [line for line in made.stderr.splitlines() if line.strip()]
    far = [re.search(r"\(\.word(\d+)\+0x0\): relocation truncated to fit: R_AARCH64_\w+ ", line) for line in told]
    if made.returncode != 0 or not all(far):
        sys.exit("the linker failed: " + made.stderr[:2000])
    far = {int(m.group(1)) for m in far}
    found = section_bytes(linked)
    adds = struct.unpack(f"<{len(asked)}I", found[".adds"])

    def answer(i):
        section = found[f".word{i}"]
        if i in far or len(section) > 4:
            return None
        word = int.from_bytes(section, "little")
        return (word, adds[i] >> 10 & 0xFFF) if adrp(asked[i][1], "t") else (word,)

    return [answer(i) for i in range(len(asked))]


def shown(answer):
    return "too far" if answer is None else " and ".join([f"{answer[0]:08x}", *map(str, answer[1:])])


def main():
    lines = [l.strip() for l in sys.stdin if l.strip()]
    if lacks("as", "ld"):
        return 0
    given = [parse(l) for l in lines]
    failures, known = sorted_out(given)
    for start in range(0, len(known), BATCH):
        batch = known[start : start + BATCH]
        with tempfile.TemporaryDirectory() as folder:
            answers = link([given[i] for i in batch], folder)
        failures.update((i, f"GNU ld gives {shown(answer)}") for i, answer in zip(batch, answers) if answer != given[i][3])
    return close(lines, failures)


if __name__ == "__main__":
    sys.exit(main())
