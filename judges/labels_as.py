#!/usr/bin/env python3
"""Whole programs with labels against GNU as and ld.

Reads lines `ADDRESS_HEX LABELS WORDS SAID` from standard input, one program each: the address of its first word; LABEL@POSITION for each
label that is bound, or -; its words in hex before labels were reached, WORD>LABEL for one that reaches a label; and the words after it,
or =SUM for the sum modulo 2^64 of the first, twice the second, and so on. Items are parted by commas. The program is written with labels in
assembly, all its other words as they are; GNU as and, for the pages of ADRPs, GNU ld with the program at its address must give the words that
are said. All programs go through one run of each. The last line is `N passed, M failed`; the exit status is 1 if a program failed. Where the
tools are missing it says `skipped: ..` and exits 0, after it has read all lines: who writes them must not meet a closed pipe.
"""
import os
import struct
import sys
import tempfile

from gnu import close, lacks, run, sorted_out
from targets_ld import instruction, section_bytes

SHOWN = 80


def parse(line):
    """Address, positions by label, words with their labels or None, and what is said of them; or None and why there are none."""
    try:
        address, labels, words, said = line.split()
        bound = dict(map(int, item.split("@")) for item in labels.split(",") if item != "-")
        texts = [item.split(">") for item in words.split(",")]
        items = [(int(text[0], 16), int(text[1]) if text[1:] else None) for text in texts]
        told = int(said[1:]) if said[0] == "=" else [int(word, 16) for word in said.split(",")]
        address = int(address, 16)
    except ValueError:
        return None, "not ADDRESS_HEX LABEL@POSITION,.. WORD_HEX[>LABEL],.. WORD_HEX,.. or =SUM"
    if address % 4 or any(position > len(items) for position in bound.values()):
        return None, "no instruction stands at the address, or a label stands past the end"
    for word, label in items:
        if label is not None and (label not in bound or not instruction(word, "t")):
            return None, f"{word:08x} reaches label {label}, which is not bound, or is no displacement with an empty field"
    return address, bound, items, told


def source(number, bound, items):
    """The program in assembly, in a section of its own."""
    lines = [f'.section .p{number},"ax"']
    for position in range(len(items) + 1):
        lines += [f"p{number}_{label}:" for label, at in bound.items() if at == position]
        if position < len(items):
            word, label = items[position]
            lines.append(f".inst {word:#x}" if label is None else instruction(word, f"p{number}_{label}"))
    return "\n".join(lines) + "\n"


def link(programs, folder):
    """The words of each program as GNU as and ld give them."""
    text, script, thing, linked = (os.path.join(folder, n) for n in ("all.s", "all.ld", "all.o", "all"))
    with open(text, "w") as f:
        f.writelines(source(i, bound, items) for i, (_, bound, items, _) in enumerate(programs))
    with open(script, "w") as f:
        f.write("SECTIONS {\n")
        f.writelines(f".p{i} {address:#x} : {{ *(.p{i}) }}\n" for i, (address, *_) in enumerate(programs))
        f.write("}\n")
    # Programs may stand at one address.
    for step in (("as", "-march=armv8-a", "-o", thing, text), ("ld", "-n", "--no-check-sections", "-T", script, "-o", linked, thing)):
        made = run(*step)
        if made.returncode != 0:
            sys.exit(f"{step[0]} failed: " + made.stderr[:2000])
    found = section_bytes(linked)
    return [struct.unpack(f"<{len(items)}I", found[f".p{i}"]) for i, (_, _, items, _) in enumerate(programs)]


def differs(program, words):
    """What is said of the program and is not so, if anything."""
    address, _, items, told = program
    if isinstance(told, int):
        found = sum((i + 1) * word for i, word in enumerate(words)) % 2**64
        return f"GNU as and ld give words of the sum {found}" if found != told else None
    if len(told) != len(words):
        return f"{len(told)} words are said, of {len(words)}"
    for position, (word, said) in enumerate(zip(words, told)):
        if word != said:
            base, label = items[position]
            reached = "" if label is None else f" with label {label}"
            return f"GNU as and ld give {word:08x} for {base:08x}{reached} at {address + 4 * position:x}, and not {said:08x}"
    return None


def main():
    lines = [l.strip() for l in sys.stdin if l.strip()]
    if lacks("as", "ld"):
        return 0
    given = [parse(l) for l in lines]
    failures, known = sorted_out(given)
    with tempfile.TemporaryDirectory() as folder:
        answers = link([given[i] for i in known], folder) if known else []
    for i, words in zip(known, answers):
        if why := differs(given[i], words):
            failures[i] = why
    reached = sum(label is not None for i in known for _, label in given[i][2])
    print(f"{reached} words that reach a label, of {sum(len(given[i][2]) for i in known)}")
    return close([l if len(l) <= SHOWN else l[:SHOWN] + ".." for l in lines], failures)


if __name__ == "__main__":
    sys.exit(main())
