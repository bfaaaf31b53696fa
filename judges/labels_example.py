#!/usr/bin/env python3
"""The program of the example of labels against GNU as and ld, and run under qemu-aarch64.

Reads what labels_example prints from standard input: its last lines are the words of an overlay, one in 8 hex digits to a line. GNU as and ld
must give the same words for the text below at the overlay's address; and the words themselves, put there as a program, must end with the status
that the text ends with. The last line is `N passed, M failed`, of these two; the exit status is 1 if one failed. Where a tool is missing it
says `skipped: ..` for what it would judge and exits 0, after it has read all lines: who writes them must not meet a closed pipe.
"""
import os
import re
import shutil
import struct
import subprocess
import sys
import tempfile

from gnu import lacks, run
from targets_ld import section_bytes

ADDRESS = 0x400FF0
STATUS = 35
EMULATOR = "qemu-aarch64"
SECONDS = 20

TEXT = """
        movz x0, #5
        ldr w1, data
        adr x2, data
        adrp x3, data
        movz x4, #0
        b loop
loop:   cbz x0, exit
        tbz w0, #0, even
        add x4, x4, x1
even:   sub x0, x0, #1
        b loop
exit:   ldr w5, [x2]
        add x4, x4, x5
        ldr w5, [x3, #:lo12:data]
        add x0, x4, x5
        movz x8, #93
        svc #0
stay:   b stay
data:   .word 7
"""


def program(text, folder, name):
    """A program that begins at the address, from assembly; its path."""
    source, thing, linked = (os.path.join(folder, name + end) for end in (".s", ".o", ""))
    with open(source, "w") as f:
        f.write(text)
    for step in (("as", "-march=armv8-a", "-o", thing, source), ("ld", f"-Ttext={ADDRESS:#x}", "-e", f"{ADDRESS:#x}", "-o", linked, thing)):
        made = run(*step)
        if made.returncode != 0:
            sys.exit(f"{step[0]} failed: " + made.stderr[:2000])
    return linked


def main():
    lines = sys.stdin.read().split("\n")
    if lacks("as", "ld"):
        return 0
    words = [int(line, 16) for line in lines if re.fullmatch(r"[0-9a-f]{8}", line)]
    passed, failures = 0, []
    with tempfile.TemporaryDirectory() as folder:
        text = section_bytes(program(TEXT, folder, "text"))[".text"]
        expected = list(struct.unpack(f"<{len(text) // 4}I", text))
        if words == expected:
            passed += 1
        else:
            failures.append(f"GNU as and ld give {' '.join(f'{word:08x}' for word in expected)}, and not {' '.join(f'{word:08x}' for word in words)}")
        if shutil.which(EMULATOR):
            linked = program("".join(f".inst {word:#x}\n" for word in words), folder, "words")
            try:
                status = subprocess.run([EMULATOR, linked], stdin=subprocess.DEVNULL, timeout=SECONDS).returncode
            except subprocess.TimeoutExpired:
                status = None
            if status == STATUS:
                passed += 1
            else:
                failures.append(f"the words, run, end with status {status} (None: not at all), and not {STATUS}")
        else:
            print(f"skipped: {EMULATOR} is missing (Debian package qemu-user); the words are not run")
    for failure in failures:
        print(failure)
    print(f"{passed} passed, {len(failures)} failed")
    return 1 if failures else 0


if __name__ == "__main__":
    sys.exit(main())
