#!/usr/bin/env python3
"""instructions.py: how many machine instructions a call of each C entry takes on x86-64 and on Arm Linux, counted by QEMU, one line of its trace for each.
It asks the same stored requests on both, evenly taken from those that are not refused, each in the four ways of stored.c. A count is no time. At the
top of the repository, where ./library has written both; it needs an x86-64 machine with cc, gcc for AArch64 and qemu-user."""
import os
import struct
import subprocess
import sys
import tempfile

sys.path.append(os.path.join(os.path.dirname(__file__), "../judges"))
from stored import all_answered  # noqa: E402

COUNT = 500
# No stored request sends a word elsewhere, binds a label or reads words back. Of the three numbers that ask for a float at a width, that of 64 is taken.
ENTRIES = {80: "move", 96: "patchable_move", 48: "logical_fields", 49: "logical_word", 112: "displacement", 113: "displacement_to", 115: "has_form",
           114: "read_displacement", 64: "decode_logical", 65: "normalise_logical", 128: "float_imm8", 131: "is_float_imm8", 132: "byte_mask_imm8",
           82: "count_zero_half_words", 32: "check_gp_id", 35: "check_vec_id", 38: "cond_field"}
MACHINES = {"x86_64": "cc", "aarch64": "aarch64-linux-gnu-gcc"}


def said(*words):
    return subprocess.run(words, check=True, capture_output=True, text=True).stdout


def accepted():
    """Each stored request that is not refused, as its entry, its bytes and the lines of its answer."""
    for entry, arguments, answer, words in all_answered():
        if answer[0] == "ok":
            lines = [answer] + [["ok", *words[i:i + 4]] for i in range(0, len(words), 4)]
            yield entry, struct.pack("<9Q", entry, *arguments), "".join(" ".join(line) + "\n" for line in lines)


def code_of(library, program):
    """The library's functions in the program, as ranges for QEMU."""
    names = {line.split()[-1] for line in said("nm", "--defined-only", library).splitlines() if " t " in line.lower()}
    for line in said("nm", "--print-size", program).splitlines():
        at, *size, kind, name = line.split()
        if name in names and size and kind in "tT":
            yield f"0x{at}+0x{size[0]}"


def counted(machine, room, requests, answers):
    library = f"target/library/{machine}-unknown-linux-gnu/libvaimalofo.a"
    program, log = f"{room}/{machine}", f"{room}/log"
    said(MACHINES[machine], "-std=c99", "-O2", "-static", "targets/stored.c", library, "-o", program)
    ranges = ",".join(code_of(library, program))
    said(f"qemu-{machine}", "-singlestep", "-d", "exec,nochain", "-dfilter", ranges, "-D", log, program, requests, answers)
    with open(log, encoding="utf-8", errors="replace") as file:
        return sum(line.startswith("Trace ") for line in file)


def main():
    everything = list(accepted())
    with tempfile.TemporaryDirectory() as room:
        for number, entry in ENTRIES.items():
            of_entry = [request for request in everything if request[0] == number]
            taken = of_entry[::max(1, len(of_entry) // COUNT)][:COUNT]
            requests, answers = os.path.join(room, "stdin"), os.path.join(room, "stdout")
            with open(requests, "wb") as file:
                file.write(b"".join(request for _, request, _ in taken))
            with open(answers, "w", encoding="ascii") as file:
                file.write("".join(answer for _, _, answer in taken))
            means = [counted(machine, room, requests, answers) / (4 * len(taken)) for machine in MACHINES]
            told = ", ".join(f"{mean:.1f} on {machine}" for mean, machine in zip(means, MACHINES))
            print(f"{entry}: of {len(taken)} requests, each asked four times: {told}", flush=True)


main()
