#!/usr/bin/env python3
"""stored.py moves|displacements|targets|forms|labels: what the stored answers have written, or have said of forms, in the form that
moves_qemu.py, displacements_as.py, targets_ld.py, forms_objdump.py and labels_as.py read.

The stored requests and answers (crates/replay, crates/differences, crates/label_scripts) are what the gate sees the proved programs print, so a
judge of them judges the programs."""
import struct
import sys

# For an entry that writes: the argument that gives the words of its run, and the one that gives the position.
WRITES = {18: (0, 1), 19: (0, 1), 49: (5, 6), 80: (2, 3), 96: (3, 4), 112: (3, 4), 113: (3, 4)}
MOVE, PATCHABLE, DISTANCE, TARGET, HAS_FORM = 80, 96, 112, 113, 115


def answered(pair):
    """Each request with its answer line and the words of its run."""
    with open(f"crates/{pair}/stdin", "rb") as requests, open(f"crates/{pair}/stdout", encoding="ascii") as answers:
        while request := requests.read(72):
            entry, *arguments = struct.unpack("<9Q", request)
            answer = next(answers).split()
            words = []
            if entry in WRITES:
                room = arguments[WRITES[entry][0]]
                count = (room % 33 + 3) // 4 if entry == 19 else room % 9
                for _ in range((count + 3) // 4):
                    words += next(answers).split()[1:]
            yield entry, arguments, answer, words


def all_answered():
    for pair in ("replay", "differences"):
        yield from answered(pair)


def written():
    for entry, arguments, answer, words in all_answered():
        if entry in WRITES and answer[0] == "ok":
            position = arguments[WRITES[entry][1]]
            yield entry, arguments, words[position:int(answer[1])]


def moves():
    for entry, arguments, words in written():
        if entry == MOVE:
            print(f"{arguments[0]:x}", arguments[1], *words)
        if entry == PATCHABLE:
            value, size, rd = arguments[:3]
            print(f"{value % 2 ** size:x}", rd, *words)


def displacements():
    for entry, (form, base, bits, *_), words in written():
        if entry == DISTANCE:
            print(form % 2 ** 32, f"{base % 2 ** 32:x}", bits - 2 ** 64 if bits >> 63 else bits, *words)


def targets():
    """What was written to targets, from the address that base address and position give: the word, behind an ADRP the low bits; or that the
    target is too far."""
    for entry, arguments, answer, words in all_answered():
        if entry == TARGET:
            _, word, target, _, position, base = arguments[:6]
            asked = f"{(base + 4 * position) % 2 ** 64:x} {word % 2 ** 32:x} {target:x}"
            if answer[0] == "ok":
                print(asked, words[position], *answer[2:])
            elif answer == ["no", "5"]:
                print(asked, "far")


def forms():
    """A base that gets 11 has not the form; one that gets anything else has it, but for 15 and 7, which are told before."""
    for entry, (form, word, *_), answer, _ in all_answered():
        if entry in (DISTANCE, TARGET, HAS_FORM) and answer not in (["no", "15"], ["no", "7"]):
            lacking = ["ok", "0"] if entry == HAS_FORM else ["no", "11"]
            print(f"{word % 2 ** 32:x}", form % 2 ** 32, "-" if answer == lacking else form % 2 ** 32)


class Overlay:
    """The run, the labels and the uses of a script of labels, by what was accepted. A word that was finished stands here as it was before, with its
    label and the base address: the label stays where it is bound."""

    def __init__(self, words):
        self.bound, self.waits = {}, []
        self.items = [(0, None, 0)] * words

    def put(self, position, word):
        if position < len(self.items):
            self.items[position] = word, None, 0

    def finish(self, base):
        for position, label in self.waits:
            self.items[position] = self.items[position][0], label, base
        self.waits = []

    def line(self, base, total):
        """The program, or None where no word reaches a label, or an ADRP was finished at another base address."""
        reach = [(word, since) for word, label, since in self.items if label is not None]
        if not reach or any(word & 0x9F000000 == 0x90000000 and since != base for word, since in reach):
            return None
        labels = ",".join(f"{label}@{position}" for label, position in self.bound.items())
        words = ",".join(f"{word:x}" if label is None else f"{word:x}>{label}" for word, label, _ in self.items)
        return f"{base:x} {labels} {words} ={total}"


ANEW, PUT, BIND, USE, FINISH = range(5)


def labels():
    """Every finish of the stored scripts that was accepted, with the sum of the words after it."""
    overlay = Overlay(0)
    with open("crates/label_scripts/stdin", "rb") as records, open("crates/label_scripts/stdout", encoding="ascii") as answers:
        while len(record := records.read(40)) == 40:
            kind, base, label, position, form = struct.unpack("<5Q", record)
            accepted = next(answers).split()[0] == "ok"
            sums = [int(next(answers).split()[1]) for _ in range(5)] if kind == FINISH else []
            if not accepted:
                continue
            if kind == ANEW:
                overlay = Overlay(min(form, 2048))
            elif kind == PUT:
                overlay.put(position, label % 2 ** 32)
            elif kind == BIND:
                overlay.bound[label % 2 ** 32] = position
            elif kind == USE:
                overlay.waits.append((position, label % 2 ** 32))
            else:
                overlay.finish(base)
                if line := overlay.line(base, sums[0]):
                    print(line)


if __name__ == "__main__":
    {"moves": moves, "displacements": displacements, "targets": targets, "forms": forms, "labels": labels}[sys.argv[1]]()
