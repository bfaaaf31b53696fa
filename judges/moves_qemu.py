#!/usr/bin/env python3
"""Runs move sequences under qemu-aarch64 and looks at every register.

Standard input has one sequence a line: VALUE RD WORD.., the value and the words in hex, the register in decimal. All of them go into one
program, which runs each sequence from two opposite contents of registers 0 to 30. Afterwards register RD must hold VALUE and every other
register what it held before. The last line is `N passed, M failed`; the exit status is 1 where something failed. Where a tool is
missing it says so in a line `skipped: ..` and exits with 0, after it has read its input: who writes it must not meet a closed pipe.
"""
import os
import shutil
import struct
import subprocess
import sys
import tempfile

ASSEMBLER, LINKER, EMULATOR = 'aarch64-linux-gnu-as', 'aarch64-linux-gnu-ld', 'qemu-aarch64'
PACKAGES = {ASSEMBLER: 'binutils-aarch64-linux-gnu', LINKER: 'binutils-aarch64-linux-gnu', EMULATOR: 'qemu-user'}
REGISTERS = 31
ALL_ONES = 2 ** 64 - 1
SECONDS = 300
SHOWN = 10

# Each register's first content: no two are equal, and no halfword is 0 or FFFF. The second content is the complement.
FIRST = [0x0123456789ABCDEF + k * 0x0101010101010101 for k in range(REGISTERS)]
PATTERNS = [FIRST, [x ^ ALL_ONES for x in FIRST]]

# For each of the two contents memory has 512 bytes: the registers before, and 256 bytes further the registers after. The stack pointer
# holds its address, so that no other register is taken. `load` and `store` leave out x30, in which they are called.
HALF = 512
AFTER = 256
PAIRS = [(k, k + 1, 8 * k) for k in range(0, REGISTERS - 1, 2)]
LAST = REGISTERS - 1


def program(sequences):
    """The assembly text of a program that writes the 1024 bytes of memory once for each sequence."""
    lines = ['.text', '.globl _start', '_start:', 'adrp x0, memory', 'add x0, x0, :lo12:memory', 'mov sp, x0']
    for _, _, words in sequences:
        for move in (f'add sp, sp, #{HALF}', f'sub sp, sp, #{HALF}'):
            lines += ['bl load', f'ldr x{LAST}, [sp, #{8 * LAST}]']
            lines += [f'.inst 0x{w:08x}' for w in words]
            lines += [f'str x{LAST}, [sp, #{AFTER + 8 * LAST}]', 'bl store', move]
        lines += ['bl send']
    lines += ['mov x0, #0', 'mov x8, #93', 'svc #0']
    lines += ['load:'] + [f'ldp x{a}, x{b}, [sp, #{o}]' for a, b, o in PAIRS] + ['ret']
    lines += ['store:'] + [f'stp x{a}, x{b}, [sp, #{AFTER + o}]' for a, b, o in PAIRS] + ['ret']
    lines += ['send:', 'mov x0, #1', 'mov x1, sp', f'mov x2, #{2 * HALF}', 'mov x8, #64', 'svc #0', 'ret']
    lines += ['.data', '.balign 16', 'memory:']
    for pattern in PATTERNS:
        lines += [f'.quad 0x{x:016x}' for x in pattern] + [f'.space {HALF - 8 * REGISTERS}']
    return '\n'.join(lines) + '\n'


def read(text):
    """The sequences, and what is wrong with a line that is none."""
    sequences, wrong = [], []
    for number, line in enumerate(text.split('\n'), 1):
        items = line.split()
        if not items:
            continue
        try:
            value, rd, words = int(items[0], 16), int(items[1], 10), [int(w, 16) for w in items[2:]]
        except (ValueError, IndexError):
            wrong.append(f'line {number}: not VALUE RD WORD..: {line}')
            continue
        if 0 <= value <= ALL_ONES and 0 <= rd < REGISTERS and all(0 <= w < 2 ** 32 for w in words):
            sequences.append((value, rd, words))
        else:
            wrong.append(f'line {number}: a number is out of range: {line}')
    return sequences, wrong


def run(sequences):
    """What the program wrote, and its exit status."""
    with tempfile.TemporaryDirectory() as folder:
        source, object_file, binary, output = (os.path.join(folder, name) for name in ('moves.s', 'moves.o', 'moves', 'output'))
        with open(source, 'w') as f:
            f.write(program(sequences))
        subprocess.run([ASSEMBLER, source, '-o', object_file], check=True)
        subprocess.run([LINKER, '-static', object_file, '-o', binary], check=True)
        with open(output, 'wb') as f:
            status = subprocess.run([EMULATOR, binary], stdin=subprocess.DEVNULL, stdout=f, cwd=folder, timeout=SECONDS).returncode
        with open(output, 'rb') as f:
            return f.read(), status


def differences(sequence, memory):
    """One line for each register that is not as it must be."""
    value, rd, _ = sequence
    found = []
    for name, before, start in zip(('first', 'second'), PATTERNS, (0, HALF)):
        after = struct.unpack_from(f'<{REGISTERS}Q', memory, start + AFTER)
        for k in range(REGISTERS):
            expected = value if k == rd else before[k]
            if after[k] != expected:
                found.append(f'from the {name} content register {k} holds {after[k]:016x} and not {expected:016x}')
    return found


def main():
    text = sys.stdin.read()
    missing = [tool for tool in (ASSEMBLER, LINKER, EMULATOR) if shutil.which(tool) is None]
    if missing:
        print('skipped: ' + ', '.join(f'{tool} is missing (Debian package {PACKAGES[tool]})' for tool in missing))
        return 0
    sequences, wrong = read(text)
    output, status = run(sequences)
    complete = len(output) // (2 * HALF)
    failures = list(wrong)
    passed = 0
    for i, sequence in enumerate(sequences):
        asked = f'{sequence[0]:x} to {sequence[1]} by ' + ' '.join(f'{w:08x}' for w in sequence[2])
        if i >= complete:
            failures.append(f'{asked}: not run to its end; the program ended with status {status}')
            continue
        found = differences(sequence, output[i * 2 * HALF:(i + 1) * 2 * HALF])
        if found:
            failures.append(f'{asked}: {found[0]}' + (f', and {len(found) - 1} more' if len(found) > 1 else ''))
        else:
            passed += 1
    if status != 0 and complete >= len(sequences):
        failures.append(f'the program ended with status {status}')
    for line in failures[:SHOWN]:
        print(line)
    if len(failures) > SHOWN:
        print(f'.. and {len(failures) - SHOWN} more')
    print(f'{passed} passed, {len(failures)} failed')
    return 1 if failures else 0


if __name__ == '__main__':
    sys.exit(main())
