"""GNU binutils for AArch64, for the judges of this folder: one run of the assembler or of objdump over many instructions, and the closing lines."""
import os
import re
import shutil
import subprocess
import sys
import tempfile

PREFIX = "aarch64-linux-gnu-"
# The text starts above 4 GiB, so that every page in reach of an ADRP has an address.
TEXT = 0x200000000
SHOWN = 10


def run(tool, *words):
    return subprocess.run([PREFIX + tool, *words], capture_output=True, text=True)


def lacks(*tools):
    """Whether a tool is missing; then it is said."""
    missing = [PREFIX + t for t in tools if not shutil.which(PREFIX + t)]
    if missing:
        print(f"skipped: {', '.join(missing)} not found (Debian has them in the package binutils-aarch64-linux-gnu)")
    return bool(missing)


def assemble(texts, folder):
    """The words that GNU as gives, one for each text; and its complaint for each text that it refuses."""
    source, thing, linked, raw = (os.path.join(folder, n) for n in ("all.s", "all.o", "all", "all.bin"))
    refused = {}
    while True:
        with open(source, "w") as f:
            f.write("".join(("nop" if i in refused else t) + "\n" for i, t in enumerate(texts)))
        made = run("as", "-march=armv8-a", "-o", thing, source)
        if made.returncode == 0:
            break
        more = {int(n) - 1: m for n, m in re.findall(r":(\d+): Error: (.*)", made.stderr)}
        if not more.keys() - refused.keys():
            sys.exit("the assembler failed: " + made.stderr[:2000])
        refused.update(more)
    # Plain as leaves the page of an ADRP to the linker.
    for step in (run("ld", f"-Ttext={TEXT:#x}", "-e", "0", "-o", linked, thing), run("objcopy", "-O", "binary", "-j", ".text", linked, raw)):
        if step.returncode != 0:
            sys.exit("the linker failed: " + step.stderr[:2000])
    with open(raw, "rb") as f:
        data = f.read()
    return [int.from_bytes(data[i : i + 4], "little") for i in range(0, 4 * len(texts), 4)], refused


def disassemble(words, folder):
    """The text that objdump reads from each word, with no aliases, one space between items and no comment."""
    raw = os.path.join(folder, "words.bin")
    with open(raw, "wb") as f:
        f.write(b"".join(w.to_bytes(4, "little") for w in words))
    made = run("objdump", "-D", "-z", "-b", "binary", "-m", "aarch64", "-M", "no-aliases", raw)
    if made.returncode != 0:
        sys.exit("objdump failed: " + made.stderr[:2000])
    lines = re.findall(r"^\s*[0-9a-f]+:\t[0-9a-f]{8} \t(.*)$", made.stdout, re.MULTILINE)
    if len(lines) != len(words):
        sys.exit(f"objdump reads {len(lines)} words of {len(words)}")
    return [" ".join(line.split("//")[0].split()) for line in lines]


def sorted_out(parsed):
    """Of what lines were parsed to, in which None stands first and why behind it: why by the line's number, and the numbers of the others."""
    failures = {i: why for i, (first, why, *_) in enumerate(parsed) if first is None}
    return failures, [i for i in range(len(parsed)) if i not in failures]


def close(lines, failures):
    """Says which lines failed and why, then how many; the exit status."""
    for i in sorted(failures)[:SHOWN]:
        print(f"line {i + 1}: {lines[i]}: {failures[i]}")
    if len(failures) > SHOWN:
        print(f".. and {len(failures) - SHOWN} more")
    if not lines:
        print("no line was given")
    print(f"{len(lines) - len(failures)} passed, {len(failures) if lines else 1} failed")
    return 1 if failures or not lines else 0


def beside_objdump(parse, wrong):
    """A judge's whole run: lines from standard input, each parsed to a word and more; `wrong` has what was parsed, the word's address and objdump's text."""
    lines = [l.strip() for l in sys.stdin if l.strip()]
    if lacks("objdump"):
        return 0
    given = [parse(l) for l in lines]
    failures, known = sorted_out(given)
    with tempfile.TemporaryDirectory() as folder:
        texts = disassemble([given[i][0] for i in known], folder) if known else []
    for k, (i, text) in enumerate(zip(known, texts)):
        if wrong(given[i], 4 * k, text):
            failures[i] = f"objdump reads `{text}`"
    return close(lines, failures)
