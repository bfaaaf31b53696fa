#!/usr/bin/env python3
"""respell.py: brings this repository's own definitions, lemmas and fields in specs/ and proofs/ to today's spelling, once, after port.py.

usage: tools/respell.py            at the top of the repository

Words are in snake case: sOf becomes s_of, mask-byte becomes mask_byte. Types, facts and modules keep their capitals, and so do Arm's own names
(SignExtend, VFPExpandImm). Names of src/, of the library and of what Rattle makes are left alone. A name that would fall together with
another one of this repository ends in _lem. It also mends what port.py garbled: an alias of a function's Reads is the function's name.
"""
import collections
import glob
import os
import re
import subprocess

# the kit's library: beside the page that `rt doc` names
KIT = os.path.join(os.path.dirname(subprocess.run(["rt", "doc"], capture_output=True, text=True, check=True).stdout.strip()), "rattle")
TOKEN = re.compile(r"[^\s(){}\[\]:;.,«»\"`]+")
MADE = re.compile(r"^(invariant|decreases|ghost)-")

files = sorted(p for p in glob.glob("crates/*/specs/**/*.antt", recursive=True) + glob.glob("crates/*/proofs/**/*.antt", recursive=True) if "/out/" not in p)
sources = sorted(p for p in glob.glob("crates/*/src/*.rt"))


def code(text):
    """An antt text without its comments."""
    return re.sub(r"(^|\s)--(\s.*)?$", r"\1", text, flags=re.M)


# names that would fall together with a function's or with one another
CHOSEN = {
    "atBase": "based_at", "formIn": "form_number", "hasForm": "is_of_form", "isLabel": "names_label", "isSize": "is_register_size",
    "logicalWord": "logical_word_item", "maskWords": "words_of_mask", "mayUse": "use_refusal", "movWords": "words_of_move",
    "numbersOf": "number_list", "offsetAt": "offset_after", "orThen": "or_else", "roomIn": "room_for", "useAt": "use_record",
    "wordsAt": "words_along", "useNumber": "number_of_use", "bindNumber": "number_of_bind", "finishNumber": "number_of_finish",
    "oneByOne": "each_in_turn", "isElement": "is_length",
}

CLAUSE = re.compile(r"\b(ghost use [^;]*;|(?:requires|ensures)\*?(?: \w+)? \{)")


def parted(text):
    """A source text as (is it a clause or an import of names, text) pairs."""
    i = 0
    for m in iter(lambda: CLAUSE.search(text, i), None):
        yield False, text[i:m.start()]
        end, depth = m.end(), not m.group(1).endswith(";")
        while depth:
            depth += {"{": 1, "}": -1}.get(text[end], 0)
            end += 1
        yield True, text[m.start():end]
        i = end
    yield False, text[i:]


# names of the source: they keep their spelling
kept = set()
for p in sources:
    for clause, text in parted(open(p, encoding="utf-8").read()):
        if not clause:
            kept.update(re.findall(r"[A-Za-z_][A-Za-z0-9_]*", re.sub(r"//.*", "", text)))
functions = {m for p in sources for m in re.findall(r"\bfn (\w+)", open(p, encoding="utf-8").read())}

# names of the library
library = set()
for p in glob.glob(KIT + "/**/*.antt", recursive=True):
    for t in TOKEN.findall(code(open(p, encoding="utf-8", errors="replace").read())):
        if "-" in t[1:] or re.search(r"[a-z0-9][A-Z]", t):
            library.add(t)

DEFINED = re.compile(r"^(\s*)(?:abbrev |unfoldable |pub )*([^\s(){}\[\]:;.,«»\"`]+)\s*:(?:\s(.*))?$")
NAMED = re.compile(r"^\s*(?:pub |abbrev |unfoldable )*(?:data|record|ruleset|module)\s+([^\s(){}\[\]:;.,«»\"`]+)")
own, plain = {}, set()
for p in files:
    goals = re.search(r"/proofs/[^/]+/(Proof|Answers|Invariants)\.antt$", p)
    for line in code(open(p, encoding="utf-8").read()).split("\n"):
        m = DEFINED.match(line)
        if m and m.group(2) not in ("_", "λ"):
            name, kind = m.group(2), m.group(3) or ""
            if goals and (MADE.match(name) or re.match(r"(tie|goal)\.", kind)):
                kept.add(name)
                continue
            own[name] = p
        m = NAMED.match(line)
        if m:
            own[m.group(1)] = p


def spelled(name):
    lead = re.match(r"^[+#]*", name).group(0)
    word = name[len(lead):]
    if word[:1].isupper() and "-" not in word:
        return name
    parts = word.split("-")
    done = []
    for part in parts:
        if part[:1].isupper() and len(parts) > 1:
            done.append(part)
            continue
        part = re.sub(r"([a-z0-9])([A-Z]+)$", lambda m: m.group(1) + "_" + m.group(2).lower(), part)
        part = re.sub(r"([a-z0-9])([A-Z])", lambda m: m.group(1) + "_" + m.group(2).lower(), part)
        done.append(part)
    return lead + "_".join(done)


new, taken = {}, collections.defaultdict(set)
everything = set(own) | kept
for name in sorted(own):
    if name in kept or name in library:
        continue
    to = CHOSEN.get(name, spelled(name))
    if to == name:
        continue
    taken[to].add(name)
for to, names in taken.items():
    # a definition of specs/ has the plain name before a lemma has it
    ranked = sorted(names, key=lambda n: ("/proofs/" in own[n], n))
    for name in ranked:
        goal = to
        while goal in everything or goal in functions:
            goal += "_lem"
        new[name] = goal
        everything.add(goal)

# an alias of what a function's contract reads is the function's name
dashed = {f.replace("_", "-"): f for f in functions}
dashed.update({f.replace("_", "-")[:1].upper() + f.replace("_", "-")[1:]: f for f in functions if "_" in f})


def of_text(text):
    def one(m):
        t = m.group(0)
        return new.get(t, t)
    return TOKEN.sub(one, text)


def aliases(text):
    found = {}
    def one(m):
        path, alias = m.group(1), m.group(2)
        to = dashed.get(alias, alias)
        if to == alias:
            to = spelled(alias) if "-" in alias and alias not in library else alias
        found[alias] = to
        return f"{path} as {to}"
    text = re.sub(r"^(use [^\s{]+) as ([^\s{}]+)$", one, text, flags=re.M)
    for alias, to in found.items():
        if alias != to:
            text = re.sub(r"(?<![^\s(){}\[\]:;,«»])" + re.escape(alias) + r"(?=\.[A-Za-z])", to, text)
    return text


for p in files:
    text = open(p, encoding="utf-8").read()
    lines = []
    for line in aliases(text).split("\n"):
        m = re.match(r"^(.*?)((?:^|\s)--(?:\s.*)?)$", line)
        lines.append(of_text(m.group(1)) + m.group(2) if m else of_text(line))
    done = "\n".join(lines)
    if done != text:
        open(p, "w", encoding="utf-8").write(done)

for p in sources:
    text = open(p, encoding="utf-8").read()
    done = "".join(of_text(part) if clause else part for clause, part in parted(text))
    if done != text:
        open(p, "w", encoding="utf-8").write(done)

if os.path.exists("docs/PORT-NAMES.txt"):
    with open("docs/PORT-NAMES.txt", encoding="utf-8") as f:
        for line in f.read().split("\n")[1:-1]:
            new.setdefault(*line.split(" -> "))
with open("docs/PORT-NAMES.txt", "w", encoding="utf-8") as f:
    f.write("old name -> new name, of definitions, lemmas and fields, by tools/respell.py\n")
    for name in sorted(new):
        f.write(f"{name} -> {new[name]}\n")
print(len(own), "own names,", len(new), "respelled;", sum(v.endswith("_lem") for v in new.values()), "end in _lem")
for name in sorted(new):
    if new[name].endswith("_lem"):
        print(name, new[name], own.get(name, "by an earlier run"))
