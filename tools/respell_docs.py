#!/usr/bin/env python3
"""respell_docs.py: brings the names of definitions and lemmas in code spans of the pages to today's spelling, once.

usage: tools/respell_docs.py OLD NEW PAGE..    OLD and NEW are commits that have the same definitions in the same order, in either spelling
"""
import re
import subprocess
import sys

TOKEN = re.compile(r"[^\s(){}\[\]:;.,«»\"`#/!~→]+")
DEFINED = re.compile(r"^\s*(?:abbrev |unfoldable |pub )*(?:(?:record|data|module|ruleset) ([^\s(){}\[\]:;.,«»\"`]+)|([^\s(){}\[\]:;.,«»\"`]+) *:(?:\s|$))")


def git(*words):
    return subprocess.run(["git", *words], capture_output=True, text=True, check=True).stdout


def defined(text):
    names = []
    for line in text.split("\n"):
        m = DEFINED.match(re.sub(r"(^|\s)--(\s.*)?$", "", line))
        if m:
            names.append(m.group(1) or m.group(2))
    return names


old, new, pages = sys.argv[1], sys.argv[2], sys.argv[3:]
names = {}
there = set(git("ls-tree", "-r", "--name-only", new, "crates").split("\n"))
for path in git("ls-tree", "-r", "--name-only", old, "crates").split("\n"):
    if path.endswith(".antt") and path in there:
        for a, b in zip(defined(git("show", f"{old}:{path}")), defined(git("show", f"{new}:{path}")), strict=True):
            names[a] = b
changed = 0
for page in pages:
    with open(page, encoding="utf-8") as f:
        text = f.read()

    def span(m):
        def one(t):
            name = t.group(0)
            return names[name] if re.search(r"-|[a-z0-9][A-Z]|^.$", name) and name in names else name
        return TOKEN.sub(one, m.group(0))

    done = re.sub(r"`[^`\n]+`", span, text)
    if done != text:
        changed += 1
        with open(page, "w", encoding="utf-8") as f:
            f.write(done)
print(len(names), "names,", changed, "pages changed")
