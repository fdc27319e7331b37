#!/usr/bin/env python3
"""Spells the repository's own definitions and lemmas in snake case, as today's Rattle spells words.

usage: python3 tools/respell.py      at the top of the repository, once, after the kit's port.py

Names that the antt files of specs/ and proofs/ declare turn: definitions, lemmas, fields and variables. Types, modules,
functions of src/, strings, inputs and outputs keep their spelling, and so does a name in a file that takes it from a
library. In comments and pages a name turns where it is in camel case or stands in backticks.
"""

import collections
import os
import re
import sys

NAME = r"[^\s(){}\[\].;,@\"«»`:]+"
TOKEN = re.compile(NAME)
DECLARED = re.compile(r"^\s*(?:pub\s+)?(?:(?:abbrev|unfoldable)\s+)?(?:pub\s+)?(" + NAME + r")(?:\s+\{[^{}]*\})*\s+:\s")
TURNED = re.compile(r"[a-z][A-Za-z0-9_'₀-₉-]*")
USE = re.compile(r"(?:^|\s)use\s+([^\s;{]+)\.\{([^}]*)\}")
# Where a law would fall together with the definition that it speaks of, or with a word of the library, the law ends so.
LAW = "_law"
WORDS = {"bit_and", "bit_or", "bit_xor"}


def snake(name):
    name = name.replace("getD", "get_or")
    name = re.sub(r"(?<=[a-z0-9'])([A-Z])", lambda m: "_" + m[1].lower(), name)
    return name.replace("-", "_")


def below(root, endings):
    for folder, dirs, files in os.walk(root):
        dirs[:] = sorted(d for d in dirs if d not in ("out", ".git", "target", "__pycache__"))
        for f in sorted(files):
            if f.endswith(endings):
                yield os.path.join(folder, f)


def read(path):
    with open(path, encoding="utf-8") as f:
        return f.read()


def own_names(root):
    """Each name that the files of specs/ and proofs/ declare, with its new spelling where that differs."""
    found = set()
    for path in below(os.path.join(root, "crates"), ".antt"):
        if os.path.basename(path) == "Proof.antt":
            continue
        for line in read(path).split("\n"):
            m = DECLARED.match(line)
            if m and not line.lstrip().startswith("--"):
                found.add(m[1])
            for more in re.findall(r"\{(\w[\w-]*) :", line):
                found.add(more)
    words = {n for n in found if TURNED.fullmatch(n)}
    table = {n: snake(n) for n in words}
    camel = {table[n] for n in words if re.search(r"[a-z][A-Z]", n) and "-" not in n}
    for n in words:
        if table[n] in WORDS or (table[n] in camel or table[n] in words and table[n] != n) and "-" in n:
            table[n] += LAW
        elif table[n] == n and n in camel:
            table[n] += LAW
    return {a: b for a, b in table.items() if a != b}


def from_libraries(text, own):
    """The names that a file takes from a library."""
    names = set()
    for path, items in USE.findall(text):
        steps = path.split(".")
        if steps[0] == "Rattle" and len(steps) > 1 and steps[1] in own:
            continue
        names |= set(TOKEN.findall(items))
    return names


def turned(text, table):
    def one(m):
        name = m[0]
        # a name that is in snake case already may also be a function of src/, whose folder a path names
        if name.islower() and "-" not in name and (text[: m.start()].endswith(".") or text[m.end() :].startswith(".")):
            return name
        return table.get(name, name)

    return TOKEN.sub(one, text)


def comment(text, table):
    """A comment: names in camel case, and all names in backticks."""
    camel = {a: b for a, b in table.items() if re.search(r"[a-z][A-Z]", a)}
    parts = re.split(r"(`[^`]*`)", text)
    return "".join(turned(p, table if p.startswith("`") else camel) for p in parts)


def by_lines(text, table, mark):
    out = []
    for line in text.split("\n"):
        at = line.find(mark)
        if at < 0 or '"' in line[:at]:
            out.append(code(line, table))
        else:
            out.append(code(line[:at], table) + comment(line[at:], table))
    return "\n".join(out)


def code(line, table):
    parts = re.split(r'("(?:[^"\\]|\\.)*")', line)
    return "".join(p if p.startswith('"') else turned(p, table) for p in parts)


def main():
    root = os.getcwd()
    own = set(os.listdir(os.path.join(root, "crates")))
    table = own_names(root)
    clashes = collections.defaultdict(set)
    for a, b in table.items():
        clashes[b].add(a)
    bad = 0
    for b, all_a in sorted(clashes.items()):
        if len(all_a) > 1:
            print(f"together: {b}: {sorted(all_a)}")
            bad += 1
    changes = {}
    for path in list(below(os.path.join(root, "crates"), (".antt", ".rt", ".edit"))):
        text = read(path)
        taken = from_libraries(text, own)
        here = {a: b for a, b in table.items() if a not in taken}
        if not path.endswith(".antt"):
            here = {a: b for a, b in here.items() if a != a.lower() or "-" in a}
        words = set(TOKEN.findall(text))
        for a in sorted(words & set(here)):
            if here[a] in words:
                print(f"meets: {os.path.relpath(path, root)}: {a} -> {here[a]}")
                bad += 1
        mark = "--" if path.endswith(".antt") else "//"
        if path.endswith(".edit"):
            mark = "\0"
        new = by_lines(text, here, mark)
        if new != text:
            changes[path] = new
    if "--check" in sys.argv:
        print(len(table), "names,", len(changes), "files,", bad, "to look at")
        return
    for path, new in changes.items():
        with open(path, "w", encoding="utf-8") as f:
            f.write(new)
    pages = {a: b for a, b in table.items() if a != a.lower() or "-" in a}
    for path in below(root, ".md"):
        text = read(path)
        new = "\n".join(comment(line, pages) for line in text.split("\n"))
        if new != text:
            with open(path, "w", encoding="utf-8") as f:
                f.write(new)
    print(len(table), "names turned in", len(changes), "files;", bad, "to look at")


if __name__ == "__main__":
    main()
