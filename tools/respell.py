#!/usr/bin/env python3
"""Turns the repository's own names in specs/ and proofs/ to today's spelling.

usage: python3 tools/respell.py [--list]       at the top, once, after the kit's port.py

A type, a record and a fact are written in upper camel case, every other definition, lemma, field and constructor in
snake case. Names that the library or the checker makes keep theirs. The names are found where they are defined below
crates/*/specs and crates/*/proofs, and are turned there, in the contracts of src/, and between backticks in the pages.
With --list nothing is written: the names are printed, and those that fall together with another.
"""

import collections
import os
import re
import sys

KEYWORDS = r"(?:(?:pub|abbrev|unfoldable|data|record|mutual|where|private)\s+)*"
NAME = r"([^\s(){}\[\].;,:@\"]+)"
DEFINED = re.compile(r"^\s*(?:\|\s*)?(" + KEYWORDS + r")" + NAME + r"((?:\s+[A-Za-z][\w'-]*|\s*[({][^:]*:[^)}]*[)}])*)\s*:(?:\s|$)")
LET = re.compile(r"\blet\s+" + NAME + r"(?:\s+[^=:]*)?\s*[:=]")
ALIAS = re.compile(r"[{,]\s*[^\s{},]+ as ([A-Za-z][\w'-]*)")
FIELD = re.compile(r"^\s+pub\s+" + NAME + r"\s*:(?:\s|$)")
TOKEN = re.compile(r"[^\s(){}\[\].;,@\"`]+")
DASHED = re.compile(r"[A-Za-z][A-Za-z0-9_']*(?:-[A-Za-z0-9_']+)+")


def files(top, endings):
    for folder, folders, names in os.walk(top):
        folders[:] = sorted(f for f in folders if f not in ("out", "target", ".git"))
        for name in sorted(names):
            if name.endswith(endings):
                yield os.path.join(folder, name)


def read(path):
    with open(path, encoding="utf-8") as f:
        return f.read()


def of_a_function(path):
    """Whether the file belongs to the proof of one function, where the checker's names stand too."""
    parts = path.split(os.sep)
    return "proofs" in parts and os.path.basename(path) in ("Answers.antt", "Invariants.antt", "Proof.antt")


def own_names(top):
    """The dashed names that the repository defines, and those among them that are fields of records."""
    own, fields, made = set(), set(), set()
    for path in files(top, (".antt",)):
        for line in read(path).split("\n"):
            if line.lstrip().startswith("--"):
                continue
            found = DEFINED.match(line)
            if found:
                names = [found.group(2)] + [w for w in found.group(3).split() if DASHED.fullmatch(w)]
                of_the_check = of_a_function(path) and re.search(r":\s*goal\.", line)
                for name in names:
                    (made if of_the_check else own).add(name)
            field = FIELD.match(line)
            if field:
                fields.add(field.group(1))
            for found in LET.finditer(line):
                own.add(found.group(1))
    for path in files(top, (".antt", ".rt")):
        for line in read(path).split("\n"):
            if re.match(r"\s*(?:ghost )?use ", line):
                own.update(ALIAS.findall(line))
    own = {n for n in own if DASHED.fullmatch(n)}
    return own, fields & own, made & own


def turned(name):
    if name[0].isupper():
        return "".join(w[:1].upper() + w[1:] for w in name.split("-"))
    return name.replace("-", "_").lower() if name.isascii() and not re.search("[A-Z]", name) else name.replace("-", "_")


def turn_text(text, names, fields, function):
    """The text with its names turned. After a dot only a field is one of ours, but for a module's path."""

    def word(found):
        token = found.group(0)
        if token not in names:
            return token
        before = text[found.start() - 1 : found.start()]
        if before == "." and token not in fields and function:
            return token
        return turned(token)

    return TOKEN.sub(word, text)


def turn_contracts(text, names, fields):
    """Comments and strings of a source file stay."""
    lines = []
    for line in text.split("\n"):
        if line.lstrip().startswith("//"):
            lines.append(line)
            continue
        code, comment = line, ""
        if " // " in line and line.split(" // ")[0].count('"') % 2 == 0:
            code, comment = line.split(" // ", 1)
            comment = " // " + comment
        pieces = re.split(r'("(?:[^"\\]|\\.)*")', code)
        pieces[::2] = [turn_text(p, names, fields, False) for p in pieces[::2]]
        lines.append("".join(pieces) + comment)
    return "\n".join(lines)


def turn_page(text, names, fields):
    return re.sub(r"`[^`\n]+`", lambda m: "`" + turn_text(m.group(0)[1:-1], names, fields, False) + "`", text)


def falls_together(names):
    """Turned names that stand for two names, or that a file already has for something else."""
    said = []
    by_new = collections.defaultdict(set)
    for n in names:
        by_new[turned(n)].add(n)
    for new, olds in sorted(by_new.items()):
        if len(olds) > 1:
            said.append(f"{' and '.join(sorted(olds))} both become {new}")
    for path in files("crates", (".antt", ".rt")):
        words = set(re.findall(r"[A-Za-z_][\w']*", re.sub(r"(?m)^\s*(?://|--).*$", "", read(path))))
        dashed = set(DASHED.findall(read(path)))
        for n in sorted(dashed & names):
            if turned(n) in words:
                said.append(f"{path}: {n} becomes {turned(n)}, which stands there too")
    return said


def main():
    names, fields, made = own_names("crates")
    if "--list" in sys.argv:
        for n in sorted(names):
            print(n, turned(n), "field" if n in fields else "", "made too" if n in made else "")
        for line in falls_together(names):
            print("look:", line)
        return
    for path in files("crates", (".antt", ".rt", ".edit")):
        text = read(path)
        new = turn_text(text, names, fields, of_a_function(path)) if path.endswith(".antt") else turn_contracts(text, names, fields)
        if new != text:
            with open(path, "w", encoding="utf-8") as f:
                f.write(new)
    for path in ["README.md"] + list(files("docs", (".md",))):
        text = read(path)
        new = turn_page(text, names, fields)
        if new != text:
            with open(path, "w", encoding="utf-8") as f:
                f.write(new)


main()
