#!/usr/bin/env python3
"""Brings the repository's own definitions and lemmas to one spelling: words in snake case, facts and types in camel case.

usage: python3 tools/respell.py [--list]     at the top of the repository

A name with a dash that a file of specs/ or proofs/ defines is written with underscores, and in camel case where it begins with a capital.
Names that the check makes (goals, steps) and names of functions, strings and inputs stay. It was run once, after the kit's own scripts.
"""
import os
import re
import sys

NAME = r"[A-Za-z_][\w'?!]*(?:-[\w'?!]+)+"
DEFINED = re.compile(r"^\s*(?:abbrev\s+|unfoldable\s+)?(?:pub\s+)?(?:record\s+|data\s+|module\s+)?(" + NAME + r")((?:\s+[\({].*?)?)\s*:", re.M)
RECORD = re.compile(r"^\s*(?:pub\s+)?(?:record|data|module)\s+(" + NAME + r")", re.M)
MADE = re.compile(r"^\s*(?:abbrev\s+)?(?:pub\s+)?(" + NAME + r")\s*:\s*(?:goal|need|given|here|as)\.", re.M)
TOKEN = re.compile(r"«" + NAME + r"»|(?<![\w'?!-])" + NAME)
# names that would fall together with another
SPECIAL = {"Text-length": "TextHasLength", "Is-key": "IsKeyAt", "Is-image": "IsImageAt"}
WORDS = {"data", "record", "deriving", "module", "where", "use", "mod", "pub", "package", "open", "as", "unfoldable", "abbrev", "axiom", "unfold",
         "unfolding", "ruleset", "mutual", "infix", "infixl", "infixr", "elim", "let", "in", "do", "Type", "coe", "fcoe", "tcoe", "hcom", "com"}


def files(kinds):
    for folder, dirs, names in os.walk("crates"):
        dirs[:] = sorted(d for d in dirs if d != "out")
        for n in sorted(names):
            if n.endswith(kinds):
                yield os.path.join(folder, n)


def spelled(name):
    if name in SPECIAL:
        return SPECIAL[name]
    if name[0].isupper():
        first, *rest = name.split("-")
        return first + "".join(p[0].upper() + p[1:] for p in rest)
    return name.replace("-", "_")


def own():
    names = {}
    for path in files((".antt",)):
        text = open(path, encoding="utf-8").read()
        made = set(MADE.findall(text))
        for m in list(DEFINED.finditer(text)) + list(RECORD.finditer(text)):
            if m.group(1) not in made:
                names.setdefault(m.group(1), set()).add(path)
    for path in files((".antt", ".rt")):
        for name in re.findall(r"\bas «?(" + NAME + ")", open(path, encoding="utf-8").read()):
            names.setdefault(name, set()).add(path)
    return names


def parts(text):
    """Code and comments, without string literals: pairs of a piece and whether it may be respelled."""
    at = 0
    for m in re.finditer(r"\"(?:[^\"\\]|\\.)*\"", text):
        yield text[at:m.start()], True
        yield m.group(0), False
        at = m.end()
    yield text[at:], True


def main():
    names = own()
    table = {n: spelled(n) for n in names}
    if "--list" in sys.argv:
        for n in sorted(table):
            print(n, table[n], len(names[n]), min(names[n]))
        return
    changed = 0
    for path in files((".antt", ".rt")):
        text = open(path, encoding="utf-8").read()
        made = set(MADE.findall(text)) if path.endswith(".antt") else set()

        def turn(m):
            word = m.group(0)
            bare = word.strip("«»")
            if bare not in table or bare in made:
                return word
            new = table[bare]
            return "«" + new + "»" if new in WORDS else new

        out = "".join(TOKEN.sub(turn, piece) if may else piece for piece, may in parts(text)) if path.endswith(".rt") else TOKEN.sub(turn, text)
        if path.endswith(".rt"):
            out = re.sub(r"«([a-z_]\w*)»", lambda m: m.group(0) if m.group(1) in WORDS else m.group(1), out)
        if out != text:
            open(path, "w", encoding="utf-8").write(out)
            changed += 1
    print(changed, "files")


main()
