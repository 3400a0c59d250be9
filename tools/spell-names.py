#!/usr/bin/env python3
"""Gives the repository's own definitions and lemmas today's spelling: types and statements in camel case, all else in snake case.

usage: tools/spell-names.py      at the top of the repository, once, right after the kit's port.py and before any edit by hand

Own names are those with a dash that a signature, a field, a let or a binder of specs/ or proofs/ declares. Names of std keep theirs, and so do the
names that the checker makes for goals and steps. Functions of src/, strings, inputs and outputs are not touched; of comments and pages only what stands
between backticks, or is spelled as a statement, is.
"""

import os
import re

WORD = r"[A-Za-z_][A-Za-z0-9_']*(?:-[A-Za-z0-9_']+)+"
TOKEN = re.compile(r"(?<![A-Za-z0-9_'-])" + WORD + r"(?![A-Za-z0-9_'-])")
OWN = r"Rattle\.(?:rooms|whole|assignment|longest|rents|cents|sheet|houses)\."
DECLARED = re.compile(r"\s*(?:where )?(?:unfoldable |abbrev )?(?:pub )?(?:record |data )?(" + WORD + r")\s*(?:\(.*)?:")
BOUND = re.compile(r"(?:let |λ |λ \(|[({])(" + WORD + r")(?= (?::|=|[a-zA-Z_' ]+:)|\. )")


def files(ending):
    for folder, dirs, names in os.walk("crates"):
        dirs[:] = sorted(d for d in dirs if d != "out")
        for name in sorted(names):
            if name.endswith(ending):
                yield os.path.join(folder, name)


def read(path):
    with open(path, encoding="utf-8") as f:
        return f.read()


def parted(line, mark):
    """The code and the comment of a line."""
    at = line.find(mark)
    return (line, "") if at < 0 else (line[:at], line[at:])


def spelled(name):
    parts = name.split("-")
    if name[0].isupper():
        return "".join(p[0].upper() + p[1:] for p in parts)
    return "_".join(parts)


def declared():
    own, foreign = set(), set()
    for path in files(".antt"):
        for line in read(path).splitlines():
            code = parted(line, "--")[0]
            imported = re.match(r"use (?!" + OWN + r")\S+\.\{(.*)\}", code)
            if imported:
                foreign |= set(TOKEN.findall(imported[1]))
                continue
            if "goal." in code and not code.startswith(" "):
                continue
            m = DECLARED.match(code)
            if m:
                own.add(m[1])
            own |= set(BOUND.findall(code))
    return own - foreign


def in_prose(names, text):
    text = re.sub(r"`[^`\n]+`", lambda m: TOKEN.sub(lambda t: names.get(t[0], t[0]), m[0]), text)
    return TOKEN.sub(lambda t: names.get(t[0], t[0]) if t[0][0].isupper() and t[0] in names else t[0], text)


def in_code(names, line, mark):
    code, comment = parted(line, mark)
    strings = re.split(r'("(?:[^"\\]|\\.)*")', code) if mark == "//" else [code]
    code = "".join(s if s.startswith('"') else TOKEN.sub(lambda t: names.get(t[0], t[0]), s) for s in strings)
    return code + in_prose(names, comment)


def main():
    names = {name: spelled(name) for name in declared()}
    for name, new in sorted(names.items()):
        others = [n for n in names if n != name and names[n] == new]
        if others:
            print(f"falls together: {name}, {', '.join(others)}: {new}")
    for ending, mark in ((".antt", "--"), (".rt", "//")):
        for path in files(ending):
            old = read(path)
            for name in set(TOKEN.findall(old)) & set(names):
                if re.search(r"(?<![A-Za-z0-9_'.-])" + re.escape(names[name]) + r"(?![A-Za-z0-9_'-])", old):
                    print(f"look: {path}: {names[name]} was there, and {name} is called so now")
            new = "\n".join(in_code(names, line, mark) for line in old.split("\n"))
            if new != old:
                with open(path, "w", encoding="utf-8") as f:
                    f.write(new)
    for path in ["README.md"] + sorted("docs/" + f for f in os.listdir("docs") if f.endswith(".md")):
        old = read(path)
        new = in_prose(names, old)
        if new != old:
            with open(path, "w", encoding="utf-8") as f:
                f.write(new)
    print(f"{len(names)} names")


main()
