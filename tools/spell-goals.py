#!/usr/bin/env python3
"""Spells the names of goals and steps in proofs/F/ as today's checker makes them: what comes from the source keeps its underscores.

usage: tools/spell-goals.py CRATE..      at the top of the repository, after tools/spell-names.py
"""

import os
import re
import sys

WORD = re.compile(r"(?<![A-Za-z0-9_'-])[A-Za-z_][A-Za-z0-9_']*(?:-[A-Za-z0-9_']+)+(?![A-Za-z0-9_'-])")
CHECKERS = {"overflow_add", "overflow_sub", "overflow_mul", "overflow_cast", "overflow_step", "overflow_shl", "overflow_shr", "invariant_of", "slice_bounds",
            "type_inv", "in_ok", "in_err", "in_default", "element_fits", "nonzero_div", "nonzero_rem", "offset_bounds"}


def read(path):
    with open(path, encoding="utf-8") as f:
        return f.read()


def walk(top, ending):
    for folder, dirs, names in os.walk(top):
        dirs[:] = sorted(d for d in dirs if d != "out")
        for name in sorted(names):
            if name.endswith(ending):
                yield os.path.join(folder, name)


def joined(token, known):
    parts, out, at = token.split("-"), [], 0
    while at < len(parts):
        for end in range(len(parts), at, -1):
            name = "_".join(parts[at:end])
            if end == at + 1 or name in known:
                out.append(name)
                at = end
                break
    return "-".join(out)


def main():
    for crate in sys.argv[1:]:
        top = os.path.join("crates", crate)
        known = set(CHECKERS)
        for path in walk(os.path.join(top, "src"), ".rt"):
            known |= {w for w in re.findall(r"[A-Za-z_][A-Za-z0-9_]*", read(path)) if "_" in w}
        for path in walk(os.path.join(top, "proofs"), ".antt"):
            if os.path.dirname(path) == os.path.join(top, "proofs"):
                continue
            old, kept = read(path), set()
            for line in old.splitlines():
                if line.startswith("use ") and ".Goals" not in line and ".Given" not in line:
                    kept |= set(WORD.findall(line))
            new = "\n".join(line if line.startswith("use ") and ".Goals" not in line else WORD.sub(lambda m: m[0] if m[0] in kept else joined(m[0], known), line)
                            for line in old.split("\n"))
            if new != old:
                with open(path, "w", encoding="utf-8") as f:
                    f.write(new)


main()
