#!/usr/bin/env python3
"""Counts, in the sources of a tree, the places that docs/DESIGN-PASS.md speaks of.

usage: tools/count-places.py [TREE [POINT]]

With a point's number, its places are printed one by one, as file:line: text. Comments and the modules of tests count for nothing.
"""
import collections
import pathlib
import re
import sys

CRATES = "rooms whole assignment longest rents cents sheet houses files share check_sheet group trials".split()


def lines_of(path):
    """The lines of code of a file, numbered; nothing from a module of tests on, and no comment."""
    for number, line in enumerate(path.read_text().split("\n"), 1):
        if re.match(r"\s*mod tests \{", line):
            return
        code = re.sub(r"//.*", "", line)
        if code.strip() and not code.startswith("ghost use") and not code.strip().startswith("ghost use"):
            yield number, code.rstrip()


def is_clause(code):
    return re.match(r"\s*(requires|ensures|ghost|≡|\+\+|\(λ|rooms\.new)", code) is not None


def matching(pattern, clauses=False):
    find = re.compile(pattern)

    def places(path):
        return [(n, c.strip()) for n, c in lines_of(path) if is_clause(c) == clauses and find.search(c)]

    return places


def functions(path):
    """Each function's first line, its parameters and its clauses."""
    code = list(lines_of(path))
    text = "\n".join(c for _, c in code)
    starts = []
    at = 0
    for n, c in code:
        starts.append((at, n))
        at += len(c) + 1
    for m in re.finditer(r"\bfn (\w+)(<[^(]*>)?\(", text):
        depth, k = 1, m.end()
        while depth:
            depth += {"(": 1, ")": -1}.get(text[k], 0)
            k += 1
        params = [p for p in re.split(r",(?![^<(\[]*[>)\]])", text[m.end() : k - 1]) if p.strip() and "self" not in p]
        line = max(n for a, n in starts if a <= m.start())
        yield line, m.group(1), params


def long_lists(path):
    return [(n, f"{name}: {len(ps)} parameters") for n, name, ps in functions(path) if len(ps) > 4]


def repeated(tree, crate):
    """The facts that stand in three or more clauses of a crate, by name and text."""
    seen = collections.defaultdict(list)
    for path in sorted((tree / "crates" / crate / "src").glob("*.rt")):
        for n, c in lines_of(path):
            m = re.match(r"\s*requires \w* ?\{ (.*) \}$", c)
            if m:
                seen[m.group(1)].append((path, n))
    return [(path, n, fact) for fact, at in seen.items() if len(at) > 2 for path, n in at]


def indexing(path):
    """Loops over a range whose variable is an index in the body, of a slice or of what a method takes by place."""
    code = list(lines_of(path))
    found = []
    for at, (n, c) in enumerate(code):
        m = re.search(r"\bfor (\w+) in .*\.\.", c)
        if not m:
            continue
        depth, body = 0, []
        for _, line in code[at:]:
            depth += line.count("{") - line.count("}")
            body.append(line)
            if depth == 0:
                break
        if re.search(r"\[[^\]]*\b" + m.group(1) + r"\b[^\]]*\]", "\n".join(body[1:])) or "while" in c:
            found.append((n, c.strip()))
    return found


POINTS = {
    "1": [
        ("own enums", matching(r"^\s*(pub(\(super\))? )?enum \w")),
        ("a Result of bool, Option or Result", matching(r"Result<(bool|Option<|Result<)")),
        ("a number for none", matching(r"\b(k|person|short|wrong|circling|from|room|first_\w+\(.*\)) < n( \* n)? \{|\b(near|to) == n\b|== NOBODY|\b(near|to) = n;|^\s*n$|fn first_\w+.* -> usize")),
        ("a number for a kind", matching(r"Slice\(([0-9]|usize)\)|\[usize; 4\]|lent\[[0-9]\]|until\[[0-9k]\]|numbers: \[u64; 12|tally\.numbers\[|self\.numbers\[|PARTS\[")),
        ("a flag that picks a branch", matching(r"\b\w+: bool[,)]|, (true|false)[,)]")),
        ("words for a fault", matching(r"why: |wrong_at\(")),
    ],
    "2": [
        ("read, write and columns by type", matching(r"fn (read_u64|read_i64|write_u64|write_i64|byte_column|signed_column)\b")),
        ("sums by width", matching(r"fn (sum|difference|product|floor_div|wide_\w+)\b")),
        ("the first place of a fault", matching(r"fn first_(large|room|number|numbers|length|circle|way|ways|price)\b")),
        ("reading and telling", matching(r"fn (read_front|read_all|open_and_read|open_and_read_front|read_file|read_group|printed|written)\b")),
        ("the ends of programs", matching(r"fn (main|usage)\b")),
        ("counting an answer", matching(r"fn (count_refusal|try_sheet|is_text)\b")),
    ],
    "3": [
        ("loops over a range that index by it", indexing),
        ("all loops over a range, and while", matching(r"\bfor \w+ in .*\.\.|\bwhile\b|\bloop\b")),
    ],
    "4": [
        ("casts", matching(r"\bas (u8|u16|u32|u64|u128|i64|i128|usize)\b")),
        ("comparing and converting by hand", matching(r"fn (differ|wide_of|wide_at|bits_of|signed_of|name|bytes|is_space|number|place|fault)\b")),
        ("values written out", matching(r"^\s*\w+: 0,$")),
    ],
    "5": [
        ("more than four parameters", long_lists),
        ("a group's house spelled by its bytes", matching(r"house_of (group|self)\.now\.bytes\.now", clauses=True)),
    ],
    "6": [
        ("arrays as long as the most people", matching(r"\[(u8|u32|u64|i64|bool|usize); (MOST_PEOPLE|MOST)\]")),
        ("parallel lists", matching(r"(offer|left|distance|parent|sheets|lens?): &(mut )?\[|len: usize|sheet_len: usize")),
    ],
    "7": [
        ("a step picked by a value", matching(r"match (part|mode)|Part::|rows_too|replaces|mode\.as_str\(\) ==")),
    ],
}


def main():
    tree = pathlib.Path(sys.argv[1] if len(sys.argv) > 1 else ".")
    only = sys.argv[2] if len(sys.argv) > 2 else None
    for point, rows in POINTS.items():
        if only and point != only:
            continue
        for name, places in rows:
            found = []
            for crate in CRATES:
                for path in sorted((tree / "crates" / crate / "src").glob("*.rt")):
                    if path.name == "tests.rt":
                        continue
                    found += [(crate, path.name, n, c) for n, c in places(path)]
            by = collections.Counter(crate for crate, *_ in found)
            print(f"point {point}, {name}: {len(found)} ({', '.join(f'{c} {k}' for c, k in by.items())})")
            if only:
                for crate, file, n, c in found:
                    print(f"    crates/{crate}/src/{file}:{n}: {c}")
        if point == "5":
            again = [(crate, *r) for crate in CRATES for r in repeated(tree, crate)]
            facts = {(crate, fact) for crate, _, _, fact in again}
            print(f"point 5, facts that three or more functions require: {len(facts)}, in {len(again)} clauses")
            if only:
                for crate, path, n, fact in again:
                    print(f"    {path}:{n}: {fact}")
    if not only or only == "8":
        answers = [p for c in CRATES for p in (tree / "crates" / c / "proofs").rglob("Answers.antt")]
        goals = sum(len(re.findall(r"^pub \S+ : goal\.", p.read_text(), re.M)) for p in answers)
        lemmas = sum(len(re.findall(r"^(?:pub )?\S+ : ", p.read_text(), re.M)) for c in CRATES for p in (tree / "crates" / c / "proofs").glob("*.antt"))
        print(f"point 8, files of answers: {len(answers)}; answers: {goals}; lemmas: {lemmas}")


main()
