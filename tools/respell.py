#!/usr/bin/env python3
"""Turns the repository's own names in definitions, lemmas and proofs to today's spelling: words in snake case, facts and types
in camel case, and a dash only where a lemma's name joins the names of two functions.

usage: python3 tools/respell.py [--dry]      at the top of the repository, once, over files as the kit's port.py leaves them

Functions and strings of src/, and names that the checker makes, stay as they are. It prints each name that it turned, and
stops without writing anything where two names would fall together.
"""

import glob
import os
import re
import sys

WORD = re.compile(r"(?<![A-Za-z0-9_'\u25cc-])[A-Za-z_][A-Za-z0-9_']*(?:-[A-Za-z0-9_']+)*(?![A-Za-z0-9_'-])")
DEFINED = re.compile(r"(?m)^[ \t]*(?:(?:abbrev|pub|unfoldable|data|record|ruleset|module|axiom)\s+)*([A-Za-z_][A-Za-z0-9_'-]*)((?:\s+[A-Za-z_][A-Za-z0-9_'-]*)*)\s*:(?!=)(.*)")
MADE = re.compile(r"^(invariant|decreases|loop|returns|overflow|bounds|offset|nonzero|in|then|else|if|recall|new|slice_bounds)-|-requires(-\d+)?$")
# names that the checker makes in the older spelling, though not in the forms above
OTHERS = {"new-spec", "recall-spec"}
# our own names that look like made ones
OURS = {"in-getD", "in-kept-here", "in-kept-later", "in-often", "in-rank", "in-segment", "new-span", "new-span-front", "new-span-is", "new-span-suc"}
# functions of the library that lemmas are named after
LIBRARY = set("length append take drop push map sum get_or set suc zero max min int_min nat_abs int_le neg".split())
CAMEL = {"leZ": "int_le", "minZ": "int_min", "natAbs": "nat_abs", "getD": "get_or", "sumZ": "int_sum"}
# definitions of what a function of the same crate answers, which has that very name
ANSWERS = {"in-segment", "joined-cells", "layer-of", "squared-distance"}
# names that also name a function or a crate elsewhere, and cannot be mistaken for it
APART = {"fee_of", "fixed_levels", "level_search", "levels_of", "symbol_of", "taken_up", "total_line"}
STRING = re.compile(r'"(?:[^"\\]|\\.)*"')


def sources():
    for ending in ("antt", "rt"):
        yield from sorted(glob.glob(f"crates/*/**/*.{ending}", recursive=True))


def read(path):
    with open(path, encoding="utf-8") as f:
        return f.read()


def is_made(name):
    return name not in OURS and (name in OTHERS or bool(MADE.search(name)))


def defined():
    """Each name of ours that wants turning, with whether it stands in specs/."""
    names = {}
    for path in sources():
        if not path.endswith(".antt"):
            continue
        for m in DEFINED.finditer(read(path)):
            if re.match(r"\s*(goal|given|need|needs)\.", m.group(3)):
                continue
            for name in [m.group(1)] + m.group(2).split():
                if ("-" in name or name in CAMEL) and not is_made(name):
                    names[name] = names.get(name, False) or "/specs/" in path
    return names


def parts_of(name):
    return [CAMEL.get(p, p) for p in name.split("-")]


def plain(name):
    """The name in snake case, or in camel case where it begins with a capital."""
    parts = parts_of(name)
    if name[0].isupper():
        return "".join(p[0].upper() + p[1:] for p in parts)
    return "_".join(parts) + ("_lem" if name in ANSWERS else "")


def joined(name, functions):
    """The name of a lemma, with a dash where it joins the names of two functions."""
    parts = parts_of(name)
    for i in range(1, len(parts)):
        left, right = "_".join(parts[:i]), "_".join(parts[i:])
        if left in functions and right in functions:
            return left + "-" + right
    return plain(name)


def turned():
    names = defined()
    functions = LIBRARY | {plain(n) for n, in_specs in names.items() if in_specs}
    for path in sources():
        if path.endswith(".antt") and "/specs/" in path:
            for m in DEFINED.finditer(read(path)):
                if "-" not in m.group(1) and m.group(1)[0].islower():
                    functions.add(m.group(1))
    return {n: (plain(n) if in_specs or n[0].isupper() else joined(n, functions)) for n, in_specs in names.items()}


def outside_strings(text, turn):
    out, at = [], 0
    for m in STRING.finditer(text):
        out += [turn(text[at:m.start()]), m.group(0)]
        at = m.end()
    return "".join(out) + turn(text[at:])


def main():
    new = turned()
    here = set()
    for path in sources():
        here |= set(WORD.findall(read(path)))
    meet = {}
    for n, m in new.items():
        meet.setdefault(m, []).append(n)
    falls = [(m, ns) for m, ns in sorted(meet.items()) if len(ns) > 1 or (m in here and m not in new and m not in APART)]
    for m, ns in falls:
        print("falls together:", m, ns)
    for n in sorted(new):
        if new[n] != n:
            print(n, "->", new[n])
    if "--dry" in sys.argv:
        return 0
    if falls:
        return 1

    def turn(text):
        return WORD.sub(lambda m: new.get(m.group(0), m.group(0)), text)

    for path in sources():
        text = read(path)
        after = outside_strings(text, turn) if path.endswith(".rt") else turn(text)
        if after != text:
            with open(path, "w", encoding="utf-8") as f:
                f.write(after)
    for path in ["README.md", *sorted(glob.glob("docs/*.md"))]:
        text = read(path)
        after = re.sub(r"`[^`\n]+`", lambda m: turn(m.group(0)), text)
        if after != text:
            with open(path, "w", encoding="utf-8") as f:
                f.write(after)
    return 0


if __name__ == "__main__":
    sys.exit(main())
