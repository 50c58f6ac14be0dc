#!/usr/bin/env python3
"""Counts the places in the proved crates that an older form of Rust or Rattle left behind, for docs/DESIGN-PASS.md.

usage: python3 tools/places.py [COMMIT] [--list]     at the top of the repository; without a commit, of the files as they stand

It reads src/ of the crates that crates.txt names. Each count is of a pattern, so it finds candidates: the page says what each is.
"""

import itertools
import os
import re
import subprocess
import sys
from difflib import SequenceMatcher

COMMIT = next((a for a in sys.argv[1:] if not a.startswith("-")), None)
LIST = "--list" in sys.argv


def read(path):
    if COMMIT:
        done = subprocess.run(["git", "show", f"{COMMIT}:{path}"], capture_output=True, text=True)
        return done.stdout if done.returncode == 0 else None
    return open(path).read() if os.path.exists(path) else None


def paths(under):
    if COMMIT:
        return subprocess.run(["git", "ls-tree", "-r", "--name-only", COMMIT, under], capture_output=True, text=True).stdout.split()
    return sorted(os.path.join(d, f) for d, _, fs in os.walk(under) if "/out" not in d for f in fs)


CRATES = [line.split(":")[0] for line in read("crates.txt").split("\n") if ":" in line]
SOURCES = {p: read(p) for c in CRATES for p in paths(f"crates/{c}/src") if p.endswith(".rt")}
# the tests of a file stand at its end, and those of charge_tests are nothing else
CODE = {p: t.split("#[cfg(test)]")[0] for p, t in SOURCES.items() if "charge_tests" not in p}


def lines(pattern):
    found = []
    for p, t in CODE.items():
        for n, line in enumerate(t.split("\n"), 1):
            if re.search(pattern, line) and not line.strip().startswith("//"):
                found.append(f"{p.replace('crates/', '')}:{n}: {line.strip()}")
    return found


# a function: its name, what is passed, its clauses and its body
FUNCTION = re.compile(
    r"(?m)^(?P<pad> *)(?:pub )?fn (?P<name>\w+)(?P<head>(?:<[^(]*>)?\([^{]*?)(?P<clauses>(?:\n *(?:requires|ensures)[^\n]*)*)\n?(?: *)\{(?P<body>(?:[^\n]*\}$|\n(?:(?P=pad) +[^\n]*\n|\n)*(?P=pad)\}))"
)


def functions():
    for p, t in CODE.items():
        for m in FUNCTION.finditer(t):
            yield p, m


def twins():
    made = []
    for p, m in functions():
        text = m["head"] + m["clauses"] + m["body"]
        words = re.findall(r"\w+|[^\w\s]", text)
        if len(words) >= 40:
            made.append((p, m["name"], words))
    found = []
    for (p, n, a), (q, o, b) in itertools.combinations(made, 2):
        if p.split("/")[1] != q.split("/")[1] or n != o:
            if SequenceMatcher(None, a, b, autojunk=False).ratio() >= 0.85:
                found.append(f"{p.replace('crates/', '')} {n}  ~  {q.replace('crates/', '')} {o}")
    return found


def facts():
    """The facts that three or more functions of one file require."""
    found = []
    for p in CODE:
        seen = {}
        for q, m in functions():
            if p == q:
                for c in re.findall(r"requires(?: \w+)? \{ (.*) \}", m["clauses"]):
                    c = re.sub(r"self\.(old|new|now)|(\w+)\.(old|now)", "it", c)
                    seen.setdefault(c, []).append(m["name"])
        found += [f"{p.replace('crates/', '')}: {c}  in {', '.join(names)}" for c, names in seen.items() if len(names) >= 3]
    return found


def together():
    """The parameters that three or more functions of one crate take together, but for s and t, the segment that a question names."""
    seen = {}
    for p, m in functions():
        passed = [x for x in re.findall(r"([a-z_]+): ", m["head"][m["head"].find("(") :].split("->")[0]) if x not in ("s", "t", "f")]
        for pair in itertools.combinations(sorted(set(passed)), 2):
            seen.setdefault((p.split("/")[1], pair), []).append(m["name"])
    return [f"{c}: {a}, {b}  in {', '.join(names)}" for (c, (a, b)), names in seen.items() if len(names) >= 3]


def proof_files(last):
    return [p.replace("crates/", "") for c in CRATES for p in paths(f"crates/{c}/proofs") if p.endswith(last)]


POINTS = [
    ("1 enums of our own", lines(r"^\s*(pub )?enum ")),
    ("1 a Result taken apart and wrapped again", lines(r"Ok\(\(\)\) => (Ok|capacity|\{\})|Err\((refusal|complaint|_)\) =>|let Ok\(.*\belse\b|Ok\(_\) => Ok")),
    ("1 a result that is a number and says nothing", lines(r"\) -> u8$")),
    ("1 a value or a result that is thrown away", lines(r"let _ = ")),
    ("2 pairs of functions of one shape", twins()),
    ("3 loops", lines(r"^\s*(for|while|loop)\b")),
    ("3 loops over the numbers of places", lines(r"^\s*for \w+ in [^{]*\.\.|^\s*while\b")),
    ("3 counters kept by hand in a loop", lines(r"\b(seen|i|n|k) \+= 1")),
    ("4 an order, a least, a range or a conversion written out", lines(r"<= \w+ && \w+ <|>= \w+ \|\| \w+ >|\w+ == 0 \|\| \w+ >|< \d+ \|\| \w+ >|if \w+\.(low|high) < |\bcost < |fn as_\w+|Refusal::\w+ => \d|1 <<|leading_zeros")),
    ("5 facts that three or more functions of a file require", facts()),
    ("5 parameters that three or more functions take together", together()),
    ("6 memory with a count beside it", lines(r"^\s*(pub )?(count|len|capacity): usize,")),
    ("6 slices kept in structs", lines(r"^\s*(pub )?\w+: &'a mut \[")),
    ("7 functions as values, dyn, step numbers", lines(r"\bdyn\b|\bfn\(|\bstep: |\bstage: ")),
    ("8 files of answers", proof_files("Answers.antt")),
    ("8 files of invariants", proof_files("Invariants.antt")),
    ("8 proofs that walk the code by hand", proof_files("Proof.antt")),
]

for name, found in POINTS:
    print(f"{len(found):4}  {name}")
    if LIST:
        for one in found:
            print("        " + one)
print(f"{sum(t.count(chr(10)) for t in CODE.values()):4}  lines of source, tests apart")
print(f"{sum(read(p).count(chr(10)) for c in CRATES for p in paths(f'crates/{c}/proofs')):4}  lines of proofs/")
