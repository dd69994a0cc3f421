#!/usr/bin/env python3
"""Brings the names of this repository's own definitions and lemmas to snake case, after the kit's port.py has run.

usage: tools/respell.py [ROOT]      ROOT: the top of a checkout (default: the one that this file stands in)

It goes over crates/*/src (the clauses; functions of the code keep their names, and none of them is written in the old spelling),
crates/*/specs, crates/*/proofs and crates/*/must-fail, README.md and docs/. A name is taken if a file of specs/ or proofs/
declares it and it begins with a small letter and has a capital inside. In edits it also writes what port.py writes elsewhere:
tight projections, the library's new words. It stops if two names would fall together.
"""
import glob
import os
import re
import sys

ROOT = sys.argv[1] if len(sys.argv) > 1 else os.path.join(os.path.dirname(os.path.abspath(__file__)), "..")
TOKEN = re.compile(r"[^\s(){}.,;:\[\]⌜⌝@`\"*]+")
DECLARED = re.compile(r"\s*(?:(?:abbrev|unfoldable|pub|data|record)\s+)*([^\s(){}:]+)(?:\s+\{[^}]*\})*(?:\s+\([^)]*\))*\s*:(?!=)\s")
# A bound variable that has a capital too, and the two names that hold an older name of the library.
MORE = {"queuesOf": "queues_of", "getD-each": "get_or-each"}
# Two lemmas that port.py gave the name which a definition now takes; they get their hyphen back, in these files.
LEMMAS = {
    "goes_on": ("goes-on", ("desk/proofs/Going.antt", "desk/proofs/run_part/Proof.antt")),
    "read_back": ("read-back", ("listing/proofs/Back.antt",)),
}
# What port.py writes in sources, for edits, which it leaves alone.
IN_EDITS = [
    (re.compile(r"\((\w+) \.(\w+) \.(\w+)\)"), r"\1.\2.\3"),
    (re.compile(r"\((\w+) \.(\w+)\)"), r"\1.\2"),
    (re.compile(r"(?<=[\w'′]) \.(?=[a-z0-9])"), "."),
    (re.compile(r"now \((\w+) \.entry\)|\(now \((\w+) \.entry\)\)"), lambda m: (m.group(1) or m.group(2)) + ".old"),
    (re.compile(r"\(now (\w+)\.entry\)|now (\w+)\.entry"), lambda m: (m.group(1) or m.group(2)) + ".now"),
    (re.compile(r"\(now (\w+)\.exit\)|now (\w+)\.exit"), lambda m: (m.group(1) or m.group(2)) + ".new"),
    (re.compile(r"\bgetD\b"), "get_or"),
    (re.compile(r"′"), "'"),
    (re.compile(r"\bλ r\. ⌜ (.*) ⌝"), r"\1"),
]


def snake(name):
    return re.sub(r"(?<=[a-z0-9])([A-Z])", lambda m: "_" + m.group(1).lower(), name)


def files(pattern):
    return sorted(f for f in glob.glob(os.path.join(ROOT, "crates", pattern), recursive=True) if "/out/" not in f)


def text(path):
    with open(path, encoding="utf-8") as f:
        return f.read()


def main():
    for name, (to, places) in LEMMAS.items():
        for f in files("*/proofs/**/*.antt"):
            if f.endswith(places):
                new = re.sub(r"(?<![\w.'-])%s(?![\w.'-])" % name, to, text(f))
                with open(f, "w", encoding="utf-8") as out:
                    out.write(new)
    laws = files("*/specs/**/*.antt") + files("*/proofs/**/*.antt")
    sources = files("*/src/**/*.rt")
    edits = files("*/must-fail/*.edit")
    declared, names = set(), {}
    for f in laws:
        for line in text(f).splitlines():
            m = DECLARED.match(line)
            if m:
                declared.add(m.group(1))
    for name in declared:
        if name[0].islower() and re.search(r"[a-z0-9][A-Z]", name):
            names[name] = snake(name)
    names.update(MORE)
    if len(set(names.values())) != len(names) or declared & set(names.values()):
        print("names fall together:", sorted(declared & set(names.values())))
        return 1

    def respelt(t, late):
        """late: a text that port.py left alone, so that names which it turned elsewhere are turned here."""

        def one(m):
            w = m.group(0)
            if late and w not in names and w[0].islower() and snake(w) in declared:
                return snake(w)
            return names.get(w, w)

        return TOKEN.sub(one, t)

    pages = [os.path.join(ROOT, "README.md")] + sorted(glob.glob(os.path.join(ROOT, "docs", "*.md")))
    for f in laws + sources + edits + pages:
        if not os.path.exists(f) or os.path.basename(f) in ("PORT.md", "CHANGES.md"):
            continue
        old = text(f)
        new = old
        if f.endswith(".edit"):
            for pattern, by in IN_EDITS:
                new = pattern.sub(by, new)
        new = respelt(new, f.endswith((".edit", ".md")))
        if new != old:
            with open(f, "w", encoding="utf-8") as out:
                out.write(new)
    print(f"{len(names)} names")
    return 0


if __name__ == "__main__":
    raise SystemExit(main())
