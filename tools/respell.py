#!/usr/bin/env python3
"""Brings the repository's own names in specs/, in proofs/ and in clauses to one spelling: words in snake case, a prime as an apostrophe.

usage: python3 tools/respell.py [--dry] [--names]     at the top of the repository, once, after port.py; --names lists each name, old and new

Types and modules keep upper camel case. Names that come from a library, from the sources or from the check (the goals and steps of a proof) stay.
It goes by text: what it changes and which names fall together is printed.
"""

import collections
import glob
import re
import sys

# lemmas, and a field of a record in a proof, that would fall together with another name
APART = {"is-sealed": "is_sealed_lem", "nscp-sector": "nscp_sector_lem", "on-card": "on_card_lem", "run-read": "run_read_lem", "slots-judged": "slots_judged_lem"}
# text that only looks like a name
LEFT = {"nABCD"}

NAME = re.compile(r"(?<![\w'′-])[A-Za-z][\w'′]*(?:-[\w'′]+)*")
CAMEL = re.compile(r"^[a-z][a-z0-9]*(?:[A-Z][a-z0-9]*)+['′]*$")
USE = re.compile(r"^\s*(?:pub )?(?:ghost )?use ([\w.+·']+?)\.\{([^}]*)\};?", re.M)
DECLARED = re.compile(r"^( *)((?:abbrev |unfoldable |pub )*)(?:record |data )?([A-Za-z][\w'′-]*)(?= (?::|\())", re.M)
GOALS = ("Answers.antt", "Invariants.antt", "Proof.antt", "Choices.antt")


def snake(name):
    return re.sub(r"(?<=[a-z0-9])([A-Z])", lambda m: "_" + m.group(1).lower(), name)


def text_of(path):
    with open(path, encoding="utf-8") as f:
        return f.read()


def main():
    dry = "--dry" in sys.argv
    crates = {p.split("/")[1] for p in glob.glob("crates/*/src")}
    files = sorted(p for k in ("specs", "proofs", "src") for p in glob.glob(f"crates/*/{k}/**/*", recursive=True) if p.endswith((".antt", ".rt")))
    texts = {p: text_of(p) for p in files}
    own_path = re.compile(r"^Rattle\.(?:" + "|".join(sorted(crates)) + r")\.(?:specs|proofs)\.(?!declared)")
    outside, declared = set(), set()
    for p, t in texts.items():
        for path, names in USE.findall(t):
            if not own_path.match(path) or path.endswith(".Goals"):
                outside |= {w for n in names.split(",") for w in n.split()}
        if p.endswith(".antt"):
            for indent, marks, name in DECLARED.findall(t):
                if not (p.endswith(GOALS) and "pub" in marks):
                    declared.add(name)
    new = {}
    for p, t in texts.items():
        for m in NAME.finditer(t):
            n = m.group(0)
            if n in outside or n in LEFT:
                continue
            if CAMEL.match(n):
                new[n] = snake(n)
            elif "-" in n and n in declared:
                new[n] = n.replace("-", "_")
    for n, other in APART.items():
        if n in new:
            new[n] = other
    together = collections.defaultdict(set)
    everything = {m.group(0) for t in texts.values() for m in NAME.finditer(t)}
    for old, to in new.items():
        together[to].add(old)
    for to, olds in sorted(together.items()):
        if len(olds) > 1 or to in everything:
            print(f"together: {to}: {', '.join(sorted(olds))}{' and itself' if to in everything else ''}")
    changed = 0
    for p, t in texts.items():
        def turned(m):
            n = m.group(0)
            n = new.get(n, n)
            return n.replace("′", "'") if p.endswith(".antt") else n

        u = NAME.sub(turned, t)
        if u != t:
            changed += 1
            if not dry:
                with open(p, "w", encoding="utf-8") as f:
                    f.write(u)
    print(f"{len(new)} names, {changed} files")
    if "--names" in sys.argv:
        for n in sorted(new):
            print(n, new[n])

if __name__ == "__main__":
    main()
