#!/usr/bin/env python3
"""Lays the statements of the laws of proofs/ beside those of a commit, where they differ.

    tools/theorems.py COMMIT [CRATE..]    of these crates, or of all; only laws that README.md or docs/ name, or that stand in claims
"""
import re
import subprocess
import sys

COMMIT, CRATES = sys.argv[1], sys.argv[2:]
STATEMENT = re.compile(r"^( *)((?:abbrev |unfoldable )*)pub ([^\s:(){}]+) :", re.M)


def run(*words):
    return subprocess.run(words, capture_output=True, text=True, check=True).stdout


def laws(text):
    """Each public law of a file: its name and its statement."""
    lines = text.split("\n")
    for i, line in enumerate(lines):
        m = STATEMENT.match(line)
        if not m:
            continue
        indent, name = m.group(1), m.group(3)
        said = [line.strip()]
        for later in lines[i + 1:]:
            if re.match(rf"^{indent}\S", later) or not later.strip():
                break
            said.append(later.strip())
        yield name, " ".join(said)


def all_laws(names, read):
    found = {}
    for path in names:
        m = re.match(r"^crates/([a-z_]+)/proofs/([A-Za-z]+)\.antt$", path)
        if m and (not CRATES or m.group(1) in CRATES):
            for name, said in laws(read(path)):
                found.setdefault((m.group(1), name), []).append(said)
    return found


old = all_laws(run("git", "ls-tree", "-r", "--name-only", COMMIT, "crates").split(), lambda p: run("git", "show", f"{COMMIT}:{p}"))
new = all_laws(run("git", "ls-files", "crates").split(), lambda p: open(p, encoding="utf-8").read())
pages = open("README.md", encoding="utf-8").read() + "".join(
    open(p, encoding="utf-8").read() for p in run("git", "ls-files", "docs").split() if p.endswith(".md") and not p.endswith(("PORT.md", "DESIGN-PASS.md"))
)
named = set(re.findall(r"`([A-Za-z][\w'-]*)`", pages))
for (crate, name), said in sorted(old.items()):
    if crate != "claims" and name not in named:
        continue
    now = new.get((crate, name))
    if now is None:
        print(f"gone: {crate} {name}\n    - {said}")
    elif now != said:
        print(f"changed: {crate} {name}")
        for a in said:
            if a not in now:
                print("    - " + a)
        for b in now:
            if b not in said:
                print("    + " + b)
