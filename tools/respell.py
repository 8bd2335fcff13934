#!/usr/bin/env python3
"""Brings the repository's own definitions and lemmas to the spelling of today's Rattle.

usage: python3 tools/respell.py [--list]      at the top of the repository, once, after port.py

A word is in snake case: definitions, lemmas, fields, constructors (columnOf -> column_of). A dash stays only where it joins two
names (bit-lt, length-upto); a plain word is added with '_' (held-next -> held_next). Types and modules keep their camel case, and
whatever the Rattle source declares keeps its name. A word that would fall together with another keeps its dash, or is left as it
is. --list prints the table and writes nothing.
"""
import collections
import os
import re
import sys

TOKEN = re.compile(r"[A-Za-z0-9_'\u2080-\u2089\u03b1-\u03c9-]+")
DECLARED = re.compile(
    r"^(?P<in> *)(?P<mark>(?:abbrev |unfoldable |opaque |pub )*)(?P<what>data |record |module |use |where\b|unfolding )?(?P<name>[^\s:(){}.,;]+(?: [^\s:(){}.,;]+)*) :(?= |$)", re.M
)
# words that lemmas are named by, beside the definitions
WORDS = set("lt le eq ne gt ge zero suc add sub mul div mod pow min max and or xor not all append map length drop take set replicate reverse filter sum differ true false cons nil".split())

# words that would fall together with a lemma's or a library's, and where they only look so: a field or a function of the source
OTHERWISE = {
    "andDepth": "and_depth",
    "andDepths": "and_depths",
    "andStep": "and_depth_step",
    "digitsOf": "digits_in",
    "isMatrix": "is_matrix",
    "lineOn": "line_value_on",
    "lookIn": "look_up_in",
    "newLine": "new_line",
    "noLines": "no_line_numbers",
    "readAnswer": "reading_answer",
    "readTable": "reading_table",
    "rowFits": "row_is_sound",
    "rowOn": "row_value_on",
    "sameLines": "are_same_lines",
}


def files(ending):
    for root, dirs, names in os.walk("crates"):
        dirs[:] = sorted(d for d in dirs if d not in ("out", ".git"))
        for name in sorted(names):
            if name.endswith(ending):
                yield os.path.join(root, name)


def read(path):
    with open(path, encoding="utf-8") as f:
        return f.read()


def code(text):
    return re.sub(r"--[^\n]*", "", text)


def imported_from_elsewhere(text, crates):
    for m in re.finditer(r"^\s*(?:ghost )?use ([^\s{;]+?)\.\{([^}]*)\}", text, re.M):
        parts = m.group(1).split(".")
        own = parts[0] == "Rattle" and len(parts) > 1 and parts[1] in crates
        if not own:
            for word in m.group(2).split(","):
                yield from word.split(" as ")[0].strip().split()


def snake(part):
    if not part[:1].islower():
        return part
    return re.sub(r"(?<=[a-z0-9'])([A-Z])(?=[a-z0-9]|$|-|_)", lambda m: "_" + m.group(1).lower(), part)


def dashes(name, names):
    parts = name.split("-")
    out = parts[0]
    for i in range(1, len(parts)):
        rest = "_".join(parts[i:])
        joins = out.split("-")[-1] in names and (rest in names or parts[i] in names)
        out += ("-" if joins else "_") + parts[i]
    return out


def main():
    crates = set(os.listdir("crates"))
    antt = {p: read(p) for p in files(".antt")}
    rt = {p: read(p) for p in files(".rt")}
    foreign = set()
    for text in [*antt.values(), *rt.values()]:
        foreign.update(imported_from_elsewhere(text, crates))
    declared, defined = set(), set()
    for path, text in antt.items():
        if path.endswith("/Proof.antt"):
            continue
        for m in DECLARED.finditer(code(text)):
            if m.group("what") in ("use ", "module ", "unfolding "):
                continue
            for name in m.group("name").split():
                if not re.fullmatch(TOKEN, name) or m.group("what") in ("data ", "record "):
                    continue
                declared.add(name)
                if "/specs/" in path and m.group("in") == "":
                    defined.add(snake(name))
    source = set()
    for text in rt.values():
        source.update(re.findall(r"\b([a-z_][A-Za-z0-9_]*)\s*:(?!:)", text))
    # a word beside a dot is a part of a path or a step of a proof, and falls together with nothing
    tokens = set()
    clauses = ["\n".join(re.findall(r"(?:requires|ensures|ghost)\b[^\n]*", text)) for text in rt.values()]
    for text in [*map(code, antt.values()), *clauses]:
        tokens.update(re.findall(r"(?<![.\w'-])" + TOKEN.pattern + r"(?![.\w'-])", text))
    names = {d for d in defined if "-" not in d} | WORDS
    table, taken = {}, {}
    for name in sorted(declared, key=lambda n: ("-" in n, n)):
        if name in foreign or name in source:
            continue
        if name in OTHERWISE:
            table[name] = OTHERWISE[name]
            taken[OTHERWISE[name]] = name
            continue
        cased = "-".join(snake(p) for p in name.split("-"))
        for new in (dashes(cased, names), cased):
            if new == name:
                break
            if new in tokens or new in taken or new in source or new in foreign:
                continue
            table[name] = new
            taken[new] = name
            break
        else:
            print(f"left: {name}", file=sys.stderr)
    if "--list" in sys.argv:
        for name, new in table.items():
            print(name, new)
        return
    turn = lambda m: table.get(m.group(0), m.group(0))
    for path, text in antt.items():
        new = TOKEN.sub(turn, text)
        if new != text:
            open(path, "w", encoding="utf-8").write(new)
    for path, text in rt.items():
        # strings keep their text
        new = re.sub(r'"(?:[^"\\\n]|\\.)*"|' + TOKEN.pattern, lambda m: m.group(0) if m.group(0)[0] == '"' else turn(m), text)
        if new != text:
            open(path, "w", encoding="utf-8").write(new)
    with open("tools/respelled.tsv", "w", encoding="utf-8") as f:
        f.writelines(f"{a}\t{b}\n" for a, b in table.items())
    print(f"{len(table)} names respelled")


main()
