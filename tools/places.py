#!/usr/bin/env python3
"""Lists the places that docs/DESIGN-PASS.md counts, in crates/*/src of the checkout or of a commit.

    tools/places.py [COMMIT] [-v]    a count for each point; -v: each place
"""
import re
import subprocess
import sys

ARGS = [a for a in sys.argv[1:] if not a.startswith("-")]
VERBOSE = "-v" in sys.argv
COMMIT = ARGS[0] if ARGS else None


def run(*words):
    return subprocess.run(words, capture_output=True, text=True, check=True).stdout


def sources():
    """Each .rt file of crates/*/src: its name and its text."""
    pattern = r"^crates/[a-z_]+/src/[a-z_]+\.rt$"
    if COMMIT:
        names = run("git", "ls-tree", "-r", "--name-only", COMMIT, "crates").split()
        return [(n, run("git", "show", f"{COMMIT}:{n}")) for n in names if re.match(pattern, n)]
    names = run("git", "ls-files", "crates").split()
    return [(n, open(n, encoding="utf-8").read()) for n in names if re.match(pattern, n)]


def functions(text):
    """Each function of a file: its name, its parameters, its clauses and its body."""
    for m in re.finditer(r"^ *(?:pub(?:\([a-z]+\))? )?(?:extern \"C\" )?fn (\w+)(?:<[^(]*>)?\(", text, re.M):
        depth, i = 1, m.end()
        while depth:
            depth += {"(": 1, ")": -1}.get(text[i], 0)
            i += 1
        start = re.compile(r"^ *\{$|\) *\{$|[^}] \{$", re.M).search(text, i)
        if not start:
            continue
        indent = re.match(r" *", text[m.start():]).group()
        end = text.find("\n" + indent + "}\n", start.start())
        yield m.group(1), text[m.end():i - 1], text[i:start.start()], text[start.end():end], text.count("\n", 0, m.start()) + 1


def own_options(name, text):
    """Enums whose cases are a value and its absence, a value and a refusal, or nothing and a refusal; values beside a flag or an answer."""
    for m in re.finditer(r"(?:pub(?:\(crate\))? )?enum (\w+) \{\n(.*?)\n\}", text, re.S):
        cases = [c.strip().rstrip(",") for c in m.group(2).split("\n")]
        held = [c for c in cases if "(" in c]
        if m.group(1) in ("Verdict", "Call") and "Sound" not in cases:
            continue
        if held and len(cases) <= 5 and all(re.match(r"^\w+(\(.*\))?$", c) for c in cases) and not m.group(1) in ("Why",):
            yield text.count("\n", 0, m.start()) + 1, f"enum {m.group(1)}: {', '.join(cases)}"
    for m in re.finditer(r"(?:pub(?:\(crate\))? )?struct (\w+)(?:<[^>]*>)? \{\n(.*?)\n\}", text, re.S):
        fields = re.findall(r"(\w+): ([^,\n]+)", m.group(2))
        flags = [f for f, t in fields if f in ("answer", "verdict", "out", "step", "over", "readable", "is_written", "rest") and t not in ("Verdict",) or t == "Verdict" and name.startswith("crates/drawing")]
        if flags and len(fields) > 1:
            yield text.count("\n", 0, m.start()) + 1, f"struct {m.group(1)}: {', '.join(f for f, _ in fields)}"


def shape(body):
    """A body with its names and numbers left out, to find twins by."""
    body = re.sub(r"//.*", "", body)
    body = re.sub(r"b?\"[^\"]*\"|b?'[^']*'", "S", body)
    words = re.findall(r"[A-Za-z_][A-Za-z_0-9]*|\d[\dA-Za-z_]*|[^\sA-Za-z_0-9]", body)
    keep = {"if", "else", "while", "for", "in", "let", "mut", "match", "return", "loop", "as", "Some", "None", "Ok", "Err"}
    return " ".join(w if w in keep or not re.match(r"\w", w) else "x" for w in words)


def hand_loops(name, text):
    """Loops that count an index by hand, and `for` over the indices of a slice."""
    lines = text.split("\n")
    for i, line in enumerate(lines):
        m = re.match(r"^( *)while (.*) \{$", line)
        if m:
            body = []
            for later in lines[i + 1:]:
                if later == m.group(1) + "}":
                    break
                body.append(later)
            if any(re.match(rf"^{m.group(1)}    \w+ [+-]= ", b) for b in body):
                yield i + 1, line.strip()
        elif re.search(r"for \w+ in 0\.\.\w+\.len\(\)", line):
            yield i + 1, line.strip()


def conversions(name, text):
    """Calls of hand-written conversions, widening casts, and hand-written greatest, least and equality."""
    own = r"\b(wide|wide16|wide64|from_byte|is_mark|same|greater|larger|at_most|is_after)\("
    for i, line in enumerate(text.split("\n")):
        code = line.split("//")[0]
        for m in re.finditer(own, code):
            if not re.search(r"fn $", code[:m.start()]):
                yield i + 1, code.strip()
        for m in re.finditer(r"\bas (usize|u64|u32|u16)\b", code):
            if not code.strip().startswith(("ghost", "use")):
                yield i + 1, code.strip()


def together(all_sources):
    """Three or more parameters of one name and type that stand in three or more functions; facts in the `requires` of three or more."""
    sets = {}
    facts = {}
    for name, text in all_sources:
        crate = name.split("/")[1]
        if crate in ("lent", "lent_c", "coded"):
            continue
        for fn, params, clauses, _, line in functions(text):
            ps = frozenset(p.strip() for p in re.split(r",(?![^\[<(]*[\]>)])", params.replace("\n", " ")) if ":" in p)
            sets[(name, fn, line)] = ps
            for clause in re.findall(r"requires(?: \w+)? \{ (.*) \}", clauses):
                for fact in re.split(r" × ", clause):
                    fact = fact.strip("() ")
                    fact = re.sub(r"\(|\)", "", fact)
                    facts.setdefault((crate, fact), set()).add(fn)
    groups = {}
    keys = list(sets)
    for i, a in enumerate(keys):
        for b in keys[i + 1:]:
            if a[0].split("/")[1] != b[0].split("/")[1]:
                continue
            common = sets[a] & sets[b]
            if len(common) >= 3:
                groups.setdefault((a[0].split("/")[1], common), set()).update((a[1], b[1]))
    wide = {}
    for (crate, common), fns in groups.items():
        for (other, oc), of in groups.items():
            if crate == other and common <= oc:
                fns = fns | of
        if len(fns) >= 3:
            wide[(crate, common)] = fns
    maximal = {k: v for k, v in wide.items() if not any(k[0] == o[0] and k[1] < o[1] and wide[o] >= v for o in wide)}
    return maximal, {k: v for k, v in facts.items() if len(v) >= 3}


def buffers(name, text):
    """Structs with arrays beside a count, or with two or more arrays of one length."""
    for m in re.finditer(r"struct (\w+)(?:<[^>]*>)? \{\n(.*?)\n\}", text, re.S):
        fields = re.findall(r"(\w+): ([^\n]+),", m.group(2))
        arrays = [t.split(";")[1] for _, t in fields if t.startswith("[") and ";" in t] + ["Lines" for _, t in fields if t == "Lines"]
        counts = [f for f, _ in fields if f in ("count", "len", "n", "m", "g")]
        if arrays and counts or len(arrays) != len(set(arrays)):
            yield text.count("\n", 0, m.start()) + 1, f"struct {m.group(1)}: {', '.join(f for f, _ in fields)}"


def switches(name, text):
    """Functions that go through steps by one test of a word after another."""
    for fn, _, _, body, line in functions(text):
        tests = len(re.findall(r"if text::same\(|if same\(|if word == ", body))
        if tests >= 3:
            yield line, f"fn {fn}: {tests} tests of a word"


def show(point, places):
    print(f"{point}: {len(places)}")
    if VERBOSE:
        for p in places:
            print("   ", p)


ALL = sources()
show("1 own options and results", [f"{n}:{l} {w}" for n, t in ALL for l, w in own_options(n, t)])
shapes = {}
for n, t in ALL:
    if n.split("/")[1] in ("lent_c",):
        continue
    for fn, _, _, body, line in functions(t):
        s = shape(body)
        if len(s.split()) >= 24:
            shapes.setdefault(s, []).append(f"{n}:{line} {fn}")
show("2 bodies of one shape", [", ".join(v) for v in shapes.values() if len(v) > 1])
show("3 loops by hand", [f"{n}:{l} {w}" for n, t in ALL for l, w in hand_loops(n, t)])
show("4 conversions by hand", [f"{n}:{l} {w}" for n, t in ALL for l, w in conversions(n, t)])
groups, facts = together(ALL)
show("5a parameters together", [f"{c}: {', '.join(sorted(p))}: {', '.join(sorted(f))}" for (c, p), f in sorted(groups.items(), key=str)])
show("5b facts in three requires", [f"{c}: {x}: {', '.join(sorted(f))}" for (c, x), f in sorted(facts.items(), key=str)])
show("6 arrays beside a count", [f"{n}:{l} {w}" for n, t in ALL for l, w in buffers(n, t)])
show("7 switches", [f"{n}:{l} {w}" for n, t in ALL for l, w in switches(n, t)])
