#!/usr/bin/env python3
"""The places that docs/DESIGN-PASS.md counts, found by their form: tools/places.py [COMMIT], of the working tree or of a commit."""
import re, subprocess, sys
from collections import defaultdict
from itertools import combinations

commit = sys.argv[1] if len(sys.argv) > 1 else None


def run(*words):
    return subprocess.run(words, capture_output=True, text=True, check=True).stdout


def sources():
    names = run("git", "ls-tree", "-r", "--name-only", commit) if commit else run("git", "ls-files")
    for name in names.split("\n"):
        if re.fullmatch(r"crates/\w+/src/.*\.rt", name):
            yield name, run("git", "show", f"{commit}:{name}") if commit else open(name).read()


def functions(text):
    """Each function: its line, name, parameters, contract and body."""
    for m in re.finditer(r"^ *(?:pub )?(?:extern \"C\" )?fn (\w+)(<.*?>)?\(", text, re.M):
        at, deep = m.end(), 1
        while deep:
            deep += {"(": 1, ")": -1}.get(text[at], 0)
            at += 1
        brace = re.compile(r"^ *\{$|(?<=[^{]) \{$", re.M).search(text, at)
        end = re.compile(r"^ {0,4}\}$", re.M).search(text, brace.end()) if brace else None
        if end:
            yield text.count("\n", 0, m.start()) + 1, m[1], text[m.end():at - 1], text[at:brace.start()], text[brace.end():end.start()]


def shape(body):
    body = re.sub(r"//.*", "", body)
    words = re.findall(r"[A-Za-z_]\w*|\d\w*|\S", body)
    kept = {"while", "for", "in", "if", "else", "let", "mut", "return", "match", "loop", "as", "true", "false"}
    return " ".join(w if w in kept or not re.match(r"\w", w) else "0" if w[0].isdigit() else "x" for w in words)


def show(title, rows):
    rows = list(rows)
    print(f"{title}: {len(rows)}")
    for row in rows:
        print("   ", row)


files = list(sources())
show("1 enums", (f"{n}:{t.count(chr(10), 0, m.start()) + 1} {m[1]}" for n, t in files for m in re.finditer(r"^(?:pub )?enum (\w+)", t, re.M)))
show("1 flags, fields and parameters on lines of their own", (f"{n}:{t.count(chr(10), 0, m.start()) + 1} {m[1]}" for n, t in files for m in re.finditer(r"^    (?:pub )?(\w+): bool,$", t, re.M)))
show("1 numbers by name", (f"{n} {' '.join(found)}" for n, t in files if (found := re.findall(r"^(?:pub )?const (\w+): (?:u8|u32|u64|usize) = \d", t, re.M))))
shapes, facts, pairs = defaultdict(list), defaultdict(list), defaultdict(list)
for name, text in files:
    for line, fn, params, contract, body in functions(text):
        place = f"{name}:{line} {fn}"
        if body.count("\n") > 2:
            shapes[shape(body)].append(place)
        for clause in re.findall(r"requires(?: \w+)? \{ (.*) \}$", contract, re.M):
            for fact in clause.split(" × "):
                fact = fact.strip("()")
                facts[re.sub(r"\.(now|old)\b", "", fact)].append(place)
        given = sorted({re.sub(r"\s+", " ", p.strip().removeprefix("mut ")) for p in params.split(",\n" if "\n" in params else ", ") if ":" in p})
        for both in combinations(given, 2):
            pairs[both].append(place)
show("2 functions of one shape", (" = ".join(p) for p in shapes.values() if len(p) > 1))
show("3 while and loop", (f"{n}:{i} {l.strip()}" for n, t in files for i, l in enumerate(t.split("\n"), 1) if re.match(r" *('\w+: )?(while |loop \{)", l)))
show("3 for", (f"{n}:{i} {l.strip()}" for n, t in files for i, l in enumerate(t.split("\n"), 1) if re.match(r" *('\w+: )?for ", l)))
show("5 facts in three contracts or more", (f"{f}: {len(p)}" for f, p in sorted(facts.items(), key=lambda x: -len(x[1])) if len(p) > 2))
show("5 parameters that travel together, five times or more", (f"{', '.join(b)}: {len(p)}" for b, p in sorted(pairs.items(), key=lambda x: -len(x[1])) if len(p) > 4))
show("6 arrays with a length beside", (f"{n}:{t.count(chr(10), 0, m.start()) + 1} {m[1]}" for n, t in files for m in re.finditer(r"struct (\w+) \{(?=[^}]*\[\w+; \d+\])(?=[^}]*\b(?:length|count|states|width): usize)", t)))
