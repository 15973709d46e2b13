#!/usr/bin/env python3
"""tools/respell.py [ROOT]: what port.py leaves of the spelling of definitions and lemmas, brought to today's: words in snake case.

Run once, after port.py. A name with a dash or a capital that a file of specs/ or proofs/ defines is written with `_`. A name stays as it is
- where the new one would fall together with another name of some file (then a dash joins two names, as today's spelling allows),
- where it is a goal's or a statement's, which the prover names, and
- where it comes from the library.
Comments are respelled between backticks, and must-fail edits as the files that they are for. Each change is printed.
"""
import os
import re
import sys

ROOT = sys.argv[1] if len(sys.argv) > 1 else "."
ID = r"[A-Za-z_ℕ][A-Za-z0-9_'ℕ₀-₉]*(?:-[A-Za-z0-9_'ℕ₀-₉+*]+)*"
TOKEN = re.compile(r"(?<![A-Za-z0-9_'ℕ₀-₉-])" + ID)
HAND = {"back_Target": "back-target", "back_target": "back-target", "at_Fork": "at_fork", "scaled_Fits": "scaled_fits", "not_T": "not_true", "read_Some": "read_some", "opened_Frame": "opened_frame",
        "back_count": "back-count", "each_word": "each-word", "is_open": "is-open", "step_words": "step-words", "width_word": "width-word",
        "backCount": "back_count", "eachWord": "each_word", "isOpen": "is_open", "stepWords": "step_words", "widthWord": "width_word",
        "emptyBefore": "empty_before", "emptyOutside": "empty_outside", "firstEnd": "first_end", "onTape": "on_tape"}


def files(*endings):
    for folder, dirs, names in os.walk(os.path.join(ROOT, "crates")):
        dirs[:] = sorted(d for d in dirs if d != "out")
        for name in sorted(names):
            if name.endswith(endings):
                yield os.path.join(folder, name)


def pieces(path, text):
    """The text in pieces: (piece, whether names in it are respelled). Comments only between backticks; strings never."""
    out = []
    mark = "--" if path.endswith(".antt") else "//"
    for line in text.splitlines(keepends=True):
        at = 0
        while at < len(line):
            if line[at] == '"':
                end = line.find('"', at + 1)
                end = len(line) if end < 0 else end + 1
                out.append((line[at:end], False))
                at = end
            elif line.startswith(mark, at) and (at == 0 or line[at - 1] in " \t"):
                for i, part in enumerate(re.split("(`[^`]*`)", line[at:])):
                    out.append((part, "comment" if i % 2 else False))
                at = len(line)
            else:
                end = at
                while end < len(line) and line[end] != '"' and not (line.startswith(mark, end) and (end == 0 or line[end - 1] in " \t")):
                    end += 1
                out.append((line[at:end], True))
                at = end
    return out


def defined(text):
    """The names that a file of antt defines, and those that belong to goals."""
    ours, goals = set(), set()
    for line in text.splitlines():
        line = line.split("--")[0] if line.lstrip().startswith("--") else line
        if re.match(r"\s*use ", line):
            continue
        m = re.match(r"^\s*(?:\| *)?(?:pub |abbrev |unfoldable |let )*((?:%s )+):(?: |$)" % ID, line)
        if m:
            to = goals if re.search(r"\b(tie|goal)\.[A-Za-z]|: statement M|→ statement M", line) else ours
            to.update(m.group(1).split())
        for m in re.finditer(r"[({](?:pub )?((?:%s )+):" % ID, line):
            ours.update(m.group(1).split())
        for m in re.finditer(r"\blet (%s)\b" % ID, line):
            ours.add(m.group(1))
    return ours, goals


def library(text):
    got = set()
    for m in re.finditer(r"use (\S+)\.\{([^}]*)\}", text):
        if not m.group(1).startswith("Rattle.") or m.group(1).startswith(("Rattle.std", "Rattle.core")):
            got.update(n.strip().split(" as ")[0] for n in m.group(2).split(","))
    return got


def snake(name):
    if name in HAND:
        return HAND[name]
    if not re.match(r"[a-z_]", name):
        return name
    name = re.sub(r"(?<=[a-z0-9'])([A-Z])", lambda m: "_" + m.group(1).lower(), name)
    return name.replace("-", "_")


texts = {p: open(p, encoding="utf-8").read() for p in files(".antt", ".rt")}
ours, goals, kit = set(), set(), set()
for path, text in texts.items():
    if path.endswith(".antt"):
        a, b = defined(text)
        ours |= a
        goals |= b
    kit |= library(text)
new = {n: snake(n) for n in sorted(ours | set(HAND)) if n not in goals and n not in kit and snake(n) != n}



def named(path, text):
    """The names of a file that another could fall together with: not what stands after a dot, nor in code the functions, which clauses don't see."""
    got = set()
    for part, on in pieces(path, text):
        if on is not True:
            continue
        for m in TOKEN.finditer(part):
            before = part[:m.start()]
            if before.endswith("."):
                continue
            code = path.endswith(".rt") and (part[m.end():m.end() + 1] == "(" or before.endswith(("fn ", "::", "mod ")) or re.match(r"\s*(pub )?use ", part))
            if not code:
                got.add(m.group(0))
    return got


tokens = {p: named(p, text) for p, text in texts.items()}
kept = {}
while True:
    # a name of ours for one thing only, wherever it stands
    bad, owners = {}, {}
    for n in sorted(ours):
        owners.setdefault(new.get(n, n), []).append(n)
    for to, names in owners.items():
        for n in names:
            if len(names) > 1 and "-" in n and n in new and n not in HAND:
                bad[n] = (to, "another file, of " + ", ".join(x for x in names if x != n))
    for path, names in tokens.items():
        met = {}
        for n in sorted(names):
            to = new.get(n, n)
            if to in met and met[to] != n:
                for x in (n, met[to]):
                    if x in new and x not in HAND:
                        bad.setdefault(x, (to, path))
            met.setdefault(to, n)
    if not bad:
        break
    # of two that fall together the one in camel case goes first, as it has no other spelling
    worst = {x for x in bad if "-" in x} or set(bad)
    for x in worst:
        kept[x] = bad[x]
        del new[x]

for path in list(files(".antt", ".rt", ".edit")):
    text = texts.get(path) or open(path, encoding="utf-8").read()
    out = "".join(TOKEN.sub(lambda m: new.get(m.group(0), m.group(0)), part) if on else part for part, on in pieces(path, text))
    if out != text:
        with open(path, "w", encoding="utf-8") as f:
            f.write(out)
for n, to in sorted(new.items()):
    print("renamed:", n, to)
for n, (to, path) in sorted(kept.items()):
    print("kept:", n, "as", to, "stands in", path.removeprefix(ROOT + "/"))
