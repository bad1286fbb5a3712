#!/usr/bin/env python3
"""Brings the names that this repository declares in specs/ and proofs/ to today's spelling: words in snake case.

usage: python3 tools/respell.py        at the top of a checkout in which port.py has just run

A name of camel case with a small first letter, or with a dash, that a file of specs/ or proofs/ declares gets underscores.
Names of goals and of what the check generates keep their dashes, and so do the names of functions, inputs and outputs.
Where two names of one file would fall together, the law, or the row, gets the ending `_law`.
"""
import collections
import os
import re
import sys

ROOT = os.path.join(os.path.dirname(os.path.realpath(__file__)), "..")
if len(sys.argv) > 1:
    ROOT = sys.argv[1]
WORD = re.compile(r"[^\s(){}.;,@\"«»`]+")
DECL = re.compile(r"^\s*(?:(?:abbrev|unfoldable|pub|axiom) +)*(?:record +|data +)?([^\s(){}.;,@\"«»`]+)(?: [{(].*?[})])*(?: [a-z]\w*)* *:(?= )(.*)$")
MODULE = re.compile(r"^\s*(?:pub )?module ([^\s_][^\s(){}]*)")
# laws and rows whose name a definition takes, by the folder of their crate
GIVEN = {
    "accounts": ("opened_in", "count_by"),
    "bench": ("too_long", "goes_on"),
    "figures": ("too_many",),
    "holding": ("taken_out",),
    "seams": ("taken_out",),
    "stores": ("taken_out",),
}


def snake(name):
    if re.match(r"^[a-z]", name):
        name = re.sub(r"([a-z0-9])([A-Z])", lambda m: m.group(1) + "_" + m.group(2).lower(), name)
        return name.replace("-", "_")
    return re.sub(r"-([a-z])", lambda m: m.group(1).upper(), name).replace("-", "")


def files(ends):
    for folder, dirs, names in os.walk(os.path.join(ROOT, "crates")):
        dirs[:] = sorted(d for d in dirs if d != "out")
        for n in sorted(names):
            if n.endswith(ends):
                yield os.path.join(folder, n)


def old(name):
    return "-" in name.strip("-") or re.match(r"^[a-z][a-z0-9]*[A-Z]", name)


def code(line):
    i = line.find("--")
    return line if i < 0 else line[:i]


def generated(path, rest):
    return os.path.basename(path) in ("Proof.antt", "Answers.antt", "Invariants.antt") and re.match(r"\s*(tie|goal|Tie|Given)\.", rest)


def collect(texts):
    found = set()
    for path, text in texts.items():
        if not path.endswith(".antt"):
            continue
        for line in text.split("\n"):
            m = DECL.match(code(line))
            if m and old(m.group(1)) and not generated(path, m.group(2)) and not re.match(r"(returns|decreases|cast|copy|add|sub|mul|decode|element|share|array)-", m.group(1)) or (m and m.group(1).endswith("-spec")):
                found.add(m.group(1))
            for a in re.findall(r" as ([^\s(){}.;,]+)", code(line)):
                if old(a) and re.match(r"[A-Za-z]", a) and line.startswith("use"):
                    found.add(a)
    return found


def no_paths(line):
    return re.sub(r"\bRattle\.[^\s{}]*", "", code(line))


def words_of(texts):
    return {p: set(WORD.findall("\n".join(no_paths(x) for x in t.split("\n")))) - set(given_of(p)) for p, t in texts.items()}


def given_of(path):
    return GIVEN.get(os.path.relpath(path, os.path.join(ROOT, "crates")).split(os.sep)[0], ())


def plan(texts):
    names = collect(texts)
    words = words_of(texts)
    new = {n: snake(n) for n in names}
    for _ in range(3):
        where = collections.defaultdict(set)
        for p, ws in words.items():
            for n in ws & names:
                where[n].add(p)
        for n in sorted(names, key=lambda n: "-" not in n):
            for p in where[n]:
                taken = new[n] in words[p] and new[n] not in names or any(m != n and new[m] == new[n] for m in words[p] & names)
                if taken and "-" in n:
                    new[n] = snake(n) + "_law"
                    break
                if taken:
                    print("falls together:", n, new[n], p)
    return new


def kits_of(text, crates):
    """The words that a file imports from the kit: they keep their spelling there."""
    found = set()
    for m in re.finditer(r"^use ([^\s{]+)\{([^}]*)\}", text, re.M):
        own = re.match(r"Rattle\.(\w+)\.", m.group(1))
        if not (own and own.group(1) in crates):
            found |= {w.strip().split(" as ")[0] for w in m.group(2).split(",")}
    return found


def turn_word(m, new, functions, given):
    w = m.group(0)
    behind = m.start() > 0 and m.string[m.start() - 1] == "."
    if behind and w in new and snake(w) in functions:
        return snake(w)
    if w in given and not (behind and "Rattle." in m.string):
        return w + "_law"
    return new.get(w, w)


def turn_line(line, new, functions, given):
    cut = line.find("--")
    head, tail = (line, "") if cut < 0 else (line[:cut], line[cut:])
    head = WORD.sub(lambda m: turn_word(m, new, functions, given), head)
    tail = re.sub(r"`[^`]*`", lambda m: WORD.sub(lambda w: new.get(w.group(0), w.group(0)), m.group(0)), tail)
    tail = WORD.sub(lambda m: new.get(m.group(0), m.group(0)) if re.match(r"^[a-z][a-z0-9]*[A-Z]", m.group(0)) else m.group(0), tail)
    return head + tail


def camel_only(text, new):
    return re.sub(r"(?<![\w-])[a-z][a-z0-9]*[A-Z]\w*(?![\w-])", lambda m: new.get(m.group(0), m.group(0)), text)


def main():
    texts = {p: open(p, encoding="utf-8").read() for p in files((".antt",))}
    # a function's calls are fields of what the check generates, in the spelling of the source
    functions = {f for p in files((".rt",)) for f in re.findall(r"\bfn (\w+)", open(p, encoding="utf-8").read())}
    crates = set(os.listdir(os.path.join(ROOT, "crates")))
    new = plan(texts)
    n = 0
    for p, t in texts.items():
        given = given_of(p)
        kits = kits_of(t, crates)
        here = {n: s for n, s in new.items() if n not in kits}
        u = "\n".join(turn_line(x, here, functions, given) for x in t.split("\n"))
        if u != t:
            open(p, "w", encoding="utf-8").write(u)
            n += 1
    pages = [os.path.join(ROOT, "README.md")] + [os.path.join(ROOT, "docs", f) for f in sorted(os.listdir(os.path.join(ROOT, "docs"))) if f.endswith(".md")]
    for p in list(files((".rt", ".edit"))) + pages:
        t = open(p, encoding="utf-8").read()
        u = camel_only(t, new)
        if p.endswith(".md"):
            u = re.sub(r"`[^`\n]*`", lambda m: WORD.sub(lambda w: new.get(w.group(0), w.group(0)), m.group(0)), u)
        if u != t:
            open(p, "w", encoding="utf-8").write(u)
            n += 1
    print(f"respell: {len(new)} names, {n} files")
    with open(os.environ.get("RESPELL_TABLE", os.devnull), "w") as f:
        for k in sorted(new):
            f.write(f"{k}\t{new[k]}\n")


main()
