#!/usr/bin/env python3
"""Brings the repository's own definitions and lemmas to today's spelling: words in snake case, a prime is an apostrophe.

usage: python3 tools/respell.py [--dry]      at the top of the checkout, after the kit's port.py

Each own name (a definition, lemma, field or constructor of specs/ or proofs/) has one new spelling, wherever it stands:
a capital within a lower-case name becomes `_` and a small letter, and a dash becomes `_`. A lemma that would have the name
of a definition gets `_lem`. Parameters in specs/ are respelled likewise. What comes from the kit keeps its name, and so
do the names of goals and what the check makes. Running it again changes nothing.
"""
import collections
import glob
import os
import re
import sys

DRY = "--dry" in sys.argv
CRATES = sorted(os.path.basename(d) for d in glob.glob("crates/*"))
OWN = re.compile(r"Rattle\.(?:%s)\." % "|".join(CRATES))
TOP = re.compile(r"^(?:(?:abbrev|unfoldable|opaque|irreducible|pub|instance)\s+)*(?P<n>[^\s:(){}=]+)\s*:\s")
DATA = re.compile(r"^(?:(?:abbrev|unfoldable|pub)\s+)*(?:data|record)\s+(\S+)")
MEMBER = re.compile(r"^\s+([^\s:(){}=]+(?:\s+[^\s:(){}=]+)*)\s*:\s")
INNER = re.compile(r"^\s+(?:(?:abbrev|unfoldable|pub)\s+)*([^\s:(){}=]+)\s*:\s")
TOKEN = re.compile(r"[^\s(){}\[\];,.\"`@]+")
QUOTED = re.compile(r"`[^`\n]*`")
def read(path):
    with open(path, encoding="utf-8") as f:
        return f.read()


def declared(text):
    """The names that a file declares, each with whether it is a member of a record or data."""
    inside = False
    for line in text.split("\n"):
        if line.lstrip().startswith("--") or not line.strip():
            continue
        m = DATA.match(line)
        if m:
            inside = True
            yield m.group(1), "type"
            continue
        if line[0] in " \t":
            m = MEMBER.match(line) if inside else INNER.match(line)
            if m:
                for n in m.group(1).split():
                    yield n, "member" if inside else "def"
            continue
        inside = False
        if line.startswith(("use ", "mod ", "pub mod", "infix")):
            continue
        m = TOP.match(line)
        if m:
            yield m.group("n"), "def"


def camel(n):
    if not n[:1].islower():
        return n
    return re.sub(r"(?<=[a-z0-9])([A-Z])(?=[a-z0-9_'₀-₉]|$)", lambda m: "_" + m.group(1).lower(), n)


SPECS = sorted(glob.glob("crates/*/specs/*.antt"))
LEMMAS = sorted(glob.glob("crates/*/proofs/*.antt"))
WALKS = sorted(p for p in glob.glob("crates/*/proofs/**/*.antt", recursive=True) if p not in set(LEMMAS))

spec_names, lemma_names, members = set(), set(), set()
for p in SPECS:
    for n, k in declared(read(p)):
        spec_names.add(n)
        if k == "member":
            members.add(n)
for p in LEMMAS:
    for n, k in declared(read(p)):
        lemma_names.add(n)
        if k == "member":
            members.add(n)

def respelled(n):
    if not n[:1].isalpha():
        return n
    return camel(n.replace("′", "'")).replace("-", "_")


# names that files bring in from the kit
OUTSIDE = set()
for p in SPECS + LEMMAS + WALKS:
    for m in re.finditer(r"^use ([^\s;{]+?)\.?\{([^}]*)\}", read(p), re.M):
        if not OWN.match(m.group(1) + "."):
            OUTSIDE |= {x.strip().split(" as ")[-1] for x in m.group(2).split(",")}

NEW = {}
taken = collections.defaultdict(set)
for n in spec_names | lemma_names:
    taken[respelled(n)].add(n)
# a lemma that would have a definition's name, or one of the kit's, gets `_lem`
for new, olds in taken.items():
    for n in olds:
        NEW[n] = new
        if "-" in n and n not in spec_names and n not in members and (len(olds) > 1 or new in OUTSIDE):
            NEW[n] = new + "_lem"
            print("lem:", n, "->", NEW[n])
left = collections.defaultdict(set)
for n, new in NEW.items():
    left[new].add(n)
for new, olds in sorted(left.items()):
    if len(olds) > 1 and len(olds - members) > 1:
        print("falls together:", new, sorted(olds))
MAP = {n: new for n, new in NEW.items() if n != new}


def imports(text):
    """Names from outside that the file brings in, and aliases of own modules."""
    outside, aliases = set(), set()
    for m in re.finditer(r"^(?:ghost |pub )*use ([^\s;{]+?)(?:\.?\{([^}]*)\})?(?:\s+as\s+(\S+?))?;?$", text, re.M):
        path, names, alias = m.group(1), m.group(2), m.group(3)
        own = OWN.match(path + ".")
        if names is not None and not own:
            outside |= {x.strip().split(" as ")[-1] for x in names.split(",")}
        if alias and own:
            aliases.add(alias)
    return outside, aliases


def turned(text, kind, path):
    outside, aliases = imports(text)
    own_goals = set()
    if kind == "walk":
        own_goals = {n for n, k in declared(text)}
    params = kind == "spec"

    def word(m):
        t = m.group(0)
        before = m.string[max(0, m.start() - 1):m.start()]
        if before == ".":
            head = re.search(r"([^\s(){}\[\];,\"`@]*)\.$", m.string[:m.start()]).group(1)
            first = head.split(".")[0]
            if OWN.match(head + ".") or first in aliases:
                return MAP.get(t, t)
            return MAP[t] if t in members and t in MAP else t
        if t in outside or t in own_goals:
            return t
        if t in MAP:
            return MAP[t]
        if params and t not in NEW and (re.fullmatch(r"[a-z][A-Za-z0-9₀-₉'′]*(?:-[A-Za-z0-9₀-₉'′]+)+", t) or re.fullmatch(r"[a-z][a-z0-9]*[A-Z][A-Za-z0-9]*['′]?", t)):
            return camel(t.replace("-", "_").replace("′", "'"))
        return t

    out = []
    for line in text.split("\n"):
        c = re.search(r"(?:^|\s)(--|//)\s", line) if kind != "md" else None
        code, note = (line[:c.start()], line[c.start():]) if c else (line, "")
        if kind == "md":
            code, note = "", line
        code = TOKEN.sub(word, code)
        note = QUOTED.sub(lambda q: TOKEN.sub(lambda m: MAP.get(m.group(0), m.group(0)), q.group(0)), note)
        note = re.sub(r"\b[a-z][a-z0-9]*[A-Z][A-Za-z0-9]*\b", lambda m: MAP.get(m.group(0), m.group(0)) if kind != "md" else m.group(0), note)
        out.append(code + note)
    return "\n".join(out)


changed = 0
shadows = collections.Counter()
jobs = [(p, "spec") for p in SPECS] + [(p, "lemma") for p in LEMMAS] + [(p, "walk") for p in WALKS]
jobs += [(p, "rt") for p in sorted(glob.glob("crates/*/src/**/*.rt", recursive=True))]
jobs += [(p, "edit") for p in sorted(glob.glob("crates/*/must-fail/*.edit"))]
jobs += [(p, "md") for p in sorted(glob.glob("*.md") + glob.glob("docs/*.md") + glob.glob("rust/*.md") + glob.glob("tests/**/*.md", recursive=True))]
for p, kind in jobs:
    text = read(p)
    new = turned(text, kind, p)
    if new == text:
        continue
    if kind in ("spec", "lemma", "rt"):
        old_tokens, new_tokens = set(TOKEN.findall(text)), set(TOKEN.findall(new))
        for t in sorted(old_tokens - new_tokens):
            n = respelled(t) if t not in MAP else MAP[t]
            n = camel(t.replace("-", "_").replace("′", "'")) if kind == "spec" and t not in MAP else n
            if n in old_tokens:
                print("stands there already:", p, t, "->", n)
    changed += 1
    if not DRY:
        with open(p, "w", encoding="utf-8") as f:
            f.write(new)
print(len(MAP), "names respelled,", changed, "files", "would change" if DRY else "changed")
