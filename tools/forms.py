#!/usr/bin/env python3
"""Counts, in crates/*/src, the places that are written in an older form of the language than today's.

tools/forms.py [--list] [POINT..]: for each point the number of places, with --list each of them. It goes by text: what it
counts is a candidate, and docs/DESIGN-PASS.md says what became of each.

 1 enums shaped like Option or Result; flags with a value beside; numbers for refusals
 2 twins: functions that differ in names, types and numbers alone (or nearly so), and structs with the same fields
 3 loops that count an index by hand
 4 copying and conversion by hand: locals that copy a field, struct literals filled from another value's fields, functions that only
   rewrite a value's parts
 5 facts in the requires of three or more functions; runs of three or more parameters that three or more functions share
 6 slices with a length or a place beside them among the parameters
 7 parameters that choose which step is run, and tables of functions
 8 answers in proofs/ that only repeat one another
"""
import difflib
import glob
import re
import sys


def sources():
    for path in sorted(glob.glob("crates/*/src/**/*.rt", recursive=True)):
        with open(path, encoding="utf-8") as file:
            yield path, file.read()


def bare(text):
    return "\n".join(re.sub(r"//.*", "", line) for line in text.splitlines())


def functions(path, text):
    """(name, head, body, line): the head goes to the body's brace."""
    lines = text.splitlines()
    at = 0
    while at < len(lines):
        found = re.match(r"(\s*)(pub(?:\([^)]*\))? )?(?:const )?(?:unsafe )?(?:extern \"C\" )?fn (\w+)", lines[at])
        if not found:
            at += 1
            continue
        indent = found.group(1)
        start = at
        while at < len(lines) and not (lines[at] == indent + "{" or lines[at].rstrip().endswith(" {") and lines[at].startswith(indent + "fn") or lines[at] == indent + "{}"):
            at += 1
            if at < len(lines) and lines[at] == indent + "}":
                break
        body = at
        while at < len(lines) and lines[at] != indent + "}":
            at += 1
        yield found.group(3), "\n".join(lines[start:body]), "\n".join(lines[body:at + 1]), start + 1
        at += 1


def all_functions():
    for path, text in sources():
        for name, head, body, line in functions(path, bare(text)):
            yield path, name, head, body, line


def parameters(head):
    signature = re.sub(r"\s(requires|ensures|ghost)\s.*", "", head.replace("\n", " "))
    inner = signature[signature.find("(") + 1:]
    depth, parts, part = 1, [], ""
    for mark in inner:
        if mark in "([{<":
            depth += 1
        if mark in ")]}>":
            depth -= 1
            if depth == 0:
                break
        if mark == "," and depth == 1:
            parts.append(part)
            part = ""
        else:
            part += mark
    parts.append(part)
    return [re.sub(r"\s+", " ", p).strip() for p in parts if p.strip()]


REFUSALS = r"(Refused|RefusedAt|Unsound|Invalid\w*|None|Missing|Nothing|Outside|NotPositive|Overflow|Own|NoInverse)"


def point_1():
    for path, text in sources():
        for found in re.finditer(r"enum (\w+)(?:<[^>]*>)? \{\n(.*?)\n\s*\}", bare(text), re.S):
            variants = [v.strip().rstrip(",") for v in found.group(2).splitlines() if v.strip()]
            names = [re.match(r"\w+", v).group(0) for v in variants]
            empty = [v for v in variants if "(" not in v and "{" not in v]
            if len(variants) == 2 and (len(empty) == 1 or all("(" in v for v in variants)):
                yield "enum", path, "%s { %s }" % (found.group(1), ", ".join(variants))
            elif len(variants) == 3 and sum(bool(re.fullmatch(REFUSALS, n)) for n in names) == 2:
                yield "enum", path, "%s { %s }" % (found.group(1), ", ".join(variants))
        for found in re.finditer(r"(?:pub )?(has_(\w+)|awaits): (bool|u64),\n\s*(?:pub )?(\w+):", bare(text)):
            yield "flag", path, found.group(1) + " beside " + found.group(4)
        for found in re.finditer(r"\b(\w+)\(u32(?:, \w+)?\)|(?:pub )?(number): u32,", bare(text)):
            if found.group(2) or re.fullmatch(r"Refused|RefusedAt|Halted", found.group(1)):
                yield "number", path, found.group(0)


def normal(body):
    tokens = re.findall(r"[A-Za-z_]\w*|\d[\w.]*|[^\s\w]", body)
    keep = {"if", "else", "return", "match", "while", "for", "in", "let", "mut", "loop", "break", "as", "Some", "None", "Ok", "Err"}
    return [t if t in keep or not re.match(r"\w", t) else "x" for t in tokens]


def point_2():
    seen = [(p, n, normal(b)) for p, n, h, b, _ in all_functions() if not n.startswith("curlewstand_")]
    seen = [(p, n, t) for p, n, t in seen if len(t) >= 24]
    for i, (path, name, tokens) in enumerate(seen):
        for other_path, other, others in seen[i + 1:]:
            if abs(len(tokens) - len(others)) * 8 > len(tokens):
                continue
            same = difflib.SequenceMatcher(None, tokens, others, autojunk=False)
            if same.real_quick_ratio() > 0.92 and same.quick_ratio() > 0.92 and same.ratio() > 0.92:
                yield "function", path, "%s and %s (%s)" % (name, other, other_path)
    structs = []
    for path, text in sources():
        for found in re.finditer(r"struct (\w+)(?:<[^>]*>)? \{\n(.*?)\n\s*\}", bare(text), re.S):
            fields = tuple(re.findall(r"(\w+):", found.group(2)))
            structs.append((path, found.group(1), fields))
    for i, (path, name, fields) in enumerate(structs):
        for other_path, other, others in structs[i + 1:]:
            if len(fields) > 1 and fields == others:
                yield "struct", path, "%s and %s (%s)" % (name, other, other_path)


def point_3():
    for path, name, head, body, line in all_functions():
        for found in re.finditer(r"while ([^{]*)\{", body):
            counted = [v for v in re.findall(r"[a-z_]\w*", found.group(1)) if re.search(r"\b%s (\+|-)= 1;" % v, body[found.end():])]
            if counted:
                yield "loop", path, "%s: while %s" % (name, found.group(1).strip())
        for found in re.finditer(r"(?:'\w+: )?loop \{", body):
            counted = re.findall(r"\b(\w+) (?:\+|-)= 1;", body[found.end():])
            if counted:
                yield "loop", path, "%s: loop, %s" % (name, counted[0])


def point_4():
    for path, name, head, body, line in all_functions():
        for found in re.finditer(r"let (\w+) = ([\w.]+)\.(\w+);", body):
            if found.group(1) == found.group(3):
                yield "local", path, "%s: %s" % (name, found.group(0))
        for found in re.finditer(r"\b([A-Z]\w*) \{\n(.*?)\n\s*\}", body, re.S):
            copied = re.findall(r"^\s*(\w+): (\w+)\.\1,$", found.group(2), re.M)
            if len(copied) >= 3:
                yield "literal", path, "%s: %s, %d fields of %s" % (name, found.group(1), len(copied), copied[0][1])
        inner = body.strip().lstrip("{").rstrip("}").strip()
        if len(parameters(head)) == 1 and re.match(r"(\[|[A-Z]\w* \{)", inner) and ";" not in inner:
            yield "conversion", path, name
        if re.search(r"\bfn (eq|cmp|partial_cmp|clone|is_same\w*)\b", head):
            yield "equality", path, name


def point_5():
    facts = {}
    for path, name, head, body, line in all_functions():
        for clause in re.findall(r"requires(?: \w+)? \{(.*?)\}\s*(?=requires|ensures|$)", head, re.S):
            for fact in clause.split(" × "):
                fact = re.sub(r"^\((.*)\)$", r"\1", re.sub(r"\s+", " ", fact).strip())
                facts.setdefault((path.split("/")[1], fact), set()).add(name)
    for (crate, fact), names in sorted(facts.items()):
        if len(names) >= 3:
            yield "fact", crate, "%s: %s" % (fact, ", ".join(sorted(names)))
    runs = {}
    for path, name, head, body, line in all_functions():
        ps = [re.sub(r"&(mut )?", "&", p) for p in parameters(head)]
        for i in range(len(ps) - 3):
            runs.setdefault(tuple(ps[i:i + 4]), set()).add((path.split("/")[1], name))
    top = {r: n for r, n in runs.items() if len(n) >= 3}
    for run, names in sorted(top.items()):
        yield "run", ", ".join(sorted({c for c, _ in names})), "%s: %d functions" % ("; ".join(run), len(names))


def point_6():
    for path, name, head, body, line in all_functions():
        ps = parameters(head)
        for i, p in enumerate(ps[:-1]):
            if re.search(r": &(mut )?\[", p):
                beside = [q for q in ps[i + 1:i + 3] if re.match(r"(at|from|to|n|start|i|count|rows|length|base|slot|end): (usize|u32)$", q)]
                if beside:
                    yield "slice", path, "%s: %s beside %s" % (name, "; ".join(beside), p)


def point_7():
    for path, name, head, body, line in all_functions():
        for p in parameters(head):
            if re.match(r"(alone|kind|which|step|mode): (bool|u8|u32|usize)$", p):
                yield "switch", path, "%s: %s" % (name, p)
    for path, text in sources():
        for found in re.finditer(r"\[(?:fn|&dyn)\b.*", bare(text)):
            yield "table", path, found.group(0)


def point_8():
    for path in sorted(glob.glob("crates/*/proofs/**/Answers.antt", recursive=True)):
        with open(path, encoding="utf-8") as file:
            text = file.read()
        bodies = [re.sub(r"^\S+ c =\s*", "", b.strip()) for b in re.findall(r"^(\S+ c =.*?)(?=\n\n|\Z)", text, re.S | re.M)]
        repeated = len(bodies) - len({re.sub(r"-\d+", "", re.sub(r"\s+", " ", b)) for b in bodies})
        if repeated:
            yield "answers", path, "%d of %d" % (repeated, len(bodies))


POINTS = [point_1, point_2, point_3, point_4, point_5, point_6, point_7, point_8]


def main():
    listed = "--list" in sys.argv
    wanted = [int(a) for a in sys.argv[1:] if a.isdigit()] or range(1, 9)
    for n in wanted:
        places = list(POINTS[n - 1]())
        kinds = {}
        for kind, _, _ in places:
            kinds[kind] = kinds.get(kind, 0) + 1
        print("%d: %d places (%s)" % (n, len(places), ", ".join("%s %d" % k for k in sorted(kinds.items()))))
        if listed:
            for kind, path, what in places:
                print("   %s %s: %s" % (kind, path.replace("crates/", ""), what))


if __name__ == "__main__":
    main()
