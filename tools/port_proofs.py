#!/usr/bin/env python3
"""Turns the proof files of an older Rattle, which went through `Tie`, into today's.

    python3 tools/port_proofs.py [--no-generate] [CRATE..]      at the top of the repository

A `crates/C/proofs/F/Proof.antt` with a line `use ....Tie as tie` becomes `Invariants.antt` (invariants and
measures) and `Answers.antt` (answers), and goes away. Other files are left alone, so a second run does nothing.
The names of goals, places and variables come from `rattle check --generated DIR --old-names`, run for each crate
over the sources of the crates below it, which need not be proved. What cannot be turned is printed.
"""
import json
import os
import re
import subprocess
import sys
import tempfile

KIT = os.path.dirname(subprocess.run(["rt", "doc"], stdout=subprocess.PIPE, text=True, check=True).stdout.strip())
NAMES = os.path.join(tempfile.gettempdir(), "port_proofs" + os.getcwd().replace("/", "-"))  # where `rt check --generated` writes
TRIVIAL = {"search rules", "search needs", "search arith", "omega arith", "tt", "refl"}
DROPPED = {"search rules", "search needs"}
IDENT = r"[^\s(){}\[\],;.]+"

# Names of the older libraries that moved or were respelled: (module, name) -> name in COMMON, or a whole module.
COMMON = "Rattle.std.proofs.Common"


def say(*words):
    print(*words)


def squash(name):
    """A name up to dashes, underscores and the guillemets round a keyword."""
    return re.sub(r"[-_«»]", "", name).lower()


def crates_below():
    """crates.txt: each crate's line, as {crate: [what it stands on]}, and the static libraries."""
    lines, static = {}, set()
    with open("crates.txt") as file:
        for line in file:
            line = line.split("#")[0].strip()
            if ":" in line:
                head, deps = line.split(":")
                lines[head.split()[0]] = deps.split()
                if "staticlib" in head:
                    static.add(head.split()[0])
    return lines, static


def run_generated(crate):
    """names.json of a crate, over the sources of the crates below it, which need not be proved."""
    lines, static = crates_below()
    below = []

    def visit(name):
        for dep in lines[name]:
            if dep in lines and dep not in below:
                visit(dep)
                below.append(dep)
    visit(crate)
    words = [KIT + "/bin/rattle", "check", "--crate-name", crate, root_of(crate)]
    kit = {"core", "std"} | {dep for name in [crate] + below for dep in lines[name] if dep not in lines}
    for name in sorted(kit):
        words += ["--extern", "%s=%s/rlibs/%s.rlib" % (name, KIT, name)]
    words += ["-L", "dependency=%s/rlibs" % KIT]
    for name in below:
        words += ["--lib", "%s:%s=../%s/src/lib.rt" % (name, ",".join(dict.fromkeys(["core", "std"] + lines[name])), name)]
    words += ["--antt-project", KIT + "/rattle/logic/antt-project.json", "--logic-built", KIT + "/logic_built", "--links", crate + "="]
    if crate in static:
        words += ["--crate-type", "staticlib"]
    out = os.path.join(NAMES, crate)
    os.makedirs(out, exist_ok=True)
    if os.path.exists(os.path.join(out, "names.json")):
        os.remove(os.path.join(out, "names.json"))
    done = subprocess.run(
        words + ["--generated", out, "--old-names"],
        cwd=os.path.join("crates", crate), stdout=subprocess.PIPE, stderr=subprocess.STDOUT, text=True)
    if not os.path.exists(os.path.join(out, "names.json")):
        say(crate + ": no names.json:", *done.stdout.splitlines()[-3:])


def root_of(crate):
    main = os.path.join("crates", crate, "src", "main.rt")
    return "src/main.rt" if os.path.exists(main) else "src/lib.rt"


def read_names(crate):
    path = os.path.join(NAMES, crate, "names.json")
    if not os.path.exists(path):
        return {}
    with open(path) as file:
        return json.load(file)


# A proof file's parts.

def parts(text):
    """(head comments, use lines, declarations); a declaration is a list of items at column 0, comments first."""
    items = []
    for line in text.splitlines():
        if line and not line[0].isspace():
            items.append([line])
        elif items:
            items[-1].append(line)
    items = ["\n".join(item).rstrip() for item in items]
    head, uses, decls, pending = [], [], [], []
    for item in items:
        if item.startswith("use "):
            uses.append(item)
            continue
        if not uses and not decls and item.startswith("--"):
            head.append(item)
            continue
        if item.startswith("--"):
            pending.append(item)
            continue
        signature = re.match(r"((?:abbrev |unfoldable |pub )*)(" + IDENT + r")\s+:\s", item + " ")
        word = item.split()[0]
        if signature and word not in ("use", "unfolding"):
            decls.append({"comments": pending, "name": signature.group(2), "marks": signature.group(1).strip(),
                          "signature": item, "body": []})
            pending = []
        elif word in ("data", "record", "mutual", "section", "end", "variable", "infix", "infixl", "infixr", "syntax", "ruleset"):
            decls.append({"comments": pending, "name": item.split()[1] if len(item.split()) > 1 else "", "marks": "",
                          "signature": item, "body": [], "other": True})
            pending = []
        elif decls:
            decls[-1]["body"] += pending + [item]
            pending = []
        else:
            say("  stray:", item[:60])
    return head, uses, decls


def split_arguments(text):
    """The arguments of an application, at the outer level."""
    out, depth, word = [], 0, ""
    for char in text:
        if char in "([{":
            depth += 1
        if char in ")]}":
            depth -= 1
        if char.isspace() and depth == 0:
            if word:
                out.append(word)
            word = ""
        else:
            word += char
    if word:
        out.append(word)
    return out


# Names of today, for one function.

class Function:
    def __init__(self, entry):
        self.entry = entry
        self.needs = entry["needs"]
        self.used = []  # places that lemmas name
        self.lemmas = {}  # the place that a lemma of the file is about
        asked = entry["asked_at"]
        self.at = {new: asked[k][0] for k, (old, new) in enumerate(self.needs)} if len(asked) == len(self.needs) else {}
        self.places = {}
        for place in entry["places"]:
            self.places.setdefault(place[0], place)
        self.now = {place[0]: name for place, name in zip(entry["places"], entry["places_by_name"])}

    def goal(self, old):
        for wanted in (old, re.sub(r"^(overflow|nonzero)-", "", old)):
            for same in (lambda name: name == wanted, lambda name: squash(name) == squash(wanted)):
                found = [new for was, new in self.needs if same(was)]
                if found:
                    return found[0]
        return None

    def place_of(self, old):
        for name in self.places:
            if squash(name) == squash(old):
                return name
        return old

    def chain(self, place):
        """The places from `place` up to the start."""
        out = []
        while place is not None and place in self.places:
            out.append(place)
            place = self.places[place][1]
        return out

    def path(self, place, ups, field, rest):
        """Today's path for `field` and what follows it, at the place `ups` above `place`, or None. The count of
        places may have changed since: then the nearest place with that field counts."""
        chain = self.chain(place)
        rest = rest.replace("-", "_")
        wanted = squash(field)
        if wanted in ("args", "requires", "ranges", "wellformed", "utf8"):
            if wanted == "requires" and self.entry["pre"]:
                names = self.entry["pre"]["fields"]
                digit = re.match(r"\.(\d+)", rest)
                if digit and int(digit.group(1)) < len(names):
                    rest = "." + names[int(digit.group(1))] + rest[digit.end():]
            return {"wellformed": "well_formed"}.get(wanted, field) + rest
        order = [at for at in range(len(chain)) if at >= ups] + [at for at in reversed(range(len(chain))) if at < ups]
        for same in (wanted, wanted.replace("isplace", "place")):
            for at in order:
                row = self.places[chain[at]]
                old, new = row[2]
                if old and squash(old) == same:
                    digits = re.match(r"\.auto((?:\.1)*)(\.0)?$", rest)
                    params = self.entry["params"].get(row[3]) if row[3] else None
                    if digits and params and digits.group(1).count("1") < len(params):
                        rest = ".auto." + params[digits.group(1).count("1")]
                    row_at = self.entry["places"].index(row)
                    arm = self.entry["arms"][row_at] if row_at < len(self.entry["arms"]) else None
                    if arm:
                        for sub, was, path in arm[2]:
                            whole = "".join("." + word for word in path)
                            if squash(was) == same and whole and (rest + ".").startswith(whole + "."):
                                return arm[0] + "." + sub + rest[len(whole):]
                    return new + rest
        return None


def turn_places(text, function, where, root, place, told):
    """`text`, with the paths of the context `root`, which stands at `place`, turned. An alias `let d = c.before in`
    goes away."""
    env = {root: 0}
    out, at = "", 0
    token = re.compile(
        r"let\s+(?P<name>" + IDENT + r")\s+=\s+(?P<base>" + IDENT + r"?)(?P<ups>(?:\.before)*)\s+in\b\s*"
        r"|(?<![\w.\-«'′₀-₉])(?P<var>[^\s(){}\[\],;.←]+)(?P<upsb>(?:\.before)*)(?:\.(?P<field>[^\s(){}\[\],;.]+)(?P<rest>(?:\.[^\s(){}\[\],;.]+)*))?")
    for found in token.finditer(text):
        if found.start() < at:
            continue
        if found.group("name"):
            base = found.group("base")
            if base in env:
                env[found.group("name")] = env[base] + found.group("ups").count(".before")
                out += text[at:found.start()]
                at = found.end()
            continue
        var = found.group("var")
        if var not in env:
            continue
        ups = env[var] + found.group("upsb").count(".before")
        field = found.group("field")
        if field is None:
            if text[found.end():found.end() + 2] == " :":
                continue
            taker = re.search(r"(" + IDENT + r")\s+$", text[:found.start()])
            if taker and taker.group(1) in function.lemmas:
                chain = function.chain(place)
                if function.lemmas[taker.group(1)] in chain:
                    ups = chain.index(function.lemmas[taker.group(1)])
            out += text[at:found.start()] + root + ".before" * ups
            at = found.end()
            continue
        new = function.path(place, ups, field, found.group("rest")) if place else None
        if new is None:
            told.append("%s: %s at %s" % (where, found.group(0), place))
            new = field + found.group("rest")
        out += text[at:found.start()] + root + "." + new
        at = found.end()
    out += text[at:]
    for alias in re.findall(r"let\s+(" + IDENT + r")\s+=\s+" + re.escape(root) + r"\.args\s+in\b", out):
        out = re.sub(r"(?<![\w.\-])" + re.escape(alias) + r"\.[\w\-]+", lambda name: name.group(0).replace("-", "_"), out)
    return out


def turn_lemma(decl, function, told):
    """A lemma over a context, `(c : tie.PLACE)`: today's place, and its paths turned."""
    found = re.search(r"\((" + IDENT + r")\s+:\s+tie\.(" + IDENT + r")\)", decl["signature"])
    if not found:
        return
    root, place = found.group(1), function.place_of(found.group(2))
    new = function.now.get(place)
    if new is None:
        told.append("no place %s in the lemma %s" % (place, decl["name"]))
        return
    head = decl["signature"][:found.start()] + "(%s : %s)" % (root, new)
    function.used.append(new)
    decl["signature"] = head + turn_places(decl["signature"][found.end():], function, decl["name"], root, place, told)
    for at, item in enumerate(decl["body"]):
        if item.startswith(decl["name"] + " "):
            arguments, text = strip_head(item, decl["name"])
            if arguments:
                decl["body"][at] = item[:len(item) - len(text)] + turn_places(text, function, decl["name"], arguments[0], place, told)


def as_record(text, fields):
    """An answer that was a tuple of clauses, as a record of them."""
    depth, last = 0, 0
    for found in re.finditer(r"[(\[{]|[)\]}]|(?<!\S)in(?!\S)", text):
        word = found.group(0)
        if word == "in":
            if depth == 0:
                last = found.end()
        else:
            depth += 1 if word in "([{" else -1
    lets, end = text[:last], text[last:].strip()
    if end.startswith(("record", "search", "grind", "omega", "simp", "rw", "elim")):
        return text
    pieces, depth, piece = [], 0, ""
    for char in end:
        if char in ")]}":
            depth -= 1
        if char == "," and depth == 1:
            pieces.append(piece)
            piece = ""
        elif not (char in "()" and (depth == 0)):
            piece += char
        if char in "([{":
            depth += 1
    pieces.append(piece)
    gap = "\n    " if "\n" in text or lets else " "
    if end.startswith("(") and end.endswith(")") and len(pieces) == len(fields):
        return lets + gap.strip(" ") + "record { %s }" % "; ".join("%s = %s" % pair for pair in zip(fields, [piece.strip() for piece in pieces]))
    parts = "; ".join("%s = asked.%d" % (field, at) for at, field in enumerate(fields))
    return lets + "\n    let asked = %s in\n    record { %s }" % (end, parts)


def strip_head(equation, name):
    """(arguments, body) of an equation `name args = body`."""
    found = re.match(re.escape(name) + r"((?:\s+[^=\s]+)*?)\s+=(?:\s+|$)", equation)
    if not found:
        return None, equation
    return found.group(1).split(), equation[found.end():]


def turn_variables(body, given):
    """The parameters of an old invariant, as projections of `l`."""
    def one(found):
        word = found.group(0)
        return given.get(word, word)
    return re.sub(r"(?<![\w.\-])[^\s(){}\[\],;.]+(?!\w)", one, body)


def used(names, text):
    """Which of the imported names `text` uses."""
    out = []
    for name in names:
        bare = name.split(" as ")[-1].strip()
        symbols = [part for part in bare.split("◌") if part]
        if "◌" in bare:
            if bare in text or all(re.search(r"(^|[\s(])" + re.escape(symbol.strip()) + r"($|[\s)])", text) for symbol in symbols):
                out.append(name)
        elif re.search(r"(?<![\w\-'′₀-₉])" + re.escape(bare) + r"(?![\w\-'′₀-₉])", text):
            out.append(name)
    return out


def imports(uses, text):
    out = []
    for use in uses:
        if re.search(r"\.(Statement|Tie)\b", use):
            continue
        line = " ".join(use.split())
        found = re.match(r"use (\S+?)\.\{(.*)\}$", line)
        if not found:
            out.append(line)
            continue
        module, names = found.group(1), [name.strip() for name in found.group(2).split(",") if name.strip()]
        if module == "borrow.Author.Rules" or module == "native.Mathlib.Omega" or module == "mathlib.Core.Path":
            module = COMMON
        names = used(names, text)
        if names:
            out.append((module, names))
    merged, lines = {}, []
    for entry in out:
        if isinstance(entry, str):
            lines.append(entry)
        else:
            merged.setdefault(entry[0], [])
            merged[entry[0]] += [name for name in entry[1] if name not in merged[entry[0]]]
    return lines + ["use %s.{%s}" % (module, ", ".join(names)) for module, names in merged.items()]


def module_of(path):
    """crates/C/proofs/a/b/Proof.antt -> (Rattle.C.proofs.a.b, names.json's key)"""
    piece = path.split("/")
    crate, inner = piece[1], piece[3:-1]
    return "Rattle.%s.proofs.%s" % (crate, ".".join(inner)), "Rattle-%s-proofs.%s.Lts" % (crate, ".".join(inner))


def convert(path, names):
    module, key = module_of(path)
    entry = names.get(key)
    if entry is None:
        say("%s: no entry %s" % (path, key))
        return False
    function = Function(entry)
    with open(path) as file:
        head, uses, decls = parts(file.read())
    told = []
    folder = os.path.dirname(path)
    kept, invariants, answers, spec = [], [], [], None
    locals_ = {decl["name"] for decl in decls}
    for decl in decls:
        flat = " ".join(decl["signature"].split())
        found = re.search(r" : tie\.(\S+)", flat)
        if "tie.close" in " ".join(decl["body"]):
            spec = decl
        elif found and found.group(1).startswith("Need-"):
            answers.append((decl, found.group(1)[len("Need-"):]))
        elif found and re.match(r"(invariant|decreases)", found.group(1)):
            invariants.append((decl, found.group(1)))
        else:
            kept.append(decl)
    for decl in kept:
        about = re.search(r"\(" + IDENT + r"\s+:\s+tie\.(" + IDENT + r")\)", decl["signature"])
        if about:
            function.lemmas[decl["name"]] = function.place_of(about.group(1))
    # the arguments of tie.spec, which may be other lemmas
    direct = []
    if spec:
        text = " ".join(spec["body"][-1].split())
        found = re.search(r"tie\.spec (.*?)\)?$", text)
        if found:
            arguments = split_arguments(found.group(1).rstrip(")") if found.group(1).count("(") < found.group(1).count(")") else found.group(1))
            own = {decl["name"] for decl, _ in invariants}
            arguments = [argument for argument in arguments if argument not in own]
            answered = {decl["name"] for decl, _ in answers}
            if len(arguments) == len(function.needs):
                for (old, new), argument in zip(function.needs, arguments):
                    if argument not in answered:
                        direct.append((new, argument))
            else:
                others = [argument for argument in arguments if argument not in answered]
                if others:
                    told.append("tie.spec has %d answers for %d goals: %s" % (len(arguments), len(function.needs), " ".join(others)))
    # invariants
    out_invariants = []
    for decl, old in invariants:
        new, given = invariant_names(old, entry, folder, told)
        body = []
        for item in decl["body"]:
            if item.startswith(decl["name"] + " "):
                arguments, text = strip_head(item, decl["name"])
                body.append("%s l = %s" % (new, turn_variables(text, given(arguments))))
            else:
                body.append(item)
        out_invariants.append("\n".join(decl["comments"] + ["abbrev pub %s : goal.%s" % (new, new)] + body))
    # answers
    out_answers, have = [], set()
    for decl, old in answers:
        new = function.goal(old)
        if new is None:
            if any(squash(name) in (squash(old), squash("overflow" + old)) for name in entry.get("settled", [])):
                continue
            trivial = decl["body"] and strip_head(decl["body"][-1], decl["name"])[1] in TRIVIAL
            if not trivial:
                told.append("no goal for %s" % old)
            if trivial:
                continue
            new = old
        body, trivial = [], False
        for item in decl["body"]:
            if item.startswith(decl["name"] + " "):
                arguments, text = strip_head(item, decl["name"])
                if arguments is None:
                    arguments, text = [], item
                arguments = [argument for argument in arguments if argument != "κs"]
                if " ".join(text.split()) in DROPPED and len(decl["body"]) == 1:
                    trivial = True
                text = turn_places(text, function, new, arguments[-1] if arguments else "c", function.at.get(new), told)
                if re.match(r"shape_of-", new) and re.fullmatch(r"[^\s()]+\.auto\.[^\s()]+", text.strip()):
                    trivial = True
                if new in entry["asked"]:
                    text = as_record(text, entry["asked"][new])
                line = " ".join([new] + arguments) + " ="
                body.append(line + (" " if "\n" not in text else "\n    ") + text)
            else:
                body.append(item)
        if trivial:
            continue
        have.add(new)
        out_answers.append("\n".join(decl["comments"] + ["pub %s : goal.%s" % (new, new)] + body))
    for new, argument in direct:
        if new not in have and argument != "free":
            out_answers.append("pub %s : goal.%s\n%s = %s" % (new, new, new, re.sub(r"^\((.*)\)$", r"\1", argument)))
    # the other declarations
    for decl in kept:
        turn_lemma(decl, function, told)
    out_kept = ["\n".join(decl["comments"] + [decl["signature"]] + decl["body"]) for decl in kept]
    for decl in kept:
        if "tie." in decl["signature"] + " ".join(decl["body"]):
            told.append("a lemma names tie: %s" % decl["name"])
    in_invariants = []
    text_invariants = "\n\n".join(out_invariants)
    for _ in kept:
        for decl, text in zip(kept, out_kept):
            if text not in in_invariants and used([decl["name"]], text_invariants + "\n".join(in_invariants)):
                in_invariants.append(text)
    if out_invariants:
        write(os.path.join(folder, "Invariants.antt"), head, uses, module + ".Given", [], [text for text in out_kept if text in in_invariants] + out_invariants)
    rest = [text for text in out_kept if text not in in_invariants]
    if out_answers:
        cited = []
        names_in = [decl["name"] for decl, text in zip(kept, out_kept) if text in in_invariants]
        cited = used(names_in, "\n".join(rest + out_answers))
        extra = ["use %s.Invariants.{%s}" % (module, ", ".join(cited))] if cited else []
        if function.used:
            extra.append("use %s.Goals.{%s}" % (module, ", ".join(sorted(set(function.used)))))
        write(os.path.join(folder, "Answers.antt"), head, uses, module + ".Goals", extra, rest + out_answers)
    os.remove(path)
    for line in told:
        say("%s: %s" % (folder, line))
    return True


def invariant_names(old, entry, where, told):
    """Today's name of the invariant or the measure `old`, and a function from its old parameters to what they are."""
    kind, _, tail = old.partition("-")
    for place, ((was, now), variables) in enumerate(entry["loops"]):
        if squash(was) == squash(tail):
            changed = entry["changed"][place] if place < len(entry["changed"]) else []

            def given(arguments):
                out = {}
                if len(changed) == len(variables) and len(arguments) == len(variables) + sum(changed):
                    for argument, variable, does in zip(arguments, variables, changed):
                        out[argument] = ("l.initial." if does else "l.") + variable
                    moving = [variable for variable, does in zip(variables, changed) if does]
                    for argument, variable in zip(arguments[len(variables):], moving):
                        out[argument] = "l." + variable
                    return out
                told.append("%s: %d parameters for %s %s" % (old, len(arguments), variables, changed))
                for argument in arguments:
                    bare = argument.rstrip("₀")
                    near = [v for v in variables if squash(v) == squash(bare)] or [bare.replace("-", "_")]
                    out[argument] = ("l.initial." if argument.endswith("₀") else "l.") + near[0]
                return out
            return kind + "-" + now, given
    told.append("%s: no such loop" % old)
    return old, lambda arguments: {argument: "l." + argument.replace("-", "_") for argument in arguments}


def write(path, head, uses, module, extra, decls):
    text = "\n\n".join(decls)
    lines = head + imports(uses, text) + extra + ["use %s as goal" % module]
    with open(path, "w") as file:
        file.write("\n".join(lines) + "\n\n" + text + "\n")


def tactic_line(crate):
    for name in ("lib.rt", "main.rt"):
        path = os.path.join("crates", crate, "src", name)
        if not os.path.exists(path):
            continue
        with open(path) as file:
            text = file.read()
        if re.search(r"^#!\[tactic\(", text, re.M):
            return
        lines = text.splitlines(keepends=True)
        at = 0
        while at < len(lines) and lines[at].startswith("//"):
            at += 1
        lines.insert(at, "#![tactic(auto)]\n")
        with open(path, "w") as file:
            file.write("".join(lines))


def main():
    crates = [word for word in sys.argv[1:] if not word.startswith("-")]
    if not crates:
        with open("crates.txt") as file:
            crates = [line.split(":")[0].split()[0] for line in file if ":" in line and not line.startswith("#")]
    for crate in crates:
        paths = []
        for folder, _, files in os.walk(os.path.join("crates", crate, "proofs")):
            if "Proof.antt" in files:
                path = os.path.join(folder, "Proof.antt")
                with open(path) as file:
                    if re.search(r"^use .*\.Tie as tie", file.read(), re.M):
                        paths.append(path)
        tactic_line(crate)
        if not paths:
            continue
        if "--no-generate" not in sys.argv:
            run_generated(crate)
        names = read_names(crate)
        done = sum(convert(path, names) for path in sorted(paths))
        say("%s: %d of %d" % (crate, done, len(paths)))


if __name__ == "__main__":
    main()
