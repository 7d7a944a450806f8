#!/usr/bin/env python3
"""Lists places in crates/*/src that a plainer form may serve, by their shape, point by point, and counts them.

    python3 tools/places.py [POINT ..] [--count]     at the top of a checkout

A place is a place to look: what each one is, and why it stays where it does, docs/DESIGN-PASS.md says. Comments do not count.
"""
import collections
import os
import re
import sys

ROOT = "crates"


def sources():
    for folder, _, names in sorted(os.walk(ROOT)):
        if "/src" in folder and "/out" not in folder:
            for name in sorted(names):
                if name.endswith(".rt"):
                    yield os.path.join(folder, name)


def bare(line):
    """The line without its comment."""
    return re.sub(r"//.*$", "", line)


class File:
    def __init__(self, path):
        self.path = path
        self.lines = [bare(l.rstrip("\n")) for l in open(path, encoding="utf-8")]
        self.crate = path.split("/")[1]


class Function:
    def __init__(self, file, at, head, clauses, body):
        self.file, self.at, self.head, self.clauses, self.body = file, at, head, clauses, body
        self.name = re.search(r"\bfn (\w+)", head).group(1)


def functions(file):
    lines, i = file.lines, 0
    while i < len(lines):
        if not re.match(r"\s*(pub(\(\w+\))? )?(const )?fn \w+", lines[i]):
            i += 1
            continue
        start, head, clauses, body = i, "", [], []
        indent = re.match(r"\s*", lines[i]).group(0)
        while i < len(lines):
            line = lines[i]
            if re.match(r"\s*(requires|ensures)\b", line):
                clauses.append(line.strip())
            elif line.rstrip() == indent + "{" or line.rstrip().endswith("{}") or (line.rstrip().endswith("{") and not clauses):
                if not line.strip().startswith("{"):
                    head += " " + line.strip()
                break
            else:
                head += " " + line.strip()
                if line.rstrip().endswith(";"):
                    break
            i += 1
        i += 1
        while i < len(lines) and lines[i].rstrip() != indent + "}":
            if lines[i].strip():
                body.append(lines[i].strip())
            i += 1
        yield Function(file, start + 1, head.strip(), clauses, body)
        i += 1


def enums(file):
    text = "\n".join(file.lines)
    for m in re.finditer(r"^(?:pub(?:\(\w+\))? )?enum (\w+)[^{]*\{(.*?)^\}", text, re.S | re.M):
        variants = [v.strip() for v in re.split(r",\s*\n|,\s*$", m.group(2)) if v.strip()]
        yield text[: m.start()].count("\n") + 1, m.group(1), variants


def structs(file):
    text = "\n".join(file.lines)
    for m in re.finditer(r"^(?:pub(?:\(\w+\))? )?struct (\w+)[^;{]*\{(.*?)^\}", text, re.S | re.M):
        fields = re.findall(r"^\s*(?:pub(?:\(\w+\))? )?(?!ghost)(\w+): (.+?),\s*$", m.group(2), re.M)
        ghosts = re.findall(r"^\s*(?:pub )?ghost (\w+)", m.group(2), re.M)
        yield text[: m.start()].count("\n") + 1, m.group(1), fields, ghosts


def matches(file, pattern):
    for i, line in enumerate(file.lines):
        if re.search(pattern, line):
            yield i + 1, line.strip()


def point1(files):
    """Enums of the shape of Option or Result; flags with a value beside; numbers for kinds; refusals in an Option."""
    for f in files:
        for at, name, variants in enums(f):
            held = [v for v in variants if "(" in v or "{" in v]
            if len(variants) <= 2 and held:
                yield f.path, at, f"enum {name} {{ {', '.join(variants)} }}"
        for at, line in matches(f, r"\((bool, [^()]+|[^()]+, bool)\)"):
            if not re.search(r"\bmatches!|assert", line):
                yield f.path, at, line
        for at, name, fields, ghosts in structs(f):
            if any(t == "bool" or n == "phase" for n, t in fields) and ghosts:
                yield f.path, at, f"struct {name}: {fields}"
        for at, line in matches(f, r"\bfn number\(|\bnumber: u(8|32)\b"):
            yield f.path, at, line
        for at, line in matches(f, r"-> (Result<)?Option<(\w*Refusal|\w*Fault|Trouble)>"):
            yield f.path, at, line


def shape(body):
    text = " ".join(body)
    text = re.sub(r'b?"[^"]*"|b\'.\'|\b[0-9][0-9_a-fx]*\b', "0", text)
    keep = {"let", "mut", "if", "else", "match", "for", "in", "while", "return", "Some", "None", "Ok", "Err", "self", "true", "false"}
    names = {}
    return re.sub(r"\b[A-Za-z_]\w*\b", lambda m: m.group(0) if m.group(0) in keep else names.setdefault(m.group(0), f"n{len(names)}"), text)


def point2(files):
    """Functions of one shape (alike but for names and literals), and types with the same ghost fields or the same fields."""
    groups = collections.defaultdict(list)
    for f in files:
        if "tests" in f.crate or f.path.endswith("tests.rt"):
            continue
        for fn in functions(f):
            s = shape(fn.body)
            if len(s) >= 24:
                groups[s].append((f.path, fn.at, f"fn {fn.name}"))
    types = collections.defaultdict(list)
    for f in files:
        for at, name, fields, ghosts in structs(f):
            if len(ghosts) >= 2:
                for pair in [("room", "few")]:
                    if set(pair) <= set(ghosts):
                        types[pair].append((f.path, at, f"struct {name} with ghost {', '.join(pair)}"))
            if len(fields) >= 2 and not ghosts:
                types[tuple(t for _, t in fields) + (name,)].append((f.path, at, f"struct {name}"))
        for at, name, variants in enums(f):
            types[("enum",) + tuple(variants)].append((f.path, at, f"enum {name}"))
    for group in list(groups.values()) + list(types.values()):
        if len(group) > 1:
            for place in group:
                yield place[0], place[1], place[2] + f" (one of {len(group)})"


def point3(files):
    """Loops that count or search by hand."""
    for f in files:
        for at, line in matches(f, r"\bwhile\b|\bloop\b|\.enumerate\(\)|\bfor \w+ in \(?[\w.]+\.\.|\+= 1\b"):
            yield f.path, at, line
        for fn in functions(f):
            text = " ".join(fn.body)
            if re.search(r"\bfor [^{]*\{ if [^{]*\{ return [^}]*\} \} [\w.:()]+$", text):
                yield f.path, fn.at, f"fn {fn.name}: for .. if .. return"


def point4(files):
    """Impls of equality, order and copying by hand, and functions that are one of these, a conversion or a printing. (An impl of From or Display is the form wanted.)"""
    for f in files:
        for at, line in matches(f, r"^impl\b.*\b(PartialEq|PartialOrd|Ord|Eq|Clone|Copy|Hash|Default|Debug)\b.* for "):
            yield f.path, at, line
        for fn in functions(f):
            text = " ".join(fn.body)
            one = len(fn.body) == 1 and re.match(r"[\w.*&()]+ (==|<|!=|>|<=|>=) [\w.*&()]+$", text)
            arms = len(fn.body) > 3 and re.match(r"match (\*?self(\.\w+)?|\w+) \{", text) and re.search(r"=> (\d+|\"|[A-Z]\w+::[A-Z]\w+),", text) and "-> " in fn.head
            if fn.name != "from" and (one or arms):
                yield f.path, fn.at, f"fn {fn.name}: {text[:70]}"


def point5(files):
    """A clause that stands in three or more functions of a crate, and two parameters that three or more functions take."""
    clauses, params = collections.defaultdict(set), collections.defaultdict(set)
    for f in files:
        if "tests" in f.crate:
            continue
        for fn in functions(f):
            for c in fn.clauses:
                body = re.sub(r"^(requires|ensures)\s*\w*\s*", "", c)
                clauses[(f.crate, body)].add((f.path, fn.at, fn.name))
            ps = re.findall(r"(\w+): (&?(?:mut )?[\w<>&'\[\], ]+?)(?=, \w+:|,?\s*\)|$)", fn.head.split("->")[0])
            for a in range(len(ps)):
                for b in range(a + 1, len(ps)):
                    params[(f.crate, tuple(sorted([ps[a], ps[b]])))].add((f.path, fn.at, fn.name))
    for (crate, body), fns in sorted(clauses.items()):
        if len(fns) >= 3:
            yield crate, len(fns), f"clause {body}"
    for (crate, pair), fns in sorted(params.items()):
        if len(fns) >= 3:
            yield crate, len(fns), f"parameters {', '.join(n + ': ' + t for n, t in pair)}"


def point6(files):
    """Buffers with a length or an index beside them, and lists that are kept sorted or searched by hand."""
    for f in files:
        for at, name, fields, ghosts in structs(f):
            buffers = [n for n, t in fields if t.startswith(("Vec<", "[")) or "Reserved<" in t]
            numbers = [n for n, t in fields if t in ("usize", "u64") and n in ("len", "used", "dealt", "next", "count")]
            if buffers and numbers:
                yield f.path, at, f"struct {name}: {', '.join(buffers)} beside {', '.join(numbers)}"
            elif len(buffers) > 1:
                yield f.path, at, f"struct {name}: {', '.join(buffers)}"
            elif "order" in ghosts:
                yield f.path, at, f"struct {name}: ordered"


def point7(files):
    """Enums that say which step to run: a parameter of an enum's type that the body or a callee matches on."""
    for f in files:
        for fn in functions(f):
            for m in re.finditer(r"(\w+): (Step|Whom|Call|Kind|Mode|Op)\b(?!<)", fn.head):
                yield f.path, fn.at, f"fn {fn.name}: {m.group(0)}"


def point8():
    """Answers, invariants and lemmas: the files of proofs/ and their lines."""
    counts = collections.Counter()
    for folder, _, names in os.walk(ROOT):
        if "/proofs" in folder and "/out" not in folder:
            for name in names:
                if name.endswith(".antt"):
                    kind = name if name in ("Answers.antt", "Invariants.antt", "Proof.antt") else "lemmas"
                    lines = open(os.path.join(folder, name), encoding="utf-8").read().split("\n")
                    counts[kind + ", files"] += 1
                    counts[kind + ", lines"] += len(lines) - 1
                    if kind == "Answers.antt":
                        counts["answers"] += sum(1 for l in lines if re.match(r"pub \S+ : goal\.", l))
    for k in sorted(counts):
        yield "proofs", counts[k], k


def main():
    wanted = [a for a in sys.argv[1:] if a.isdigit()] or list("12345678")
    count = "--count" in sys.argv
    files = [File(p) for p in sources()]
    for n in wanted:
        fn = globals()["point" + n]
        places = sorted(set(fn() if n == "8" else fn(files)))
        print(f"point {n}: {len(places)}    {fn.__doc__}")
        if not count:
            for path, at, what in places:
                print(f"  {path}:{at}: {what}")


main()
