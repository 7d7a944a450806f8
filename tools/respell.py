#!/usr/bin/env python3
"""Respells the repository's own definitions and lemmas: words in snake case, types in camel case.

usage: tools/respell.py [--check]        at the top of the repository, once, after the toolchain's port.py

Each name that a file of crates/*/specs or crates/*/proofs declares (a definition, a lemma, a field, a constructor, a local name) and that
has a dash or a capital inside is turned, in every .antt file and in the clauses of every .rt file: 'most-alarms' to 'most_alarms', 'withTask' to
'with_task', 'Rings-first' to 'RingsFirst'. Names that Rattle makes (goals, steps) stay. The work on the text is done by the
toolchain's snake.py over the table that this script writes. --check prints the names that would fall together, and writes nothing.
"""
import collections
import os
import re
import subprocess
import sys
import tempfile

SNAKE = "/opt/rattle/port/notes/2026-11-18-names-are-in-snake-case/snake.py"
WORD = re.compile(r"[^\s(){}.;,@\"«»]+")
HEAD = re.compile(
    r"^[ \t]*(?:abbrev |unfoldable |pub |data |record |irrelevant |instance |let )*([^\s(){}.;,@\"«»]+)(?=[^\n]*?(?: :| where| =))", re.M
)
GOAL = re.compile(r"^[ \t]*(?:abbrev |unfoldable |pub )*([^\s(){}.;,@\"«»]+) : goal\.", re.M)
# Names that Rattle makes, by their beginning or end.
MADE = re.compile(r"^(?:invariant-|decreases-|loop-.*-(?:init|preserved|smaller)|returns-|requires-)|-requires$")
# Where a new spelling would fall together with another name.
INSTEAD = {"is-number": "reads_as_number", "Alarms-ring": "EveryAlarmRings"}


def code(text):
    text = re.sub(r'"(?:[^"\\\n]|\\.)*"', '""', text)
    return re.sub(r"(?m)(?<![^\s(){}.;,@])--[^\n]*", "", text)


def files(top, kinds):
    for folder, dirs, names in os.walk(os.path.join(top, "crates")):
        dirs[:] = sorted(d for d in dirs if d != "out")
        for n in sorted(names):
            if n.endswith(kinds):
                yield os.path.join(folder, n)


def read(path):
    with open(path, encoding="utf-8") as f:
        return f.read()


def spelled(word):
    if word in INSTEAD:
        return INSTEAD[word]
    if word[0].isupper():
        return "".join(p[:1].upper() + p[1:] for p in word.split("-"))
    return re.sub(r"(?<=[a-z0-9])([A-Z])", lambda m: "_" + m.group(1).lower(), word).replace("-", "_")


def table(top):
    declared, goals = set(), set()
    for path in files(top, ".antt"):
        text = code(read(path))
        goals.update(GOAL.findall(text))
        declared.update(HEAD.findall(text))
        # names bound in binders and records
        declared.update(re.findall(r"[({]\s*([a-z][\w'-]*-[\w'-]*)\s*:(?!:)", text))
    # other names under which a file imports
    for path in files(top, (".antt", ".rt")):
        declared.update(re.findall(r"(?<= as )[a-z][\w'-]*-[\w'-]*", code(read(path))))
    rows = {}
    for word in sorted(declared - goals):
        if MADE.search(word) or not re.match(r"^[A-Za-z][\w'-]*$", word):
            continue
        new = spelled(word)
        if new != word:
            rows[word] = new
    return rows


def clashes(top, rows):
    for path in files(top, ".antt"):
        words = collections.defaultdict(set)
        for w in set(WORD.findall(code(read(path)))):
            words[rows.get(w, w)].add(w)
        for new, olds in sorted(words.items()):
            if len(olds) > 1:
                print(f"{os.path.relpath(path, top)}: {new}: {' '.join(sorted(olds))}")
    for path in files(top, ".rt"):
        text = read(path)
        ghost = set()
        for use in re.findall(r"ghost use [^;]*;", text):
            ghost.update(WORD.findall(use))
        items = set(re.findall(r"\b(?:fn|mod|const|struct|enum|trait|let|let mut)\s+([A-Za-z_]\w*)", text))
        items.update(re.findall(r"(?m)^(?:pub )?use [^;]*\b(\w+)[;}]", text))
        for w in sorted(ghost):
            if w in rows and rows[w] in items:
                print(f"{os.path.relpath(path, top)}: ghost {w} and item {rows[w]}")


def main():
    top = os.getcwd()
    rows = table(top)
    if "--check" in sys.argv:
        clashes(top, rows)
        print(f"{len(rows)} names")
        return 0
    with tempfile.TemporaryDirectory() as d:
        path = os.path.join(d, "table.tsv")
        with open(path, "w", encoding="utf-8") as f:
            f.writelines(f"{old}\t{new}\n" for old, new in sorted(rows.items()))
        # what stands behind c, l and w in a function's own proof is mostly a name that Rattle makes
        proofs, others = [], []
        for it in files(top, (".antt", ".rt")):
            (proofs if os.path.basename(it) in ("Answers.antt", "Invariants.antt", "Proof.antt") else others).append(it)
        for more, paths in (["--skip-behind", "c,l,w"], proofs), ([], others):
            if subprocess.run([sys.executable, SNAKE, "--table", path, "--code", *more, *paths]).returncode not in (0, 1):
                return 1
    return 0


if __name__ == "__main__":
    raise SystemExit(main())
