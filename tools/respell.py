#!/usr/bin/env python3
"""Respells this repository's own definitions and lemmas: words in snake case, as `slots_in` for `slotsIn` and `due_first` for `due-first`.

    tools/respell.py [FOLDER]      a repository that the kit's port.py has turned; the names go by what its crates declare

A name is turned where the repository declares it in specs/, or in a file that stands right in proofs/. Names of functions, of the kit and
those that Rattle makes (goals, with a dash between their parts) keep their spelling. A lemma that would have the name of a definition gets
`_lem`. With --names FILE the names come from FILE and not from the folder, so that other text can be turned by the same ones.
"""
import collections
import glob
import json
import os
import re
import sys

WORD = r"[A-Za-z_ℕ◌≡][A-Za-z0-9_'′₀-₉-]*"
DECLARED = re.compile(r"^\s*((?:pub |abbrev |unfoldable |record |data |ruleset )*)([A-Za-z][A-Za-z0-9_'₀-₉-]*)(?: [({].*)?\s+:\s")


def snake(name):
    name = re.sub(r"(?<=[A-Za-z0-9'₀-₉])-(?=[A-Za-z0-9])", "_", name)
    if name[0].islower():
        name = re.sub(r"([A-Z])", lambda m: "_" + m.group(1).lower(), name)
    return re.sub(r"__+", "_", name)


def lemma_files(root):
    for pattern in ("crates/*/specs/**/*.antt", "crates/*/proofs/*.antt"):
        for path in glob.glob(os.path.join(root, pattern), recursive=True):
            yield path


def declared_in(path):
    names = set()
    for line in open(path, encoding="utf-8"):
        if line.lstrip().startswith("--"):
            continue
        m = DECLARED.match(line.rstrip("\n") + " ")
        if m and m.group(2) not in ("use", "elim", "let", "in", "where"):
            names.add(m.group(2))
        # fields of a record that are given on one line, and names of several things at once
        m = re.match(r"^\s*((?:[a-z][A-Za-z0-9'-]* )+): ", line)
        if m:
            names.update(m.group(1).split())
    return names


def turned_names(root):
    declared = collections.defaultdict(set)
    for path in lemma_files(root):
        for name in declared_in(path):
            declared[name].add(path)
    groups = collections.defaultdict(set)
    for name in declared:
        groups[snake(name)].add(name)
    turned = {}
    for new, olds in sorted(groups.items()):
        # a definition, in camel case so far, keeps the plain name; a lemma gives way
        camel = sorted(n for n in olds if "-" not in n and n != new)
        plain = camel[:1] or [n for n in olds if n == new] or sorted(olds)[:1]
        for old in olds:
            to = new
            if len(olds) > 1 and old not in plain:
                to = new + "_lem"
            if old != to:
                turned[old] = to
    return turned


TOKEN = re.compile(r"(\"(?:[^\"\\]|\\.)*\")|(--[^\n]*|//[^\n]*)|([A-Za-z][A-Za-z0-9_'₀-₉]*(?:-[A-Za-z0-9_'₀-₉]+)*)", re.U)


def kept_in(text, own, turned):
    """Names that this text takes from the kit or declares itself in a function's own proof: they keep their spelling."""
    kept = set()
    for m in re.finditer(r"use ((?:Rattle\.)?[^\s{;]+)\.\{([^}]*)\}", text):
        path, names = m.group(1), m.group(2)
        crate = path.split(".")[1] if path.startswith("Rattle.") and "." in path else path
        made = ".Goals" in path or ".Given" in path
        if crate not in own or made:
            for n in names.split(","):
                kept.add(n.strip().split(" as ")[-1])
    return kept


def turn(text, turned, own, local=frozenset()):
    kept = kept_in(text, own, turned) | set(local)

    def one(m):
        if m.group(1):
            return m.group(0)
        if m.group(2):
            # in a comment only what can be no English word
            return re.sub(r"[A-Za-z][A-Za-z0-9'-]*", lambda w: turned[w.group(0)] if w.group(0) in turned and
                          re.search(r"[a-z][A-Z]", w.group(0)) and w.group(0) not in kept else w.group(0), m.group(0))
        name = m.group(3)
        before = text[max(0, m.start() - 5):m.start()]
        if before.endswith("goal.") or (name in kept):
            return name
        return turned.get(name, name)

    return TOKEN.sub(one, text)


def proof_local(root, path, text):
    """What the proof of a function declares stands in that file alone."""
    rest = path[len(os.path.join(root, "crates")) + 1:].split(os.sep)
    if len(rest) > 3 and rest[1] == "proofs":
        return {m.group(2) for m in map(DECLARED.match, (l + " " for l in text.split("\n"))) if m}
    return set()


def own_crates(root):
    return set(os.listdir(os.path.join(root, "crates")))


def main():
    args = sys.argv[1:]
    names = None
    if "--names" in args:
        i = args.index("--names")
        names = json.load(open(args[i + 1], encoding="utf-8"))
        del args[i:i + 2]
    root = args[0] if args else "."
    turned = names if names is not None else turned_names(root)
    own = own_crates(root)
    for path in sorted(glob.glob(os.path.join(root, "crates/**/*"), recursive=True)):
        if not path.endswith((".antt", ".rt")) or f"{os.sep}out{os.sep}" in path:
            continue
        text = open(path, encoding="utf-8").read()
        local = proof_local(root, path, text)
        new = turn(text, turned, own, local)
        imported = collections.Counter()
        for m in re.finditer(r"use [^\s{;]+\.\{([^}]*)\}", new):
            for n in m.group(1).split(","):
                imported[n.strip().split(" as ")[-1]] += 1
        for n, k in imported.items():
            if k > 1:
                print(f"look: {path}: {n} is imported {k} times")
        if new != text:
            open(path, "w", encoding="utf-8").write(new)
    json.dump(turned, open(os.path.join(root, "tools", "respelled.json"), "w", encoding="utf-8"), indent=0, sort_keys=True,
              ensure_ascii=False) if os.path.isdir(os.path.join(root, "tools")) else None
    print(f"{len(turned)} names")


if __name__ == "__main__":
    main()
