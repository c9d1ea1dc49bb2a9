#!/usr/bin/env python3
"""Turns proofs/F/Proof.antt of a crate into Answers.antt and Invariants.antt, by the names that `rt check --generated DIR --old-names` lists.

    turn_proofs.py CRATE_FOLDER [F ..]      F: folders below proofs/, as run_job or checks/entry_of; none: all that have a Proof.antt

Needs: the crates below are checked, and the crate's source passes the front end.
"""
import glob, json, os, re, subprocess, sys, tempfile

W = r"[A-Za-z_][A-Za-z0-9_'₀-₉-]*"


def norm(s):
    return re.sub(r"[-_]+", "-", s).lower()


def clauses_of(root):
    """Names of each function's requires and ensures, by its last name: {fn: (requires, ensures)}"""
    out = {}
    for p in glob.glob(os.path.join(root, "*/src/*.rt")):
        crate = p.split(os.sep)[-3]
        fn = None
        for line in open(p, encoding="utf-8"):
            m = re.search(r"\bfn (\w+)", line)
            if m and not line.lstrip().startswith("//"):
                fn = m.group(1)
                out.setdefault((crate, fn), ([], []))
            m = re.match(r"\s+(requires|ensures)\s*(\w+)?\s*\{", line)
            if m and fn:
                out[(crate, fn)][0 if m.group(1) == "requires" else 1].append(m.group(2))
    return out


def split_decls(text):
    """Head (comments and uses) and declarations: (comment lines, name, modifiers, type, unfolding lines, body)"""
    lines = text.split("\n")
    i = 0
    head = []
    while i < len(lines) and (lines[i].startswith(("--", "use ", "pub use ")) or lines[i].strip() == ""):
        # a comment right above a declaration belongs to it
        head.append(lines[i])
        i += 1
    back = []
    while head and head[-1].startswith("--"):
        back.insert(0, head.pop())
    decls = []
    pend = back
    cur = None
    SIG = re.compile(r"^((?:pub |abbrev |unfoldable )*)(%s) :(?= |$)(.*)$" % W)
    while i < len(lines):
        l = lines[i]
        m = SIG.match(l)
        if m:
            cur = {"comment": pend, "mods": m.group(1), "name": m.group(2), "sig": [m.group(3)], "unfold": [], "body": []}
            pend = []
            decls.append(cur)
            i += 1
            while i < len(lines) and lines[i].startswith(" ") :
                cur["sig"].append(lines[i])
                i += 1
            while i < len(lines) and lines[i].startswith("unfolding"):
                cur["unfold"].append(lines[i])
                i += 1
            continue
        if l.startswith("--"):
            pend.append(l)
            i += 1
            continue
        if cur is not None:
            cur["body"].append(l)
        i += 1
    for d in decls:
        while d["body"] and d["body"][-1].strip() == "":
            d["body"].pop()
    return head, decls


def goal_map(info):
    m = {}
    for old, new in info["needs"]:
        o = norm(old)
        for k in (o, "overflow-" + o, "nonzero-" + o, "bounds-" + o, re.sub(r"^index-", "bounds-", o), "element-" + o):
            m.setdefault(k, new)
    return m


def turn_file(crate, folder, info, own, clauses, root):
    path = os.path.join(root, crate, "proofs", folder, "Proof.antt")
    text = open(path, encoding="utf-8").read()
    head, decls = split_decls(text)
    goals = goal_map(info)
    places = {norm(p[0]): n for p, n in zip(info["places"], info["places_by_name"])}
    fields, callee = {}, {}
    for p in info["places"]:
        old, new = p[2]
        if old and not (p[3] is None and re.search(r"-1$", new) and not new.startswith(("if", "loop", "else", "in", "match"))):
            fields.setdefault(norm(old), new)
            if p[3]:
                callee[norm(old)] = p[3]
    fn = folder.split("/")[-1]

    def loopvars(name):
        for (old, new), vs in info.get("loops", []):
            if norm(old) == norm(name):
                i = [x[0][0] for x in info["loops"]].index(old)
                return new, vs, info["changed"][i]
        return None

    def clause_path(kind, names, digits):
        # right-nested: clause j is .1^j .0, the last .1^(k-1)
        k = len(names)
        if k < 2:
            return digits
        j = 0
        while j < k - 1 and j < len(digits) and digits[j] == "1":
            j += 1
        rest = digits[j:]
        if j < k - 1:
            if not rest or rest[0] != "0":
                return None
            rest = rest[1:]
        return [names[j]] + rest if names[j] else None

    def turn_path(tok):
        parts = tok.split(".")
        out = [parts[0]]
        i = 1
        prev = None
        while i < len(parts):
            p = parts[i]
            n = norm(p)
            if p in ("requires", "ensures"):
                digits = []
                k = i + 1
                while k < len(parts) and parts[k].isdigit():
                    digits.append(parts[k])
                    k += 1
                who = None
                if p == "requires" and (prev is None or prev in ("before",) or len(out) >= 1 and out[-1] != prev):
                    who = (crate, fn)
                if prev and norm(prev) in callee:
                    c = callee[norm(prev)].split("::")
                    who = (c[0], c[-1])
                elif p == "requires":
                    who = (crate, fn)
                out.append(p)
                names = clauses.get(who, ([], []))[0 if p == "requires" else 1] if who else []
                got = clause_path(p, names, digits)
                out += got if got is not None else digits
                prev = p
                i = k
                continue
            if prev == "args" or (prev and norm(prev) in fields and fields[norm(prev)].startswith("loop")):
                p = p.replace("-", "_")
                out.append(re.sub(r"^([a-z]+)1$", r"\1", p) if prev == "args" else p)
            elif n in fields and p != "before" and p not in ("now", "result", "true", "false"):
                out.append(fields[n])
            else:
                out.append(p)
            prev = p
            i += 1
        return ".".join(out)

    PATH = re.compile(r"--[^\n]*|(?<![\w.'-])(%s(?:\.[A-Za-z0-9_'₀-₉-]+)+)" % W)

    used = set()

    def turn_text(s):
        # types of goals and places
        def ty(m):
            n = norm(m.group(1))
            if n.startswith("need-") and n[5:] in goals:
                return "goal." + goals[n[5:]]
            if n in places:
                used.add(places[n])
                return places[n]
            if n.startswith("invariant-") or n.startswith("decreases-"):
                w, l = n.split("-", 1)
                got = loopvars(l)
                if got:
                    return f"goal.{w}-{got[0]}"
            return "goal.UNKNOWN-" + m.group(1)
        s = re.sub(r"tie\.(%s)" % W, ty, s)
        for inv in invs:
            s = re.sub(r"((?:goal\.)?[A-Z][^\s()]+|goal\.[^\s()]+)((?: (?:invariant|decreases)-[A-Za-z0-9-]+)+)", r"\1", s)
        def pt(m):
            if not m.group(1) or m.group(1).startswith(("goal.", "tie.", "Rattle.")):
                return m.group(0)
            return turn_path(m.group(1))
        return PATH.sub(pt, s)

    invs = [d for d in decls if re.match(r"\s*tie\.(invariant|decreases)", d["sig"][0])]
    uses = [l for l in head if l.startswith(("use ", "pub use ")) and not re.search(r"\.(Statement|Tie|Reads|Lts)(\.|\b| as)", l)]
    comments = [l for l in head if l.startswith("--")]
    answers, inv_out, todo = [], [], []
    renames = {}
    for d in decls:
        sig = d["sig"][0].strip()
        m = re.match(r"tie\.Need-(%s)" % W, sig)
        if m and norm(m.group(1)) in goals:
            renames[d["name"]] = goals[norm(m.group(1))]
        m = re.match(r"tie\.(invariant|decreases)-(%s)" % W, sig)
        if m and loopvars(m.group(2)):
            renames[d["name"]] = m.group(1) + "-" + loopvars(m.group(2))[0]

    def rename(s):
        return re.sub(r"(?<![\w.'-])(%s)" % W, lambda m: renames.get(m.group(1), m.group(1)), s)

    for d in decls:
        sig = "\n".join(d["sig"]).strip()
        body = "\n".join(d["body"])
        if "statement M" in sig:
            continue
        if d in invs:
            m = re.match(r"tie\.(invariant|decreases)-(%s)" % W, sig)
            new, vs, ch = loopvars(m.group(2))
            mm = re.match(r"%s((?: +[^\s=]+)*) =(.*)$" % re.escape(d["name"]), body, re.S)
            params = mm.group(1).split()
            rest = mm.group(2)
            changed = [v for v, c in zip(vs, ch) if c]
            sub = {}
            for k, p in enumerate(params):
                if k < len(vs):
                    sub[p] = ("l.initial." if ch[k] else "l.") + vs[k]
                elif k - len(vs) < len(changed):
                    sub[p] = "l." + changed[k - len(vs)]
            rest = re.sub(r"(?<![\w.'₀-])(%s)" % W, lambda m: sub.get(m.group(1), m.group(1)), rest)
            n = f"{m.group(1)}-{new}"
            inv_out.append((d["comment"], f"abbrev pub {n} : goal.{n}", d["unfold"], f"{n} l ={rest}"))
            continue
        is_goal = re.match(r"tie\.Need-(%s)" % W, sig)
        trivial = re.sub(r"\s+", " ", body).strip()
        if is_goal:
            new = renames.get(d["name"])
            if new is None:
                todo.append(d["name"])
                new = d["name"]
            args = re.match(r"%s((?: +[^\s=]+)*) =(.*)$" % re.escape(d["name"]), body, re.S)
            if not args:
                todo.append(d["name"] + " (clauses)")
                answers.append((d["comment"], "-- TODO " + d["name"], d["unfold"], body))
                continue
            rhs = args.group(2).strip()
            if rhs in ("search rules", "record { fits = search rules }", "(search rules)"):
                continue
            first = args.group(1).split()[:1] or ["c"]
            body2 = f"{new} {first[0]} =" + rename(turn_text(args.group(2)))
            answers.append((d["comment"], f"pub {new} : goal.{new}", d["unfold"], body2))
        else:
            s = turn_text(f"{d['mods']}{d['name']} : {sig}")
            answers.append((d["comment"], rename(s), d["unfold"], rename(turn_text(body))))
    mod = f"Rattle.{crate}.proofs.{folder.replace('/', '.')}"

    def emit(blocks, given):
        out = comments[:] + uses + [f"use {mod}.{given} as goal"]
        if given == "Goals" and used:
            out.append(f"use {mod}.Goals.{{{', '.join(sorted(used))}}}")
        out.append("")
        for comment, sig, unf, body in blocks:
            out += comment + [sig] + unf + [body, ""]
        return "\n".join(out)
    base = os.path.join(root, crate, "proofs", folder)
    os.remove(path)
    if inv_out:
        open(os.path.join(base, "Invariants.antt"), "w", encoding="utf-8").write(emit(inv_out, "Given"))
    if answers:
        open(os.path.join(base, "Answers.antt"), "w", encoding="utf-8").write(emit(answers, "Goals"))
    print(f"{crate}/{folder}: {len(answers)} answers, {len(inv_out)} invariants" + (f", look at {todo}" if todo else ""))


def main():
    where = os.path.realpath(sys.argv[1])
    crate = os.path.basename(where)
    root = os.path.dirname(where)
    out = os.path.join(tempfile.mkdtemp(), "names")
    r = subprocess.run(["rt", "check", "--generated", out, "--old-names"], cwd=where, stdout=subprocess.PIPE, stderr=subprocess.STDOUT, text=True)
    if not os.path.exists(out + "/names.json"):
        print(r.stdout[-3000:])
        sys.exit("no names")
    names = json.load(open(out + "/names.json"))
    clauses = clauses_of(root)
    wanted = sys.argv[2:] or [os.path.relpath(os.path.dirname(p), os.path.join(where, "proofs")) for p in glob.glob(where + "/proofs/**/Proof.antt", recursive=True)]
    own = set(os.listdir(root))
    for f in sorted(wanted):
        key = f"Rattle-{crate}-proofs.{f.replace('/', '.')}.Lts"
        if key not in names:
            print("no names for", f)
            continue
        turn_file(crate, f, names[key], own, clauses, root)


main()
