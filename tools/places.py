#!/usr/bin/env python3
"""Counts, in the code of crates/*/src, the places of each point that docs/DESIGN-PASS.md goes through: `tools/places.py` prints a number for each
row, `tools/places.py -v` each place too. It goes by text, so a row says where to look and no more: what each place is, the page says.
"""
import collections, pathlib, re, sys

root = pathlib.Path(__file__).resolve().parent.parent
loud = "-v" in sys.argv[1:]
sources = {f: re.sub(r"//[^\n]*", "", f.read_text()) for f in sorted((root / "crates").glob("*/src/*.rt"))}
FN = re.compile(r"(?m)^( *)(?:pub )?(?:extern \"C\" )?fn (\w+)(?:<[^>]*>)?\((.*?)\)(.*?)^\1\}", re.S)


def functions():
    """each function: its place, its parameters, its clauses and its body"""
    for f, text in sources.items():
        for m in FN.finditer(text):
            head, mark, body = m[4].partition("\n" + m[1] + "{\n")
            if not mark:
                head, _, body = m[4].partition("{\n")
            yield f"{f.parts[-3]}::{m[2]}", m[3], head, body


def structs():
    for f, text in sources.items():
        for name, body in re.findall(r"(?m)^(?:pub )?struct (\w+)(?:<[^>]*>)? \{(.*?)^\}", text, re.S):
            yield f"{f.parts[-3]}::{name}", body


def lines(pattern):
    for f, text in sources.items():
        for n, line in enumerate(text.split("\n"), 1):
            if re.search(pattern, line):
                yield f"{f.parts[-3]}:{n} {line.strip()}"


def shape(body):
    """a body with its names and numbers numbered in the order in which they come"""
    seen = {}
    words = re.findall(r"[A-Za-z_](?:\w|\.(?=[a-z0-9])|::)*|\d+|[^\s\w]", re.sub(r"\blet \w+ = ([\w.:]+);\s*", "", body))
    keep = {"if", "else", "for", "in", "while", "loop", "match", "return", "let", "mut", "as", "true", "false"}
    return " ".join(w if w in keep or not re.match(r"\w", w) else str(seen.setdefault(w, len(seen))) for w in words)


def twins():
    groups = collections.defaultdict(list)
    for place, _, _, body in functions():
        if len(re.findall(r"\w+", body)) >= 8:
            groups[shape(body)].append(place)
    return [" = ".join(g) for g in groups.values() if len(g) > 1]


def parameters(text):
    return {re.sub(r"\s+", " ", p).strip() for p in re.split(r",(?![^\[<(]*[\]>)])", text) if ":" in p and not p.strip().startswith("rt:")}


def together():
    """parameters, three or more, that stand together in three or more functions: the largest sets alone"""
    lists = {place: frozenset(parameters(ps)) for place, ps, _, _ in functions()}
    found = {}
    names = list(lists)
    for i, a in enumerate(names):
        for b in names[i + 1:]:
            common = lists[a] & lists[b]
            if len(common) >= 3:
                users = [n for n in names if common <= lists[n]]
                if len(users) >= 3:
                    found[common] = users
    largest = [c for c in found if not any(c < d and set(found[c]) <= set(found[d]) for d in found)]
    return [f"({', '.join(sorted(c))}): {', '.join(found[c])}" for c in largest]


def facts():
    """facts about a value that three or more functions ask for or promise"""
    users = collections.defaultdict(set)
    for place, _, head, _ in functions():
        for clause in re.findall(r"(?:requires|ensures) ?\w* \{(.*?)\}\n", head + "\n", re.S):
            for fact in re.findall(r"\b([A-Z]\w+) ((?:\w+|\([^()]*\))(?:\.\w+)*)", clause):
                users[fact[0]].add(place)
    return [f"{fact}: {', '.join(sorted(p))}" for fact, p in sorted(users.items()) if len(p) >= 3]


def with_length():
    """memory or an array, and beside it how much of it is used"""
    for place, ps, _, _ in functions():
        if re.search(r"&(?:mut |'a )?\[|; \d+\]|; \w+\]", ps) and (m := re.search(r"\b(at|used|count|n|len|rows|passed|taken): usize", ps)):
            yield f"{place}({m[0]})"
    for place, body in structs():
        if re.search(r"; \w+\]", body) and re.search(r"\b(len|used|count): usize", body):
            yield place


def parallel():
    """two or more arrays of one length"""
    for place, ps, _, _ in functions():
        sizes = collections.Counter(re.findall(r"; (\w+(?:::\w+)?)\]", ps))
        if any(n > 1 for n in sizes.values()):
            yield place
    for place, body in structs():
        sizes = collections.Counter(re.findall(r"; (\w+(?:::\w+)?)\]", body))
        if any(n > 1 for n in sizes.values()):
            yield place


def by_hand():
    for place, ps, head, body in functions():
        if re.search(r"-> (bool|u32|u64|usize|\w+)", head) and re.fullmatch(r"\s*match \w+ \{(\s*[\w:]+ => [\w:]+,)+\s*\}\s*", body):
            yield f"{place}: a value for each variant"
        elif re.search(r"-> bool", head) and re.fullmatch(r"\s*\w+\.\w+ == (\w+\.)?\w+\s*", body):
            yield f"{place}: an equality"
        elif not ps.strip() and re.search(r"-> [A-Z]", head) and "{" in body:
            yield f"{place}: a first value"
        elif re.search(r"\bas u64;?$", body.strip()) and body.count("\n") < 2:
            yield f"{place}: a conversion"
        elif re.search(r"\bprintl?n?!\(rt; \"[^\"]{0,6}\"\)", body):
            yield f"{place}: prints by parts"


def answers():
    return [f for f in (root / "crates").glob("*/proofs/**/Answers.antt")]


rows = [
    ("1  a flag in a struct, beside what it speaks of", lambda: [f"{p}.{m}" for p, b in structs() for m in re.findall(r"(?:pub )?(\w+): bool", b)]),
    ("1  an answer in a struct, beside what is there where it is no refusal", lambda: [p for p, b in structs() if re.search(r"\banswer: ", b)]),
    ("1  an enum with a variant for what went well", lambda: list(lines(r"^enum|^pub enum (\w+Answer)"))),
    ("1  a number that stands for none", lambda: list(lines(r"\bNO_PLACE\b|\bNO_RELEASE\b|\bNEVER\b"))),
    ("1  a number for a kind", lambda: list(lines(r"\bkind (==|!=) \d"))),
    ("1  a number for an answer", lambda: list(lines(r"call_answers::[A-Z_]+|answer: &mut u32|\banswer: u32|^pub const [A-Z_]+: u32 = \d+;$"))),
    ("2  bodies that differ in names and numbers alone", twins),
    ("3  while loops", lambda: list(lines(r"^\s*while "))),
    ("3  for over a range, whose number is an index", lambda: [x for x in lines(r"^\s*for \w+ in [^{]*\.\.")]),
    ("4  equality, values of variants, first values, conversions, printing", lambda: list(by_hand())),
    ("4  numbers' own functions", lambda: list(lines(r"base_numbers::(less|smaller|both|part_of|is_multiple|is_within|upward)"))),
    ("5  parameters that go together", together),
    ("5  facts in three contracts or more", facts),
    ("6  memory with a length beside it", lambda: list(with_length())),
    ("6  parallel arrays", lambda: list(parallel())),
    ("7  function pointers and dyn", lambda: list(lines(r"\bdyn \b|: fn\("))),
    ("7  a match that picks what to call", lambda: [p for p, _, _, b in functions() if len(re.findall(r"=> (?:\{\s*)?(?:let \w+ = )?[\w:]+\(", b)) >= 3]),
    ("8  answer files", answers),
    ("8  lines of answers", lambda: [None] * sum(len(f.read_text().splitlines()) for f in answers())),
    ("8  steps back by .before", lambda: [None] * sum(f.read_text().count(".before") for f in answers())),
]
for name, find in rows:
    places = find()
    print(f"{len(places):5} {name}")
    if loud:
        for p in places:
            if p is not None:
                print(f"        {p.relative_to(root) if isinstance(p, pathlib.Path) else p}")
