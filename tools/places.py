#!/usr/bin/env python3
"""Counts the places of the design pass in crates/*/src: `tools/places.py FOLDER`, or `tools/places.py FOLDER all` to list them.

Each point has rules that a text search can follow, so that two states of the repository are counted alike. A rule finds
candidates; docs/DESIGN-PASS.md says what was done with them, and why one stays. The rules of points 2 and 5 go over functions
and leave out the crates of tests.
"""
import collections
import glob
import re
import sys

ROOT = sys.argv[1] if len(sys.argv) > 1 else "."
ALL = len(sys.argv) > 2

RULES = {
    "1 verdicts as an Option of a refusal": r"Option<(Refusal|TextRefusal)>",
    "1 enums": r"^\s*(pub(\(crate\))? )?enum ",
    "1 a flag with a value beside it": r"^\s*(pub(\(crate\))? )?(ring: Option<Ring>|layer: OwnerLayer|changed: bool)",
    "1 a number for a refusal or for nothing": r"-14\b|== 0 \{|\bor 0\b|> 0 &&|unwrap_or\(0\)",
    "3 `while` loops": r"\bwhile\b(?! let)",
    "3 `for` over numbers": r"\bfor \w+ in [^{]*\.\.",
    "3 counters stepped by hand": r"\+= 1\b|\.saturating_add\(1\);",
    "4 conversions and printing by a `match`": r"fn (\w+_name|\w+_text|number_of|told|refused|row_text|in_figures)\b|=> b\"",
    "4 impls of Display, From and the like": r"^impl.* (fmt::Display|Display|From<.*>|TryFrom<.*>|PartialEq|Ord|PartialOrd|Clone|Debug) for ",
    "6 tables of a fixed size in a struct": r"^\s*(pub(\(crate\))? )?\w+: \[.*; *[\w_]+\],",
    "6 a length beside a table": r"^\s*(pub(\(crate\))? )?(count|depth|done|from|length|places): usize,",
    "7 calls told apart by a `match` on a step": r"match (self|call|walk|\*self|verdict|stride|self\.state|self\.\w+) \{",
    "7 function pointers and tables of functions": r": fn\(|&dyn |Box<dyn",
}

TOKEN = re.compile(r'"(?:[^"\\]|\\.)*"|b"(?:[^"\\]|\\.)*"|[A-Za-z_][A-Za-z_0-9]*|[0-9][0-9_]*|\S')
KEEP = {"if", "else", "match", "for", "while", "let", "return", "in", "mut", "loop", "fn", "Some", "None", "Ok", "Err", "as"}
CLAUSE = re.compile(r"(ensures\*?|requires)( \w+)?$")


def strip(text):
    return re.sub(r"//[^\n]*", "", text)


def functions(text):
    """Name, contract and body of each function that has a body."""
    for m in re.finditer(r"\bfn (\w+)", text):
        depth, square, at, start = 0, 0, m.end(), None
        while at < len(text):
            c = text[at]
            square += (c == "[") - (c == "]")
            if c == ";" and depth == 0 and square == 0:
                break
            if c == "{":
                if depth == 0 and not CLAUSE.search(text[m.end():at].rstrip().split("\n")[-1].strip()):
                    start = at
                depth += 1
            if c == "}":
                depth -= 1
                if depth == 0 and start is not None:
                    yield m.group(1), text[m.end():start], text[start:at + 1]
                    break
            at += 1


def shape(body):
    """The body with its names, numbers and texts blanked."""
    return " ".join(t if t in KEEP or not (t[0].isalnum() or t[0] in '_"') else "_" for t in TOKEN.findall(body))


shapes, clauses, params, found = (collections.defaultdict(set), collections.defaultdict(set), collections.defaultdict(set), collections.defaultdict(list))
for path in sorted(glob.glob(ROOT + "/crates/*/src/**/*.rt", recursive=True)):
    name = path[len(ROOT):].lstrip("/")
    raw = open(path).read()
    for n, line in enumerate(raw.split("\n"), 1):
        code = line if "or 0" in line else re.sub(r"//[^\n]*", "", line)
        for rule, pattern in RULES.items():
            if re.search(pattern, code):
                found[rule].append(f"{name}:{n}: {line.strip()}")
    if "_tests/" in name:
        continue
    for fn, contract, body in functions(strip(raw)):
        where = f"{name}: {fn}"
        blank = shape(body)
        if len(blank.split()) >= 14:
            shapes[blank].add(where)
        for c in re.findall(r"(?:ensures|requires)(?: \w+)? \{(.*?)\}\s*(?=\n)", contract):
            clauses[" ".join(c.split())].add(where)
        taken = [f"{a}: {t.strip()}" for a, t in re.findall(r"(\w+): ([^,)]+)", contract.split("->")[0])]
        for i, a in enumerate(taken):
            for b in taken[i + 1:]:
                params[(a, b)].add(where)
for where in shapes.values():
    if len(where) > 1:
        found["2 functions of one shape"].append(", ".join(sorted(where)))
for c, where in clauses.items():
    if len(where) > 2:
        found["5 clauses in three contracts or more"].append(f"{len(where)}: {c}")
for p, where in params.items():
    if len(where) > 2:
        found["5 parameters that travel together, in three functions or more"].append(f"{len(where)}: {p[0]}, {p[1]}")
answers = [a for a in glob.glob(ROOT + "/crates/*/proofs/**/Answers.antt", recursive=True) if "/out/" not in a]
found["8 files of answers"] = answers
found["8 lines of answers"] = [line for a in answers for line in open(a).read().split("\n")[:-1]]
for rule in sorted(set(found) | set(RULES)):
    print(f"{len(found[rule]):5} {rule}")
    if ALL and not rule.startswith("8"):
        for place in found[rule]:
            print("        " + place)
