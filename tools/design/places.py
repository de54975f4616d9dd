#!/usr/bin/env python3
"""Lists the places in crates/*/src that older forms of the language would leave.

    tools/design/places.py [ROOT]          counts, a line for each kind
    tools/design/places.py ROOT --list     the places too

It reads the files as text and judges nothing: docs/DESIGN-PASS.md says of each place what became of it.
"""
import collections
import pathlib
import re
import sys

ROOT = pathlib.Path(sys.argv[1] if len(sys.argv) > 1 else ".")
LIST = "--list" in sys.argv

FUNCTION = re.compile(r"^(?P<indent> *)(pub(\([a-z]+\))? )?(extern \"C\" )?fn (?P<name>\w+)")
NAME = re.compile(r"[A-Za-z_]\w*|b?\"[^\"]*\"|b?'[^']*'|\d[\w.]*")
KEYWORDS = set(
    "fn let mut if else match for while in return true false pub impl struct enum const self Self ref as "
    "Some None Ok Err Result Option Vec".split()
)


class Function:
    def __init__(self, path, line, name, head, body):
        self.where = f"{path.relative_to(ROOT)}:{line} {name}"
        self.name, self.head, self.body = name, head, body


def functions(path):
    lines = path.read_text().split("\n")
    at = 0
    while at < len(lines):
        found = FUNCTION.match(lines[at])
        if not found:
            at += 1
            continue
        end_head = at
        while not re.match(r"^ *\{$", lines[end_head]) and not lines[end_head].rstrip().endswith(("{}", ";", " {")):
            end_head += 1
        end = end_head
        if not lines[end_head].rstrip().endswith(("{}", ";")):
            while lines[end].rstrip() != found["indent"] + "}":
                end += 1
        yield Function(path, at + 1, found["name"], lines[at : end_head + 1], lines[end_head + 1 : end])
        at = end + 1


def shape(text):
    seen = {}

    def other(word):
        word = word.group(0)
        if word in KEYWORDS:
            return word
        return seen.setdefault(word, f"v{len(seen)}")

    return NAME.sub(other, text)


def tokens(function):
    text = "\n".join(line.strip() for line in function.body if not line.strip().startswith("//"))
    return re.sub(r"\s+", " ", text)


FILES = sorted(ROOT.glob("crates/*/src/**/*.rt"))
ALL = [f for path in FILES for f in functions(path)]
KINDS = []


def kind(point, what, places):
    KINDS.append((point, what, places))


def lines_like(pattern, leave=None):
    out = []
    for path in FILES:
        for number, line in enumerate(path.read_text().split("\n"), 1):
            if re.search(pattern, line) and not line.strip().startswith("//"):
                if not (leave and re.search(leave, line)):
                    out.append(f"{path.relative_to(ROOT)}:{number} {line.strip()}")
    return out


def heads_like(pattern):
    return [f.where for f in ALL if re.search(pattern, " ".join(line.strip() for line in f.head))]


# 1
kind(1, "enums, to be looked at for the shape of Option or Result", lines_like(r"^(pub(\(crate\))? )?enum "))
kind(1, "answers Ok(flag)", heads_like(r"-> Result<bool,"))
kind(1, "changes what it is given and answers a flag", heads_like(r"&mut [^{]*-> bool"))
kind(1, "a flag in a field", lines_like(r"^\s+(pub )?\w+: bool,$"))
kind(1, "answers a number for what an enum is", [f.where for f in ALL if re.search(r"-> (u8|usize)\b", " ".join(f.head)) and re.search(r"=> \d+,", "\n".join(f.body))])
kind(1, "answers 0 for nothing", [f.where for f in ALL if [b.strip() for b in f.body] == ["0"]])

# 2
shapes = collections.defaultdict(list)
for f in ALL:
    text = tokens(f)
    if len(text) > 40:
        shapes[shape(text)].append(f.where)
twins = [group for group in shapes.values() if len(group) > 1]
kind(2, "functions of one shape, names and constants aside (all members of each group)", [w for g in twins for w in sorted(g) + ["--"]])
fields = collections.defaultdict(list)
for path in FILES:
    for found in re.finditer(r"struct (\w+)[^{;]*\{\n(.*?)\n\}", path.read_text(), re.S):
        row = re.sub(r"(///|//)[^\n]*|\s|pub(\(crate\))? |ghost [^\n]*", " ", found[2])
        names = tuple(re.findall(r"(\w+) ?:", row))
        if len(names) > 1:
            fields[names].append(f"{path.relative_to(ROOT)} {found[1]}")
kind(2, "structs with the same fields", [w for g in fields.values() if len(g) > 1 for w in g + ["--"]])

# 3
loops = lines_like(r"^\s*(for|while|loop)\b")
kind(3, "loops over a range of numbers", [l for l in loops if re.search(r"\.\.", l)])
kind(3, "loops with while", [l for l in loops if re.search(r"\bwhile\b", l)])
kind(3, "other loops, to be looked at for a method of the library", [l for l in loops if not re.search(r"\.\.|\bwhile\b", l)])

# 4
kind(4, "equality, conversion and printing by functions of their own", [f.where for f in ALL if re.match(r"^(is|is_same|names|says|words|word|identity|new|hex|hex_digit|quote|no_\w+)$", f.name)])
kind(4, "enums and structs that derive no comparison", [f"{p.relative_to(ROOT)} {m[2]}" for p in FILES for m in re.finditer(r"((?:#\[derive\([^\]]*\)\]\n)?(?:#\[[^\]]*\]\n)*)(?:pub(?:\(crate\))? )?(?:enum|struct) (\w+)", p.read_text()) if "PartialEq" not in m[1]])

# 5
facts = collections.defaultdict(set)
pairs = collections.defaultdict(set)
for f in ALL:
    head = " ".join(line.strip() for line in f.head)
    for clause in re.findall(r"(?:requires|ensures)(?: \w+)? \{ (.*?) \}(?= |$)", head):
        for fact in re.split(r" × ", clause):
            fact = re.sub(r"^\(|\)$", "", fact.strip().strip("()"))
            facts[fact].add(f.where)
    inside = re.search(r"fn \w+(?:<[^(]*>)?\((.*?)\)(?: ->| requires| ensures| \{|$)", head)
    names = re.findall(r"(\w+): ", inside[1]) if inside else []
    for i in range(len(names)):
        for j in range(i + 1, len(names)):
            pairs[(names[i], names[j])].add(f.where)
kind(5, "facts in the clauses of three functions or more", [f"{len(w)} x {fact}" for fact, w in sorted(facts.items()) if len(w) > 2])
kind(5, "two parameters that stand together in three functions or more", [f"{len(w)} x {' '.join(p)}" for p, w in sorted(pairs.items()) if len(w) > 2])

# 6
kind(6, "arrays of fixed size in a field", lines_like(r"^\s+(pub(\(crate\))? )?\w+: \[.*; .*\],$"))
kind(6, "a length, a depth or a place in a field", lines_like(r"^\s+(pub(\(crate\))? )?(len|length|depth|next|size|records|start|count|row|end): usize,$"))

# 7
kind(7, "takes the step that it is to do", heads_like(r"\b(rule|step|stage|mode): (Rule|Step|Stage|Mode)\b"))
kind(7, "function pointers, boxed closures", lines_like(r": fn\(|Box<dyn"))

# 8
proofs = sorted(ROOT.glob("crates/*/proofs/**/*.antt"))
kind(8, "files of answers", [str(p.relative_to(ROOT)) for p in proofs if p.name == "Answers.antt"])
kind(8, "files of invariants", [str(p.relative_to(ROOT)) for p in proofs if p.name == "Invariants.antt"])
kind(8, "other files of proofs", [str(p.relative_to(ROOT)) for p in proofs if p.name not in ("Answers.antt", "Invariants.antt", "Lib.antt")])

last = None
for point, what, places in KINDS:
    if point != last:
        print(f"point {point}")
        last = point
    print(f"  {len([p for p in places if p != '--']):4} {what}")
    if LIST:
        for place in places:
            print(f"         {place}")
total = sum(len(p.read_text().split("\n")) - 1 for p in proofs)
print(f"lines of proofs: {total}")
