#!/usr/bin/env python3
"""Respells this repository's own definitions and lemmas: `a-b` becomes `a_b`, and a fact gets a capital.

Run it once, at the top of the repository, after the kit's own script (docs/PORT.md). It renames what specs/ and
proofs/ of the crates declare, wherever they, the clauses of src/ and the wrong programs of must-fail/ name it.
Text in quotes stays, and so does a comment, but for a name between backquotes; so do functions of src/ and the
names that the check makes for a function's goals.
"""
import glob
import re

# Words that are spelled as facts, since they answer `Type 0`.
FACTS = {"left-with": "LeftWith"}

# Lemmas and values of one function's answers that no file of lemmas declares.
OF_ANSWERS = ["cut-back", "length-pointed"]

WORD = r"[^\W\d][\w'′]*"
DASHED = re.compile(rf"{WORD}(?:-[\w'′]+)+")
BINDER = re.compile(
    r"^\s*(?:(?:pub|abbrev|unfoldable|data|record)\s+)*([^\s:(){},.;=]+(?:\s+[^\s:(){},.;=]+)*)\s*:"
)
LOCAL = re.compile(r"\blet\s+([^\s:=(]+)\s*[:=]|[({]((?:[^\s:(){}]+\s+)*[^\s:(){}]+)\s*:|λ\s*((?:[^\s.()]+\s*)+)\.")


def declared():
    names = set(OF_ANSWERS)
    for path in glob.glob("crates/*/specs/**/*.antt", recursive=True) + glob.glob("crates/*/proofs/*.antt"):
        for line in open(path, encoding="utf-8"):
            line = code_of(line, "--")
            found = BINDER.match(line)
            words = found.group(1).split() if found else []
            for local in LOCAL.finditer(line):
                words += " ".join(group for group in local.groups() if group).split()
            names.update(word for word in words if DASHED.fullmatch(word))
    return names


def code_of(line, mark):
    """The line up to its comment."""
    return pieces(line, mark)[0]


def pieces(line, mark):
    """The line's code and its comment. A mark inside quotes, or inside a word, begins none."""
    quoted = False
    for at, char in enumerate(line):
        if char == '"' and (at == 0 or line[at - 1] not in "\\'"):
            quoted = not quoted
        if not quoted and line.startswith(mark, at) and (at == 0 or line[at - 1].isspace()):
            return line[:at], line[at:]
    return line, ""


def renamed(text, names):
    return DASHED.sub(lambda word: FACTS.get(word.group(), word.group().replace("-", "_"))
                      if word.group() in names else word.group(), text)


def respelled(line, mark, names):
    code, comment = pieces(line, mark)
    parts = re.split(r'("(?:[^"\\]|\\.)*")', code)
    code = "".join(part if part.startswith('"') else renamed(part, names) for part in parts)
    comment = re.sub(r"`[^`]*`", lambda part: renamed(part.group(), names), comment)
    return code + comment


def main():
    names = declared()
    for path in glob.glob("crates/**/*", recursive=True):
        mark = {"antt": "--", "rt": "//", "edit": "//"}.get(path.rsplit(".", 1)[-1])
        if mark is None or "/out/" in path:
            continue
        text = open(path, encoding="utf-8").read()
        lines = [respelled(line, "--" if "specs/" in text[:40] and mark == "//" and path.endswith("edit") else mark, names)
                 for line in text.splitlines(keepends=True)]
        if "".join(lines) != text:
            open(path, "w", encoding="utf-8").write("".join(lines))
            print(path)


main()
