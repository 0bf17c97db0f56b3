#!/usr/bin/env python3
"""Spells the repository's own definitions, fields and lemmas in snake case.

usage: python3 tools/snake_names.py        at the top of the repository, once, after the toolchain's port.py

A name counts as the repository's own if a text of specs/ or proofs/ declares it: as a definition, a lemma, a field,
a parameter, a variable of a clause, a `let` or an import under another name. In a file that brings the same name in
from the library, the library's is meant, and it stays. Names that the check makes (goals, and the steps behind `c.`)
keep their dashes, and so does all that is outside of ghost text: code, strings and comments.
"""

import os
import re

FACTS = {
    "Aba-is-right": "AbaIsRight",
    "All-natural": "AllNatural",
    "Mass-is-right": "MassIsRight",
    "Mass-is-symmetric": "MassIsSymmetric",
    "Refusal-is-right": "RefusalIsRight",
}
NAME = r"[^\s(){}.;,@\"«»\[\]λ→:=]+"
TOKEN = re.compile(r"[^\s(){}.;,@\"«»\[\]]+")
COMMENT = re.compile(r"(?m)(?:^|(?<=\s))--(?:\s.*)?$")
ANSWERS = re.compile(r"/proofs/.*/(Answers|Invariants|Choices)\.antt$")
MARKS = r"(?:(?:pub|abbrev|unfoldable|opaque|pattern)\s+)*"
DECLARED = re.compile(rf"(?m)^\s*{MARKS}({NAME})(?: \{{[^{{}}\n]*\}})?\s*:\s*(\S*)")
BINDER = re.compile(r"[({]((?:[^\s(){}.;,]+\s+)*[^\s(){}.;,]+)\s+:\s")
CLAUSE = re.compile(r"(?m)^\s*([^\s:=][^:=\n]*?) =(?=\s)")
ALIAS = re.compile(rf"\bas ({NAME})")
LET = re.compile(rf"\blet ({NAME})\s")
IMPORT = re.compile(r"\buse (\S+?)\.\{([^}]*)\}")
FIELD = re.compile(r"\s*=")
# What stands behind one of these is a name that the check makes.
MADE = ("c", "g", "l", "d", "w", "goal")
GHOST = re.compile(r"\bghost use [^;]*;|\b(?:requires|ensures)\b[^{]*(?=\{)|\bghost \w+\s*[:=]\s*(?=\{)|#\[tactic\([^\]]*\]")


def files(ending):
    for folder, dirs, names in os.walk("crates"):
        dirs[:] = sorted(d for d in dirs if d != "out")
        for name in sorted(names):
            if name.endswith(ending):
                yield os.path.join(folder, name)


def read(path):
    with open(path, encoding="utf-8") as f:
        return f.read()


def of_library(path):
    return not path.startswith("Rattle.") or path.split(".")[1] in ("std", "core")


def brought(text):
    """The names that a text brings in from the library."""
    return {n for where, names in IMPORT.findall(text) if of_library(where) for n in re.split(r"[,\s]+", names)}


def own_names():
    """The names with a dash, or with a capital behind a small letter, that texts of the repository declare."""
    found = set()
    for path in files(".antt"):
        text = COMMENT.sub("", read(path))
        for name, of in DECLARED.findall(text):
            if not of.startswith("goal."):
                found.add(name)
        for names in BINDER.findall(text):
            found.update(names.split())
        found.update(ALIAS.findall(text), LET.findall(text))
        if not ANSWERS.search(path):
            theirs = brought(text)
            for clause in CLAUSE.findall(text):
                found.update(set(TOKEN.findall(clause)) - theirs)
    for path in files(".rt"):
        for line in re.findall(r"\bghost use [^;]*;", read(path)):
            found.update(ALIAS.findall(line))
    dashed = {it for it in found if "-" in it.strip("-") and re.search("[A-Za-z]", it)}
    humps = {it for it in found if re.search("[a-z][A-Z]", it) and not it[0].isupper()}
    return dashed | humps


def snake(name):
    if name in FACTS:
        return FACTS[name]
    return re.sub("(?<=[a-z])[A-Z]", lambda m: "_" + m[0].lower(), name).replace("-", "_")


def turned(text, table, theirs, made):
    """The text with each name of the table respelled, but for what stands right behind one of `made`.

    A name of `theirs` is the library's where it stands alone, and a field of the repository's behind a dot or before `=`.
    """
    out, at, head, before = [], 0, None, None
    for m in TOKEN.finditer(text):
        between = text[at : m.start()]
        behind = before is not None and between == "."
        name = m[0]
        keep = before in made and head == before if behind else name in theirs and not FIELD.match(text, m.end())
        head = head if behind else name
        out += [between, name if keep else table.get(name, name)]
        at, before = m.end(), name
    return "".join(out) + text[at:]


def antt(path, table):
    text = read(path)
    bare = COMMENT.sub("", text)
    theirs = brought(bare)
    answers = ANSWERS.search(path)
    made = MADE if answers else ()
    goals = {n for n, of in DECLARED.findall(bare) if of.startswith("goal.")} if answers else set()
    mine = {old: new for old, new in table.items() if old not in goals}
    out, at = [], 0
    for m in COMMENT.finditer(text):
        out += [turned(text[at : m.start()], mine, theirs, made), m[0]]
        at = m.end()
    return "".join(out) + turned(text[at:], mine, theirs, made)


def closing(text, i):
    deep = 0
    for k in range(i, len(text)):
        deep += (text[k] == "{") - (text[k] == "}")
        if not deep:
            return k + 1
    return len(text)


def rattle(path, table):
    text = read(path)
    out, at = [], 0
    for m in GHOST.finditer(text):
        if m.start() < at or re.search(r"//[^\n]*$", text[: m.start()].rsplit("\n", 1)[-1]):
            continue
        end = closing(text, m.end()) if text[m.end() : m.end() + 1] == "{" else m.end()
        out += [text[at : m.start()], turned(text[m.start() : end], table, (), ())]
        at = end
    return "".join(out) + text[at:]


def main():
    table = {old: snake(old) for old in own_names() if snake(old) != old}
    fall = {}
    for old, new in table.items():
        fall.setdefault(new, []).append(old)
    for new, olds in sorted(fall.items()):
        if len(olds) > 1:
            print(f"fall together as {new}: {' '.join(sorted(olds))}")
    changed = 0
    for ending, turn in ((".antt", antt), (".rt", rattle)):
        for path in files(ending):
            old = read(path)
            new = turn(path, table)
            if new != old:
                changed += 1
                with open(path, "w", encoding="utf-8") as f:
                    f.write(new)
    print(f"{len(table)} names respelled in {changed} files")


if __name__ == "__main__":
    main()
