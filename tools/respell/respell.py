#!/usr/bin/env python3
"""Spells the repository's own definitions and lemmas as today's Rattle does: words in snake case, by the table names.tsv beside this file.

usage: python3 tools/respell/respell.py     at the top of the repository, once, after the kit's port.py

A row is: old name, tab, new name, and maybe a tab and the one crate that it is for. Whole names turn, in files of specs/ and proofs/, in
src/, in must-fail edits, and in the code spans of .md files. In a function's own proof (a folder of proofs/) a name with a dash that stands
behind a dot stays, since Rattle makes such names, unless it is a field of a record of the repository. The rows of ported.tsv are the
names that port.py turned in the crates; they, paths and operators turn here in must-fail edits and in .md files, which it leaves.
"""
import os
import re

HERE = os.path.dirname(os.path.realpath(__file__))
WORD = re.compile(r"[^\s(){}.;,@\"«»\[\]|:`]+")
FIELD = re.compile(r"^ +(?:pub )?([^\s(){}.;,@\"«»]+)(?: \([^()]*\))* :(?: |$)")
PATH = re.compile(r"Rattle·(\w+?)(?:·(?:specs|proofs)(?=\.(?:specs|proofs)))?(?![\w·])")
OPERATOR = re.compile(r"(?<![\w◌])_([⊑⊕⊖⊗⊞⊟≡+*≤<∷/%^-]|\+\+|&&)_(?!\w)")
HEAD = re.compile(r"(?<![^\s(){};,])(?:[\w.]*\.)?([A-Z]\w*)\.$")
SPAN = re.compile(r"(`+)(?:[^\n]|\n(?!\s*\n))*?\1")


def table(file):
    everywhere, scoped = {}, {}
    with open(os.path.join(HERE, file), encoding="utf-8") as f:
        for line in f:
            row = line.rstrip("\n").split("\t")
            if len(row) == 3:
                scoped.setdefault(row[2], {})[row[0]] = row[1]
            elif len(row) == 2:
                everywhere[row[0]] = row[1]
    return everywhere, scoped


def turned(text, names, stays):
    def word(m):
        w = m[0]
        if w not in names:
            return w
        return w if stays(text, m.start(), w) else names[w]

    return WORD.sub(word, text)


def behind_a_dot(text, at):
    return at > 0 and text[at - 1] == "."


def paths(root):
    for folder, dirs, files in os.walk(root):
        dirs[:] = sorted(d for d in dirs if d not in ("out", "target", ".git"))
        for name in sorted(files):
            yield os.path.join(folder, name)


def fields():
    found = set()
    for p in paths("crates"):
        if p.endswith(".antt"):
            with open(p, encoding="utf-8") as f:
                found |= {m[1] for line in f for m in [FIELD.match(line)] if m}
    return found


def main():
    everywhere, scoped = table("names.tsv")
    ported = table("ported.tsv")[0]
    own = fields()
    modules = {os.path.basename(p)[:-5] for p in paths("crates") if p.endswith(".antt")}
    count = 0
    for p in paths("."):
        steps = os.path.normpath(p).split(os.sep)
        crate = steps[1] if steps[0] == "crates" else None
        if crate and not p.endswith((".antt", ".rt", ".edit")) or not crate and not p.endswith(".md"):
            continue
        names = dict(everywhere, **scoped.get(crate, {}))
        if not p.endswith((".antt", ".rt")):
            names.update(ported)
        of_function = crate and steps[2] == "proofs" and len(steps) > 4

        def stays(text, at, w):
            if not behind_a_dot(text, at):
                return False
            if w in scoped.get(crate, {}):
                return True
            head = HEAD.search(text[max(0, at - 80) : at])
            if head and head[1] not in modules:
                return True
            return of_function and "-" in w and w not in own

        with open(p, encoding="utf-8") as f:
            before = text = f.read()
        if not p.endswith((".antt", ".rt")):
            text = OPERATOR.sub(r"◌\1◌", PATH.sub(r"Rattle.\1", text))
        if p.endswith(".md"):
            new = SPAN.sub(lambda m: turned(m[0], names, lambda *_: False), text)
        else:
            new = turned(text, names, stays)
        if new != before:
            count += 1
            with open(p, "w", encoding="utf-8") as f:
                f.write(new)
    print(f"respelled: {count} files")


main()
