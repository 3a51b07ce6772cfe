#!/usr/bin/env python3
"""Brings this repository's own definitions and lemmas to today's spelling: words in snake case, types in camel case.

usage: python3 tools/spell.py        at the top, once, after the kit's port.py

It takes the names from specs/ and proofs/, and rewrites them there, in clauses and imports of src/, and in must-fail edits. Names
that the check makes for its goals keep their hyphens, and so do names of the library.
"""

import glob
import os
import re

WORD = r"(?<![\w'◌-])[A-Za-z][\w']*(?:-[\w']+)*(?![\w'-])"
# A name of a definition that a clause or a function of the code has too, or that a step before left half turned.
OTHERWISE = {"in-row": "has_place", "in_row": "has_place", "Row_is": "RowIs"}


def read(path):
    with open(path, encoding="utf-8") as f:
        return f.read()


def files(*endings):
    for e in endings:
        for p in sorted(glob.glob(f"crates/**/*{e}", recursive=True)):
            if "/out/" not in p:
                yield p


def is_answer(path):
    """Whether the file is one function's part of a proof, whose names the check makes."""
    return re.search(r"/proofs/.*/(Answers|Choices|Invariants|Proof)\.antt$", path) is not None


def declared(path):
    for line in read(path).splitlines():
        top = re.match(r"(?:(?:pub|abbrev|unfoldable|data|record)\s+)*([A-Za-z][\w'-]*)\b[^=]*:", line)
        if top and not line.startswith(("use ", "--", " ")) and not re.search(r":\s*goal\.", line):
            yield top.group(1)
        field = re.match(r"  (?:pub )?([A-Za-z][\w'-]*)\s*:", line)
        if field:
            yield field.group(1)


def turned(name):
    if name in OTHERWISE:
        return OTHERWISE[name]
    if name[0].isupper():
        return "".join(part[:1].upper() + part[1:] for part in name.split("-"))
    return name.replace("-", "_")


def imports(text):
    """The names that a file takes from the library."""
    found = set()
    for m in re.finditer(r"(?m)^\s*(?:ghost )?(?:pub )?use Rattle\.(?:std\w*|core)[\w.]*\.\{([^}]*)\}", text):
        found |= {n.strip().split(" as ")[-1] for n in m.group(1).split(",")}
    return found


def split_comment(line, mark):
    at = line.find(mark)
    return (line, "") if at < 0 else (line[:at], line[at:])


def rewrite(path, names):
    text = read(path)
    kept = imports(text)
    if is_answer(path):
        kept |= set(re.findall(r"(?m)^(?:abbrev |pub )*([\w'-]+)\s*:\s*goal\.", text))

    def one(m):
        name, before = m.group(0), m.string[: m.start()]
        if name not in names or name in kept:
            return name
        if is_answer(path) and (name == "in_row" or re.search(r"(?:^|[^\w'-])(?:c|g|l|goal|given)\.$", before)):
            return name
        if re.search(r"(?:ensures|requires)\*? $", before):
            return name
        return names[name]

    mark = "--" if path.endswith(".antt") else "//"
    out = []
    for line in text.split("\n"):
        code, comment = split_comment(line, mark)
        if path.endswith(".rt") and not re.search(r"ghost|ensures|requires|λ|≡|→", code):
            out.append(line)
            continue
        comment = re.sub(r"`[^`]*`", lambda q: re.sub(WORD, one, q.group(0)), comment)
        out.append(re.sub(WORD, one, code) + comment)
    new = "\n".join(out)
    if new != text:
        with open(path, "w", encoding="utf-8") as f:
            f.write(new)


def main():
    own = set()
    for p in files(".antt"):
        own |= set(declared(p))
    names = {n: turned(n) for n in own if "-" in n} | {n: OTHERWISE[n] for n in OTHERWISE}
    back = {}
    for old, new in sorted(names.items()):
        back.setdefault(new, []).append(old)
    for new, olds in sorted(back.items()):
        if new in own and new not in names.values() or len(olds) > 1 and not set(olds) <= set(OTHERWISE):
            print("falls together:", new, olds)
    for p in files(".antt", ".rt", ".edit"):
        rewrite(p, names)
    print(len(names), "names")


if __name__ == "__main__":
    main()
