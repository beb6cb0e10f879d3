#!/usr/bin/env python3
"""Respells the repository's own definitions, lemmas and record fields as tools/spelling.txt says.

Run once at the top of a checkout, or with the folder of one. It goes over the names in specs/ and proofs/, in the clauses
of src/, and in the marked words of README.md and docs/. Behind a dot only a record's field is respelled, or a name of a
module that the file has imported under another name; the steps of a proof keep what the checker calls them.
"""
import glob
import os
import re
import sys

TOKEN = re.compile(r"[^\s(){}\[\]:;,.|&\"`]+")
ALIAS = re.compile(r"^(?:ghost )?use (?:Rattle\.[^ {]*\.)?(?:specs|proofs)\.[^ {]* as (\w+)", re.M)


def table(folder):
    names, fields = {}, {}
    for line in open(os.path.join(folder, "spelling.txt"), encoding="utf-8"):
        if line.startswith("#"):
            continue
        kind, old, new = line.split()
        if kind in ("name", "both"):
            names[old] = new
        if kind in ("field", "both"):
            fields[old] = new
    return names, fields


def respell(text, names, fields, modules):
    def turn(m):
        word, at = m.group(0), m.start()
        if at and text[at - 1] == ".":
            before = re.search(r"([^\s(){}\[\]:;,.|&\"`]+)\.$", text[:at][-80:])
            if before and before.group(1) in modules:
                return names.get(word, fields.get(word, word))
            return fields.get(word, word)
        return names.get(word, fields.get(word, word))

    return TOKEN.sub(turn, text)


def in_source(text, names, fields):
    """The clauses of a source: all but strings and comments."""
    part = re.compile(r'//[^\n]*|"(?:[^"\\]|\\.)*"')
    out, at = [], 0
    for m in part.finditer(text):
        out += [respell(text[at : m.start()], names, fields, set()), m.group(0)]
        at = m.end()
    return "".join(out + [respell(text[at:], names, fields, set())])


def main(top):
    names, fields = table(os.path.dirname(os.path.abspath(__file__)))
    for path in sorted(glob.glob(os.path.join(top, "crates/**/*"), recursive=True)):
        if "/out/" in path or not path.endswith((".antt", ".rt")):
            continue
        text = open(path, encoding="utf-8").read()
        if path.endswith(".rt"):
            new = in_source(text, names, fields)
        else:
            new = respell(text, names, fields, set(ALIAS.findall(text)))
        if new != text:
            open(path, "w", encoding="utf-8").write(new)
    for path in [os.path.join(top, "README.md")] + sorted(glob.glob(os.path.join(top, "docs/*.md"))):
        text = open(path, encoding="utf-8").read()
        new = re.sub(r"`[^`\n]+`", lambda m: respell(m.group(0), names, fields, set()), text)
        if new != text:
            open(path, "w", encoding="utf-8").write(new)


if __name__ == "__main__":
    main(sys.argv[1] if len(sys.argv) > 1 else ".")
