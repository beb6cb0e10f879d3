#!/usr/bin/env python3
"""Names the steps of proof files as today's checker does: a word of the source keeps its underscores.

    tools/steps.py [FOLDER]      at the top of a checkout, or with the folder of one
"""
import glob
import os
import re
import sys

TOKEN = re.compile(r"[^\s(){}\[\]:;,.|&\"`]+")


def words(top):
    found = set()
    for path in glob.glob(os.path.join(top, "crates/*/src/**/*.rt"), recursive=True):
        found |= set(re.findall(r"\b[a-z][a-z0-9]*(?:_[a-z0-9]+)+\b", open(path, encoding="utf-8").read()))
    found |= {"from_residual", "enum_told_at", "saturating_add", "checked_mul", "checked_add", "with_capacity", "copy_from_slice", "from_elem", "as_slice", "as_str", "push_str", "try_from", "unwrap_or", "map_err"}
    return {w.replace("_", "-"): w for w in found}


def turn(token, known):
    if "-" not in token:
        return token
    token = re.sub(r"\bin-(err|ok)(?=-|$)", r"in_\1", token)
    token = re.sub(r"\bin-default(?=-|$)", "in_default", token)
    parts = token.split("-")
    out, i = [], 0
    while i < len(parts):
        for j in range(len(parts), i + 1, -1):
            joined = "-".join(parts[i:j])
            if joined in known:
                out.append(known[joined])
                i = j
                break
        else:
            out.append(parts[i])
            i += 1
    return "-".join(out)


def main(top):
    known = words(top)
    for path in glob.glob(os.path.join(top, "crates/*/proofs/**/*.antt"), recursive=True):
        if os.path.basename(path) not in ("Answers.antt", "Invariants.antt"):
            continue
        text = open(path, encoding="utf-8").read()
        kept = set()
        for names in re.findall(r"^use (?:Rattle\.std|borrow|denote|lib|mathlib)[^{\n]*\{([^}]*)\}", text, re.M):
            kept |= {n.strip() for n in names.split(",")}
        new = TOKEN.sub(lambda m: m.group(0) if m.group(0) in kept else turn(m.group(0), known), text)
        if new != text:
            open(path, "w", encoding="utf-8").write(new)


if __name__ == "__main__":
    main(sys.argv[1] if len(sys.argv) > 1 else ".")
