#!/usr/bin/env python3
"""Brings the repository's own definitions and lemmas to today's spelling: words in snake case.

usage: python3 tools/port_names.py [--dry]     at the top of the repository, once, after the kit's port.py

A name is turned part by part, where a hyphen parts what a lemma is of from what it says: `endsAt` becomes `ends_at`, `sumOf-add` becomes
`sum_of-add`. It goes over crates/ (specs, proofs, ghost text of the sources, must-fail edits). Types, modules, variants and functions of
src/, exported names and strings keep theirs. APART has the lemmas that would fall together with a definition.
"""
import glob
import json
import os
import re
import sys

WORD = re.compile(r'[^\s(){}.;,@"«»\[\]|`]+')
STRING = re.compile(r'"(?:[^"\\\n]|\\.)*"')
# Lemmas that port.py spelled as a definition is spelled now, by file: they take their hyphen back.
APART = {
    "crates/begin_check/proofs/Laws.antt": {"numbers_fit": "numbers-fit"},
    "crates/weak_begin_check/proofs/Laws.antt": {"numbers_fit": "numbers-fit"},
    "crates/release_plan/proofs/Owners.antt": {"owner_at": "owner-at"},
    "crates/release_plan/proofs/find_owner/Proof.antt": {"owner_at": "owner-at"},
    "crates/layout/proofs/Tabled.antt": {"starts_from": "starts-from"},
    "crates/layout/proofs/Tables.antt": {"starts_from": "starts-from"},
}


def snake(part):
    if not re.match(r"^[a-z]", part) or not re.search(r"[A-Z]", part) or "_" in part and re.search(r"_[A-Z]", part):
        return part
    return re.sub(r"([A-Z])([A-Z][a-z])", r"\1_\2", re.sub(r"([a-z0-9])([A-Z])", r"\1_\2", part)).lower()


def turned(word, apart={}):
    if word in apart:
        return apart[word]
    if any(mark in word for mark in ("::", "·", "#", "/")):
        return word
    return "-".join(snake(p) for p in word.split("-"))


def text(t, apart={}):
    out, at = [], 0
    for s in STRING.finditer(t):
        out.append(WORD.sub(lambda m: turned(m[0], apart), t[at:s.start()]))
        out.append(s[0])
        at = s.end()
    out.append(WORD.sub(lambda m: turned(m[0], apart), t[at:]))
    return "".join(out)


def files():
    for root in ("specs", "proofs"):
        yield from glob.glob(f"crates/*/{root}/**/*.antt", recursive=True)
    yield from glob.glob("crates/*/src/**/*.rt", recursive=True)
    yield from glob.glob("crates/*/must-fail/*.edit")


def main():
    if not os.path.isdir("crates"):
        sys.exit("run it at the top of the repository")
    n = 0
    for f in sorted(files()):
        with open(f, encoding="utf-8") as it:
            old = it.read()
        new = text(old, APART.get(f, {}))
        if new != old:
            n += 1
            if "--dry" not in sys.argv:
                with open(f, "w", encoding="utf-8") as it:
                    it.write(new)
    print(f"{n} files turned")


if __name__ == "__main__":
    main()
