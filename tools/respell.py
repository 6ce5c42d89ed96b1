#!/usr/bin/env python3
"""Brings the repository's own definitions and lemmas to today's spelling, by tools/respell.tsv.

usage: python3 tools/respell.py [TOP]     at the top of the repository, once, right after the kit's port.py

A row is an old name, a tab and its new name. Whole words turn: in .antt files, in clauses and 'ghost use' lines of .rt
files, in must-fail edits of either, and in code spans of .md files. Names of src/, strings and other comments stay.
A definition is in snake case; a lemma joins names by dashes and plain words by underscores; one that would have a
definition's name gets '_lem'. HERE has the rows for single files, where a lemma had a definition's new name already.
"""
import glob
import os
import re
import sys

top = sys.argv[1] if len(sys.argv) > 1 else "."
here = os.path.dirname(os.path.abspath(__file__))
with open(os.path.join(here, "respell.tsv"), encoding="utf-8") as f:
    TABLE = dict(line.rstrip("\n").split("\t") for line in f)

HERE = {
    "crates/walk/proofs/Closed.antt": {"after_last": "after_last_lem"},
    "crates/predicates/proofs/Live.antt": {"count_bits": "count_bits_lem"},
    "crates/registers/proofs/Legality.antt": {"count_at": "count_at_lem"},
    "crates/tally/proofs/Same.antt": {"count_at": "count_at_lem"},
    "crates/walk/proofs/Lanes.antt": {"count_at": "count_at_lem"},
    "crates/walk/proofs/Turns.antt": {"count_at": "count_at_lem"},
}

WORD = r"[^\s(){}.;,@\"«»`]+"
CAMEL = re.compile(r"(?<![\w-])[a-z][a-z0-9]*[A-Z][A-Za-z0-9]*(?![\w-])")
SPAN = re.compile(r"(`+)(?:[^\n`])+\1")
ANTT = re.compile(rf'"(?:[^"\\\n]|\\.)*"|(?<![^\s(){{}}.;,@])--[^\n]*|{WORD}')
RUST = re.compile(r'//[^\n]*|b?"(?:[^"\\]|\\.)*"|[A-Za-z_][A-Za-z0-9_\'-]*')


def word(w, table):
    bare = w.rstrip("'")
    return table.get(w) or (table[bare] + w[len(bare):] if bare in table else w)


def spans(text, table):
    """Prose: code spans turn, and names in camel case anywhere."""
    turn = lambda m: re.sub(WORD, lambda w: word(w[0], table), m[0])
    return CAMEL.sub(lambda m: word(m[0], table), SPAN.sub(turn, text))


def antt(text, table):
    def one(m):
        if m[0][0] == '"':
            return m[0]
        return spans(m[0], table) if m[0].startswith("--") else word(m[0], table)

    return ANTT.sub(one, text)


def rust(text, table):
    """Definitions in camel case: Rust has none of that spelling."""
    def one(m):
        if m[0][0] == '"' or m[0][:2] == 'b"':
            return m[0]
        if m[0][:2] == "//":
            return spans(m[0], table)
        return word(m[0], table) if CAMEL.fullmatch(m[0]) else m[0]

    return RUST.sub(one, text)


def edit(text, table):
    kind, out = rust, []
    for line in text.split("\n"):
        if line.startswith("file:"):
            kind = antt if line.rstrip().endswith(".antt") else rust
        head = re.match(r"(old|new): ?", line)
        out.append(head[0] + kind(line[head.end():], table) if head else spans(line, table) if line.startswith("#") else line)
    return "\n".join(out)


def main():
    kinds = [("crates/*/specs/**/*.antt", antt), ("crates/*/proofs/**/*.antt", antt), ("crates/*/src/**/*.rt", rust), ("crates/*/must-fail/*.edit", edit), ("crates/*.md", spans), ("*.md", spans), ("docs/**/*.md", spans)]
    for pattern, turn in kinds:
        for path in sorted(glob.glob(os.path.join(top, pattern), recursive=True)):
            if "/out/" in path:
                continue
            with open(path, encoding="utf-8") as f:
                text = f.read()
            new = turn(text, {**TABLE, **HERE.get(os.path.relpath(path, top), {})})
            if new != text:
                with open(path, "w", encoding="utf-8") as f:
                    f.write(new)


main()
