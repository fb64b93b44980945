#!/usr/bin/env python3
"""Spells this repository's own words of specs/ and proofs/ in snake case, once, after port.py: usage: tools/respell.py, at the top.

A word is a name that a file of specs/ or proofs/ declares, in camel case from a small letter on. It is renamed wherever it stands as a
whole name, in .rt, .antt and .edit files. Names of Rust functions, fields and constants, strings and types are left as they are.
The choice by a test, if_then_else_, gives its name to the library's and is when_then_else_.
usage: tools/respell.py choice, for the choice alone: it can be run again."""

import glob
import re
import sys

# what a name is made of: all but these
NAME = re.compile(r"[^\s(){}\[\].;,:\"«»⟦⟧@]+")
CAMEL = re.compile(r"(?:[^\sA-Z]*-)?[a-z][a-z0-9]*(?:[A-Z][a-z0-9]*)+[^\s]*")
DECLARED = re.compile(r"^ *(?:(?:abbrev|unfoldable|pub|data|record) )*([^\s(){}.:;,]+)(?: :| \(| \{)", re.M)
BOUND = re.compile(r" as ([a-z]\w*)")
# words of std's that the port spelled, and that stand in names of ours
STD = {"getD": "get_or"}
# words whose new spelling another name had
OTHERWISE = {"rowFits": "row_is_fit"}
# names that gave way to a word: a lemma about a word, or a record's field, of that spelling
GAVE_WAY = [("row_step", "row_step_lem", r"crates/(steps|demands)/proofs/[A-Z]\w*\.antt"), ("sums_at", "sums_at_lem", r"crates/(fills|linear)/proofs/[A-Z]\w*\.antt|crates/linear/proofs/has_sums/.*|crates/levels/proofs/learn_column/.*")]
FIELD = [("ensures.word_bytes", "ensures.word-bytes", r"crates/reading/proofs/.*")]


def snake(name):
    for old, new in STD.items():
        name = name.replace(old, new)
    return re.sub(r"(?<=[a-z0-9])([A-Z])", lambda m: "_" + m[1].lower(), name)


def choice(path, text):
    """`when b then x else y` in place of `if b then x else y`, but in comments and Rust code."""
    lines = []
    for line in text.split("\n"):
        said, dash, comment = line.partition("--") if path.endswith(".antt") else (line, "", "")
        said = said.replace("if◌then◌else◌", "when◌then◌else◌")
        if path.endswith(".antt") or re.search(r"\bif\b.* then ", said):
            said = re.sub(r"(?<![\w.\-'«])if(?![\w\-'◌»])", "when", said)
        lines.append(said + dash + comment)
    return "\n".join(lines)


def main():
    files = {}
    for kind in ("rt", "antt", "edit"):
        for path in sorted(glob.glob(f"crates/**/*.{kind}", recursive=True)):
            if "/out/" not in path:
                with open(path, encoding="utf-8") as f:
                    files[path] = f.read()
    if not files:
        sys.exit("run it at the top of the repository")
    for path, text in files.items() if sys.argv[1:] != ["choice"] else []:
        for old, new, where in GAVE_WAY:
            if re.fullmatch(where, path):
                text = NAME.sub(lambda m: new if m[0] == old else m[0], text)
        for old, new, where in FIELD:
            if re.fullmatch(where, path):
                text = text.replace(old, new)
        files[path] = text
    words = {"wordBytes"}
    for path, text in files.items():
        if path.endswith(".antt"):
            words |= {m for m in DECLARED.findall(text) if CAMEL.fullmatch(m)}
        words |= {m for m in BOUND.findall(text) if CAMEL.fullmatch(m)}
    table = {it: OTHERWISE.get(it) or snake(it) for it in words}
    if sys.argv[1:] == ["choice"]:
        table = {}
    for path, text in files.items():
        turned = choice(path, NAME.sub(lambda m: table.get(m[0], m[0]), text))
        with open(path, "w", encoding="utf-8") as f:
            f.write(turned)
    print(f"{len(table)} words")


main()
