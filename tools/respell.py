#!/usr/bin/env python3
"""Spells this repository's own definitions and lemmas as today's Rattle spells names: words in snake case.

usage: tools/respell.py            at the top of the checkout, once, after port.py

Turned, in src/, specs/, proofs/ and must-fail/ of each crate and in the documents that speak of what stands today: each name of an .antt file
that is in lower camel case, each field of a record of specs/ that has a dash, and the names of APART, which would fall together with another
name or with a word of antt. Names of functions, types and fields of src/ are in snake case already, and stay. It prints names that fall
together in one file.
"""

import pathlib
import re
import subprocess

NAME = re.compile(r"(?<![A-Za-z0-9_'·-])[A-Za-z_][A-Za-z0-9_'-]*")
# `first_of` is a tactic of antt. The lemmas stood beside the definition that now has their name.
APART = {"first_of": "first_refusal", "firstOf": "first_refusal"}
LEMMAS = {
    "crates/aggregates/": {"line_view": "line-view"},
    "crates/intervals/": {"kept_in": "kept-in"},
    "crates/ledger/": {"stepped_by": "stepped-by"},
    "crates/operators/": {"target_told": "target-told"},
    "crates/response/": {"each_more": "each-more"},
    "crates/chains/": {"met_at": "met-at"},
}
# Units of measure in comments.
STAY = {"kW"}
# A word of the library inside a lemma's name.
PARTS = {"getD": "get_or"}
DOCUMENTS = ["README.md", "docs/PROVED.md", "docs/DECISIONS.md"]


def files(*patterns):
    listed = subprocess.run(["git", "ls-files", *patterns], capture_output=True, text=True, check=True).stdout.split()
    return [pathlib.Path(it) for it in listed]


def snake(name):
    for part, now in PARTS.items():
        name = re.sub(rf"\b{part}\b", now, name)
    return re.sub(r"(?<=[a-z0-9])([A-Z])", lambda m: "_" + m[1].lower(), name)


def camel(name):
    return name not in STAY and re.match(r"[a-z]", name) and re.search(r"[a-z0-9][A-Z]", name)


def code(path, text):
    return re.sub(r"--[^\n]*" if path.suffix == ".antt" else r"//[^\n]*", "", text)


def turned():
    """Each old name, with its new one."""
    table = dict(APART)
    for path in files("crates/*.antt"):
        for name in NAME.findall(code(path, path.read_text())):
            if camel(name):
                table[name] = snake(name)
    for path in files("crates/*/specs/*.antt"):
        for name in re.findall(r"(?m)^  pub ([a-z][a-z-]*-[a-z-]*) :", path.read_text()):
            table[name] = name.replace("-", "_")
    return table


def main():
    table = turned()
    for path in files("crates/*.antt", "crates/*.rt", "crates/*.edit", *DOCUMENTS):
        text = path.read_text()
        lemmas = next((it for head, it in LEMMAS.items() if str(path).startswith(head) and path.suffix == ".antt" and "/proofs/" in str(path)), {})
        for lemma, now in lemmas.items():
            text = re.sub(rf"(?<![A-Za-z0-9_'.-]){lemma}(?![A-Za-z0-9_'-])", now, text)
        names = set(NAME.findall(code(path, text)))
        for old in sorted(names & set(table)):
            if path.suffix == ".antt" and table[old] in names and re.search(rf"(?<![A-Za-z0-9_'.-]){table[old]}(?![A-Za-z0-9_'.-])", code(path, text)):
                print(f"look: {path}: {old} and {table[old]}")
        now = NAME.sub(lambda m: table.get(m[0], m[0]), text)
        if now != path.read_text():
            path.write_text(now)


if __name__ == "__main__":
    main()
