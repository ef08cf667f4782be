#!/usr/bin/env python3
"""Respells the repository's own names of specs/ and proofs/ as Rattle has them: words in snake case. Run once, after the port of the crates' spelling.

A name of Rust's side keeps its spelling: there no name begins with a small letter and has a capital further on. So each such token of the crates' .rt and
.antt files, of their must-fail edits and of the pages is respelled, but in a string. Prints each name with its new spelling. A new spelling that stood in
a file before is printed as 'falls together'.
"""
import glob
import re
import sys

TOKEN = re.compile(r"(?<![A-Za-z0-9_'])[a-z][A-Za-z0-9_'ℕ]*")
# Lemmas and fields to which the port gave the spelling that a definition of the same scope gets here: they take back the dash that they had.
BACK = {
    "crates/checks/proofs/Decide.antt": ["no_room"],
    "crates/checks/proofs/refusal/Proof.antt": ["no_room"],
    "crates/nodes_out/proofs/Kept.antt": ["no_room"],
    "crates/formula/proofs/Faults.antt": ["no_row"],
    "crates/formula/proofs/Listed.antt": ["node_at"],
    "crates/formula/proofs/Tests.antt": ["too_many"],
    "crates/formula/proofs/nodes/refusal/Proof.antt": ["too_many"],
    "crates/lines/proofs/Kept.antt": ["node_at"],
    "crates/nodes_in/proofs/Seen.antt": ["node_at"],
    "crates/order/proofs/Cursors.antt": ["left_end", "right_end"],
    "crates/round_trip/proofs/Promises.antt": ["node_at"],
}


def respelled(name):
    if not re.search(r"[a-z0-9][A-Z]", name):
        return name
    return re.sub(r"([a-z0-9])([A-Z])", lambda m: m.group(1) + "_" + m.group(2).lower(), name)


def main():
    files = [p for end in ("rt", "antt", "edit") for p in glob.glob(f"crates/**/*.{end}", recursive=True)]
    declared = set()
    for path in files:
        with open(path, encoding="utf-8") as f:
            declared |= set(TOKEN.findall(f.read()))
    turned = {name: respelled(name) for name in declared if respelled(name) != name}
    pages = sorted(glob.glob("docs/**/*.md", recursive=True)) + ["README.md", ".ci/rules"]
    together = 0
    for path in sorted(files) + pages:
        with open(path, encoding="utf-8") as f:
            text = f.read()
        for name in BACK.get(path, []):
            text = re.sub(rf"(?<![\w'/-]){name}(?![\w'-])", name.replace("_", "-"), text)
        there = set(TOKEN.findall(text))
        for name in sorted(there & set(turned)):
            if turned[name] in there:
                print(f"falls together: {path}: {name} and {turned[name]}")
                together += 1
        new = TOKEN.sub(lambda m: turned.get(m.group(0), m.group(0)), text)
        if new != text and "--dry" not in sys.argv:
            with open(path, "w", encoding="utf-8") as f:
                f.write(new)
    for name in sorted(turned):
        print(f"{name} {turned[name]}")
    print(f"respelled: {len(turned)} names; {together} may fall together")


if __name__ == "__main__":
    main()
