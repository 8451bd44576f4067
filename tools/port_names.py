#!/usr/bin/env python3
"""Brings the repository's own definitions and lemmas from camel case to snake case, after port.py has run.

usage: tools/port_names.py [ROOT]: rewrites crates/*/{src,specs,proofs,must-fail} in place, code and comments.
A dash joins two names and stays: each part of a dashed name is turned by itself. Types, modules, constructors and fields of Rust
keep their spelling. A lemma that would fall together with a definition keeps its dash (KEPT). Prints what it turned.
"""
import os
import re
import sys

CAMEL = re.compile(r"[a-z]+[a-z0-9]*(?:[A-Z][A-Za-z0-9']*)+$")
NAME = re.compile(r"[\w'][\w'\-]*")
# Lemmas whose dash port.py made an underscore, and that would then have a definition's name.
KEPT = {
    "crates/image/proofs/ReadBack.antt": {"hand_in": "hand-in", "ring_in": "ring-in"},
    "crates/frames/proofs/Before.antt": {"opens_before": "opens-before"},
}


def files(root):
    for folder, folders, names in os.walk(os.path.join(root, "crates")):
        folders[:] = sorted(f for f in folders if f != "out")
        for name in sorted(names):
            if name.endswith((".rt", ".antt", ".edit")):
                yield os.path.join(folder, name)


def read(path):
    with open(path, encoding="utf-8") as f:
        return f.read()


def snake(word):
    return re.sub(r"(?<=[a-z0-9])[A-Z]+", lambda m: "_" + m.group(0).lower(), word)


def imported(texts):
    """The names that files take from elsewhere than this repository: they stay."""
    own = {p.split(os.sep + "crates" + os.sep, 1)[1].split(os.sep)[0] for p in texts}
    taken = set()
    for text in texts.values():
        for path, names in re.findall(r"(?m)^\s*(?:pub |ghost )*use ([\w.\-]+)\.\{([^}]*)\}", text):
            if not (path.startswith("Rattle.") and path.split(".")[1] in own):
                taken |= {part for name in NAME.findall(names) for part in name.split("-")}
    return taken


def main(root):
    texts = {p: read(p) for p in files(root)}
    for place, names in KEPT.items():
        path = os.path.join(root, place)
        for word, name in names.items():
            texts[path] = re.sub(r"(?<![\w.'\-])%s(?![\w'\-])" % word, name, texts[path])
    stay = imported(texts)
    turned = {}
    for path, text in texts.items():
        if path.endswith(".edit"):
            continue
        for name in NAME.findall(re.sub(r'"[^"\n]*"', '""', re.sub(r"(--|//).*", "", text))):
            for part in name.split("-"):
                if CAMEL.match(part) and part not in stay:
                    turned[part] = snake(part)
    together = {}
    for word, name in turned.items():
        together.setdefault(name, []).append(word)
    for name, words in together.items():
        if len(words) > 1:
            raise SystemExit(f"{' and '.join(words)} would both be {name}")

    def turn(match):
        return "-".join(turned.get(part, part) for part in match.group(0).split("-"))

    for path, text in texts.items():
        new = NAME.sub(turn, text)
        if new != read(path):
            with open(path, "w", encoding="utf-8") as f:
                f.write(new)
    print(" ".join(f"{word}:{name}" for word, name in sorted(turned.items())))
    print(len(turned), "names turned")


main(os.path.abspath(sys.argv[1] if len(sys.argv) > 1 else "."))
