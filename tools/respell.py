#!/usr/bin/env python3
"""Brings the definitions and lemmas of this repository to the spelling of today's Rattle: words in snake case.

usage: tools/respell.py            rewrites crates/, docs/, README.md and tests/, once, behind port.py

Types, modules and facts keep their capitals. A lemma that would have its definition's name gets `_lem`.
Functions of src/, exported names, strings, inputs and outputs keep their names.
"""
import pathlib
import re
import sys

ROOT = pathlib.Path(__file__).resolve().parent.parent

# lemmas that the definition of the same words would fall together with, and the files that speak of the lemma
LEMMAS = {
    "rest_from": ["steps/proofs/Halves.antt", "steps/proofs/octet"],
    "shifted_in": ["queue/proofs/Shifting.antt", "queue/proofs/shift", "arrivals/proofs/plain"],
    "line_gives": ["history/proofs/Places.antt", "arrivals/proofs/PlainReplies.antt"],
    "no_room": ["answers/proofs/Taking.antt", "answers/proofs/Rows.antt"],
}
WORD = re.compile(r"(?<![A-Za-z0-9_'])(?!b')[a-z][A-Za-z0-9_']*[A-Z][A-Za-z0-9_']*")
TEXT = re.compile(r'"[^"\n]*"')


def snake(name):
    """lineGives as line_gives."""
    return re.sub(r"_?([A-Z])", lambda m: "_" + m.group(1).lower(), name)


def outside_texts(text, turn):
    """The text with turn applied to what is not in double quotes."""
    parts, at = [], 0
    for m in TEXT.finditer(text):
        parts += [turn(text[at:m.start()]), m.group(0)]
        at = m.end()
    return "".join(parts + [turn(text[at:])])


def sources():
    for pattern in ("crates/*/src/**/*.rt", "crates/*/specs/**/*.antt", "crates/*/proofs/**/*.antt"):
        yield from sorted(p for p in ROOT.glob(pattern) if p.is_file())


def main():
    for lemma, places in LEMMAS.items():
        for path in sources():
            inside = str(path.relative_to(ROOT / "crates"))
            if any(inside == p or inside.startswith(p + "/") for p in places):
                text = path.read_text()
                new = re.sub(rf"(?<![\w.'-]){lemma}(?![\w'-])", lemma + "_lem", text)
                if new != text:
                    path.write_text(new)
    own = set()
    for path in sources():
        text = path.read_text()
        turned = []
        for line in text.split("\n"):
            turned.append(outside_texts(line, lambda t: WORD.sub(lambda m: own.add(m.group(0)) or snake(m.group(0)), t)))
        new = "\n".join(turned)
        if new != text:
            path.write_text(new)
    others = [*sorted(ROOT.glob("docs/*.md")), ROOT / "README.md", *sorted(ROOT.glob("tests/*.py")), *sorted(ROOT.glob("crates/*/must-fail/*.edit"))]
    for path in others:
        text = path.read_text()
        new = WORD.sub(lambda m: snake(m.group(0)) if m.group(0) in own else m.group(0), text)
        if new != text:
            path.write_text(new)
    print(f"{len(own)} names")


sys.exit(main())
