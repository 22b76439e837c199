#!/usr/bin/env python3
"""The repository's own definitions and lemmas in the spelling of today's Rattle: snake case where they stood in lower camel case.

Run once at the top, after the kit's port.py, over crates/ alone: colourAt becomes colour_at in specs, proofs, clauses and edits,
and getD-table get_or-table. Names of Rust code, of types and of files stay. It refuses to run where two names would fall together."""
import pathlib
import re
import sys

# parts of names, between dashes: two words at least, the first in lower case
CAMEL = re.compile(r"(?<![\w'.\"/])([a-z][a-z0-9]*(?:[A-Z][a-z0-9]*)+)(?![\w'(\"/])")
PART = re.compile(r"[a-z][a-z0-9]*(?:[A-Z][a-z0-9]*)+")
TOKEN = re.compile(r"[\w'-]+")
# hypotheses named by what they are of, as hT of T; a number as a variable; steps of a proof
KEPT = re.compile(r"h[A-Z]|[a-z]+-[A-Z]")


# lemmas that would get the name of a definition that they are about, and of crates that do not meet: these are renamed, and these may stay
LOCAL = {"crates/fill_rows/proofs/HalfFillLaws.antt": {"left-of": "from_left", "right_of": "from_right"}}
APART = {"read_back"}


def snake(part):
    """colourAt as colour_at; getD, which the library now calls get_or, by its new name"""
    if part == "getD":
        return "get_or"
    return re.sub("[A-Z]", lambda m: "_" + m.group(0).lower(), part)


def respelled(token):
    if KEPT.fullmatch(token):
        return token
    return "-".join(snake(p) if PART.fullmatch(p) and not KEPT.fullmatch(p) else p for p in token.split("-"))


def parts(text):
    return {p for t in TOKEN.findall(text) for p in t.split("-")}


def main():
    files = [p for p in sorted(pathlib.Path("crates").rglob("*")) if p.suffix in (".antt", ".rt", ".edit") and "out" not in p.parts]
    texts = {p: p.read_text() for p in files}
    for name, names in LOCAL.items():
        p = pathlib.Path(name)
        if p in texts:
            texts[p] = TOKEN.sub(lambda m: names.get(m.group(0), m.group(0)), texts[p])
    # a snake name that stands already may be the Rust function that the definition describes, and nothing else
    specs = set()
    for p, s in texts.items():
        if p.suffix == ".antt":
            specs |= parts(s)
    fall = {p: snake(p) for p in specs if PART.fullmatch(p) and not KEPT.fullmatch(p) and p != "getD" and snake(p) in specs}
    rust = set()
    for p, s in texts.items():
        if p.suffix == ".rt":
            rust |= set(re.findall(r"\b(?:fn|mod) (\w+)", s))
    crates = {p.name for p in pathlib.Path("crates").iterdir()}
    wrong = {a: b for a, b in fall.items() if b not in rust and b not in crates and b not in APART}
    if wrong:
        sys.exit(f"these would fall together: {wrong}")
    count = 0
    for p, s in texts.items():
        new = TOKEN.sub(lambda m: respelled(m.group(0)), s)
        if new != p.read_text():
            p.write_text(new)
            count += 1
    print(f"{count} files respelled")


if __name__ == "__main__":
    main()
