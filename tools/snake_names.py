#!/usr/bin/env python3
"""tools/snake_names.py: spells the definitions and lemmas of this repository in snake case, once, after port.py.

usage: python3 tools/snake_names.py            at the top of the checkout

A name of a value that begins small and has a hump (`oneIf`, `wellFormed`) becomes `one_if`, `well_formed`, in every
file of specs/ and proofs/, in the clauses and ghost lines of src/, and in the wrong edits. A dash stays: it joins two
names (`one_if-le`). Types and modules keep their capital, names of the code and strings stay as they are. A lemma that
would fall together with a definition so spelled has `_lem` behind its name.
"""
import pathlib
import re

ROOT = pathlib.Path(__file__).resolve().parent.parent
CRATES = ROOT / "crates"
HUMP = re.compile(r"(?<=[a-z0-9])[A-Z]")
TOKEN = re.compile(r"[^\s(){}\[\].;,@\"«»`&!<>*?|:=+/]+")
SMALL = re.compile(r"[a-z][\w'₀-₉-]*\Z")
STRING = re.compile(r'(b?"(?:[^"\\\n]|\\.)*")')
DECLARED = re.compile(r"^\s*(?:(?:unfoldable|abbrev|pub|pattern|ruleset) )*([a-z][\w'₀-₉-]*) :(?!:)", re.M)


def snake(name):
    return HUMP.sub(lambda m: "_" + m[0].lower(), name)


def texts():
    for kind, pattern in (("antt", "*.antt"), ("rt", "*.rt"), ("edit", "*.edit")):
        for path in sorted(CRATES.rglob(pattern)):
            if "out" not in path.relative_to(CRATES).parts:
                yield kind, path


def with_humps(text):
    return {t for t in TOKEN.findall(text) if SMALL.match(t) and HUMP.search(t)}


def main():
    files = {path: (kind, path.read_text(encoding="utf-8")) for kind, path in texts()}
    declared = set()
    for kind, text in files.values():
        if kind == "antt":
            declared |= set(DECLARED.findall(text))
    turn = {}
    for kind, text in files.values():
        if kind == "antt":
            bare = re.sub(r"--.*", "", text)
        elif kind == "rt":
            bare = re.sub(r"//.*", "", STRING.sub("", text))
        else:
            continue
        for name in with_humps(bare):
            turn[name] = snake(name)
    # a lemma that has the definition's new spelling already
    meets = {new for old, new in turn.items() if old in declared and new in declared}
    for name in meets:
        turn[name] = name + "_lem"
    print("met:", sorted(meets))

    def spell(text, kept=frozenset()):
        return TOKEN.sub(lambda m: m[0] if m[0] in kept else turn.get(m[0], m[0]), text)

    for path, (kind, text) in files.items():
        if kind == "rt":
            parts = STRING.split(text)
            new = "".join(p if k % 2 else spell(p, meets) for k, p in enumerate(parts))
        else:
            new = spell(text, meets if kind == "edit" else frozenset())
        if new != text:
            path.write_text(new, encoding="utf-8")
    print(len(turn), "names")


main()
