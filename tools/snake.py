#!/usr/bin/env python3
"""Turns the repository's own names of definitions and lemmas to snake case, once, after the toolchain's port.py.

usage: python3 tools/snake.py          at the top of the checkout

A name of specs/ or proofs/ that begins in lower case and has a capital inside is turned, in every part between dashes: `recOf-get` to
`rec_of-get`. Names of types, modules and constructors begin with a capital and stay. In src/ only `ghost` lines and clauses are turned, so
that functions, strings and C names stay. Edits in must-fail/ are turned too: their lines of code have no such names but in strings.
crates/analyse/specs/Contracts.antt becomes Called.antt, because the toolchain makes a module `contracts` itself.
Prints each name that falls together with another.
"""
import glob
import os
import re

WORD = re.compile(r"[A-Za-z_\u0370-\u03ff\u2080-\u2089][A-Za-z0-9_'\u0370-\u03ff\u2080-\u2089-]*")
PART = re.compile(r"^[a-z][A-Za-z0-9_'\u2080-\u2089]*$")


def turned_part(p):
    if not PART.match(p) or not re.search(r"[A-Z]", p):
        return p
    q = re.sub(r"([a-z0-9])([A-Z])", r"\1_\2", p)
    q = re.sub(r"([A-Z])([A-Z][a-z])", r"\1_\2", q)
    return q.lower()


# Lemmas whose names would fall together with a definition's, by the files that declare them: they get `_lem`.
LEMMAS = {
    "stays_by": ["analyse/proofs/JudgeLaws"],
    "set_word": ["analyse/proofs/MarkLaws"],
    "goes_by": ["analyse/proofs/PushLaws"],
    "list_left": ["calls/proofs/Columns"],
    "step_by": ["graph/proofs/DepthFirst"],
    "same_flag": ["graph/proofs/FlagLaws"],
    "some_in": ["graph/proofs/NumberLaws"],
    "sinks_in": ["graph/proofs/SinkLaws", "rules/proofs/SweepLaws"],
    "take_by": ["rules/proofs/MapLaws"],
    "is_free": ["rules/proofs/SweepLaws", "sinks/proofs/SinkLaws", "table/proofs/NamedLaws"],
    "in_place": ["rules/proofs/SinkFacts"],
    "in_use": ["rules/proofs/LoadLaws", "rules/proofs/TraceLaws"],
    "same_end": ["rules/proofs/CollectLaws"],
    "head_at": ["rules/proofs/Invariant"],
    "room_of": ["table/proofs/RoomLaws"],
}


def lemmas_apart(path, text):
    """Gives the lemmas above their `_lem` in the file that declares them and where they are imported."""
    here = path[len("crates/") : -len(".antt")]
    for name, homes in LEMMAS.items():
        for home in homes:
            crate, _, module = home.split("/")
            taken = re.search(r"use Rattle\." + crate + r"\.proofs\." + module + r"\.\{[^}]*(?<![\w'-])" + name + r"(?![\w'-])", text)
            if here == home or taken:
                text = re.sub(r"(?<![\w'.-])" + name + r"(?![\w'-])", name + "_lem", text)
                break
    return text


# Numerals such as 0xFF lose their leading 0 to the pattern, and stay.
STAY = re.compile(r"^x[0-9A-F]+$")


def turned(w):
    if STAY.match(w):
        return w
    return "-".join(turned_part(p) for p in w.split("-"))


def turn(text, seen):
    out = []
    for line in text.split("\n"):
        code, dashes, comment = line.partition("-- ") if line.lstrip().startswith("-- ") else (line, "", "")

        def one(m):
            t = turned(m.group(0))
            if t != m.group(0):
                seen[m.group(0)] = t
            return t

        # In comments only names in backquotes are names.
        comment = re.sub(r"`[^`]*`", lambda m: WORD.sub(one, m.group(0)), comment)
        out.append(WORD.sub(one, code) + dashes + comment)
    return "\n".join(out)


def clauses(text, seen):
    """Turns what is ghost in a source: `ghost use` items, requires, ensures and ghost members, up to the brace that closes each."""
    out, i = [], 0
    start = re.compile(r"(?m)^\s*(ghost use\b|ghost\b|requires\b|ensures\b)")
    while True:
        m = start.search(text, i)
        if not m:
            return "".join(out) + text[i:]
        out.append(text[i : m.start()])
        j, depth, opened = m.start(), 0, False
        while j < len(text):
            c = text[j]
            if c == "{":
                depth, opened = depth + 1, True
            elif c == "}":
                depth -= 1
                if opened and depth == 0:
                    j += 1
                    break
            elif c == ";" and depth == 0:
                break
            j += 1
        out.append(turn(text[m.start() : j], seen))
        i = j


def rewrite(paths, change):
    """Writes each file anew that the change leaves other than it was."""
    for p in paths:
        with open(p, encoding="utf-8") as f:
            old = f.read()
        new = change(p, old)
        if new != old:
            with open(p, "w", encoding="utf-8") as f:
                f.write(new)


def moved(path, text):
    """The text with analyse/specs/Contracts under its other name."""
    text = text.replace("analyse.specs.Contracts", "analyse.specs.Called")
    return text.replace("pub mod Contracts", "pub mod Called") if path == "crates/analyse/specs/Lib.antt" else text


def main():
    names, all_words = {}, set()
    files = [p for kind in ("specs", "proofs") for p in glob.glob(f"crates/*/{kind}/**/*.antt", recursive=True)]
    files = [p for p in files if "/out/" not in p]
    for p in files:
        with open(p, encoding="utf-8") as f:
            all_words |= set(WORD.findall(f.read()))
    rewrite(files, lambda p, text: turn(lemmas_apart(p, text), names))
    rewrite(glob.glob("crates/*/src/**/*.rt", recursive=True), lambda p, text: clauses(text, names))
    rewrite(glob.glob("crates/*/must-fail/*.edit"), lambda p, text: turn(text, names))
    if os.path.exists("crates/analyse/specs/Contracts.antt"):
        os.rename("crates/analyse/specs/Contracts.antt", "crates/analyse/specs/Called.antt")
        every = [p for p in glob.glob("crates/**/*", recursive=True) if p.endswith((".antt", ".rt", ".edit")) and "/out/" not in p]
        rewrite(every, moved)
    back = {}
    for a, b in sorted(names.items()):
        back.setdefault(b, []).append(a)
        if b in all_words:
            print(f"falls together: {a} becomes {b}, which stands already")
    for b, a in back.items():
        if len(a) > 1:
            print(f"falls together: {a} become {b}")
    print(f"{len(names)} names turned")


if __name__ == "__main__":
    main()
