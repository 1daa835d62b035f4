#!/usr/bin/env python3
"""Lists the places in crates/*/src that docs/DESIGN-PASS.md counts, point by point.

usage: tools/places.py [POINT ..] [--all]      counts; with --all each place by file, line and text
"""
import glob
import os
import re
import sys
from collections import defaultdict

ROOT = os.path.join(os.path.dirname(os.path.abspath(__file__)), "..")
FN = re.compile(r"^(\s*)(?:pub(?:\(crate\))? )?(?:extern \"C\" )?fn (\w+)")


def sources():
    for path in sorted(glob.glob(os.path.join(ROOT, "crates/*/src/*.rt"))):
        with open(path) as f:
            yield os.path.relpath(path, ROOT), f.read().split("\n")


def code(line):
    """The line without its comment."""
    return line.split("//")[0]


def functions():
    """Each function: file, line, name, head (up to its body), body."""
    for path, lines in sources():
        i = 0
        while i < len(lines):
            m = FN.match(lines[i])
            if not m:
                i += 1
                continue
            pad, start = m.group(1), i
            if lines[i].rstrip().endswith("}") and "{" in lines[i]:
                i += 1
                continue
            while i < len(lines) and lines[i].rstrip() != pad + "}":
                i += 1
            text = [code(line) for line in lines[start : i + 1]]
            at = next((k for k, line in enumerate(text) if line.rstrip() in (pad + "{",)), None)
            if at is None:
                at = next((k for k, line in enumerate(text) if line.rstrip().endswith("{")), 0)
            yield path, start + 1, m.group(2), text[: at + 1], text[at + 1 : -1]


def grep(pattern):
    p = re.compile(pattern)
    return [(path, k + 1, line.strip()) for path, lines in sources() for k, line in enumerate(lines) if p.search(code(line))]


def comments(pattern):
    p = re.compile(pattern)
    return [(path, k + 1, line.strip()) for path, lines in sources() for k, line in enumerate(lines) if "//" in line and p.search(line.split("//", 1)[1])]


def returned(head):
    text = " ".join(head)
    m = re.search(r"->\s*([\w:<>\[\], &()']+?)\s*(?:requires|ensures|\{|where)", text)
    return m.group(1).strip() if m else ""


def point1():
    yield "own enums", grep(r"^(pub(\(crate\))? )?enum ")
    yield "constants that are codes (no bit, size or bound)", [
        p for p in grep(r"^(pub(\(crate\))? )?const [A-Z_0-9]+: (u32|usize|i32) =") if not re.search(r"MAX|ROOM|LONGEST|MOST|MARKED|POSTPONED|REACHED|MARK:|FULL: usize|BOUND|PLACE|FRONT|NOWHERE|SINKS:|usize = 3[01];", p[2])
    ]
    yield "functions that answer a refusal by number", [
        (f, n, name) for f, n, name, head, body in functions() if returned(head) == "u32" and re.search(r"refusal|attempt|store_member|^walk$|problem", name)
    ]
    yield "functions that answer 0 (or a last place) for none", [
        (f, n, name)
        for f, n, name, head, body in functions()
        if returned(head) in ("u32", "usize", "u64") and re.search(r"(0|FULL|NOWHERE|k) (for|where) none|0 where|place after the last|NOWHERE", " ".join(next((c for c in [above(f, n)]), "")))
    ]
    yield "fields that are 0 for none, or a flag beside a value", [
        p for p in comments(r"0 for none|0 while|0 for a list|and whether something|0 for nothing")
    ]


def above(path, line):
    with open(os.path.join(ROOT, path)) as f:
        lines = f.read().split("\n")
    out, k = [], line - 2
    while k >= 0 and (lines[k].strip().startswith("//") or lines[k].strip().startswith("#[")):
        out.insert(0, lines[k].strip())
        k -= 1
    return out


def point2():
    """Functions of one shape: equal but for names, types, numbers and constants."""
    words = defaultdict(list)
    for f, n, name, head, body in functions():
        if len(body) == 0:
            continue
        text = "\n".join(line.strip() for line in body)
        shape = re.sub(r"\b(u8|u16|u32|u64|usize|i32)\b", "T", text)
        shape = re.sub(r"\b[A-Z][A-Z_0-9]*\b", "C", shape)
        shape = re.sub(r"\b(0x[0-9A-Fa-f_]+|\d[\d_]*)\b", "N", shape)
        names = {}

        def rename(m):
            return names.setdefault(m.group(0), "v%d" % len(names))

        shape = re.sub(r"\b(?!if\b|else\b|while\b|for\b|in\b|let\b|mut\b|return\b|match\b|as\b|break\b|true\b|false\b|len\b|T\b|C\b|N\b)[a-z_]\w*\b", rename, shape)
        words[shape].append((f, n, name))
    groups = [g for g in words.values() if len(g) > 1]
    yield "groups of functions of one shape", [(g[0][0], g[0][1], ", ".join("%s:%s" % (x[0].split("/")[1], x[2]) for x in g)) for g in groups]


def loops(word):
    for path, lines in sources():
        for k, line in enumerate(lines):
            m = re.match(r"^(\s*)(?:'\w+: )?%s (.*) \{\s*$" % word, code(line))
            if m:
                end = next(j for j in range(k + 1, len(lines)) if lines[j].startswith(m.group(1) + "}"))
                yield path, k + 1, m.group(2), [code(x) for x in lines[k + 1 : end]]


def point3():
    by_hand, other = [], []
    for path, n, test, body in loops("while"):
        names = set(re.findall(r"\b([a-z]\w*)\b", test))
        step = [v for v in names if any(re.match(r"\s*%s [+-]= 1;" % v, b) for b in body)]
        (by_hand if step else other).append((path, n, test))
    yield "`while` that counts by one what it tests", by_hand
    yield "other `while`", other
    yield "`for` over a range that indexes by it", [
        (path, n, test) for path, n, test, body in loops("for") if re.search(r"\.\.", test) and re.match(r"\w+ in", test) and any(re.search(r"\[%s\]" % test.split()[0], b) for b in body)
    ]
    yield "`for`", [(path, n, test) for path, n, test, body in loops("for")]


def point4():
    yield "equality by hand", [(f, n, name) for f, n, name, head, body in functions() if re.match(r"same", name) and returned(head) == "bool"]
    yield "the smaller, the larger, a range by hand", [(f, n, name) for f, n, name, head, body in functions() if name in ("least", "within", "raised", "less", "clamp", "capped")]
    yield "copies with fields set or all fields named", grep(r"^    let mut \w+ = \w;$")
    yield "conversion by hand", [(f, n, name) for f, n, name, head, body in functions() if re.match(r"of_|digit$|number\d|number$|value$", name)]
    yield "printing by hand: tables of forms and their users", grep(r"\b(form|say|mark|decimal|hex)\(") + grep(r"^const [A-Z]+: \[u8; \d+\] =")


def point5():
    yield "functions of seven parameters and more", [
        (f, n, name) for f, n, name, head, body in functions() if len(re.findall(r"\w+: ", re.sub(r"(requires|ensures).*", "", " ".join(head)))) >= 7
    ]
    facts = defaultdict(list)
    for f, n, name, head, body in functions():
        for clause in re.findall(r"requires \w* ?\{(.*?)\}(?=\s*(?:requires|ensures|\{|$))", " ".join(head)):
            for fact in re.split(r" × ", clause.strip()):
                facts[(f.split("/")[1], fact.strip(" ()"))].append((f, n, name))
    yield "facts in the requires of three functions of a crate and more", [
        (g[0][0], g[0][1], "%s (%d functions)" % (fact, len(g))) for (c, fact), g in facts.items() if len(g) >= 3
    ]


def point6():
    yield "a buffer with a place or a length beside it", [
        (f, n, name) for f, n, name, head, body in functions() if f.startswith("crates/replay") and re.search(r"(page|s|cells|name): &mut Text,\s*(at|from): usize", " ".join(head))
    ]
    yield "pairs of arrays", grep(r"^(pub(\(crate\))? )?type .*; 2\];")
    yield "searches by hand", [(f, n, name) for f, n, name, head, body in functions() if re.match(r"find|first_|none_listed|lowest$", name)]


def point7():
    yield "a parameter that says which way to go", [
        (f, n, name) for f, n, name, head, body in functions() if re.search(r"\b(by|outs|plain|may|immediates|one|is_left|on): bool", " ".join(head))
    ]


def point8():
    files = glob.glob(os.path.join(ROOT, "crates/*/proofs/**/*.antt"), recursive=True)
    answers = [os.path.relpath(f, ROOT) for f in files if f.endswith("Answers.antt")]
    count = 0
    for f in answers:
        with open(os.path.join(ROOT, f)) as h:
            count += len(re.findall(r"^pub [\w-]+ : goal", h.read(), re.M))
    yield "files of answers", [(f, 1, "") for f in answers]
    yield "answers", [("", 0, "")] * count
    yield "lines of proofs", [("", 0, "")] * sum(sum(1 for _ in open(f)) for f in files)


def main():
    everything = "--all" in sys.argv
    wanted = [a for a in sys.argv[1:] if a.isdigit()] or list("12345678")
    for k in wanted:
        for what, places in globals()["point" + k]():
            print("%s  %-70s %d" % (k, what, len(places)))
            if everything:
                for path, line, text in places:
                    if path:
                        print("       %s:%d  %s" % (path, line, text))


if __name__ == "__main__":
    main()
