#!/usr/bin/env python3
"""Turns the proofs of a crate's functions from one term (Proof.antt) to invariants and answers, by the names that the toolchain lists.

usage: rt check --generated NAMES --old-names       in the crate's folder: writes NAMES/names.json
       python3 tools/answers.py CRATE NAMES/names.json [FUNCTION..]

Each goal of a Proof.antt becomes an answer under its new name; a goal that was left to the search is left out. A path through
`before` becomes the path to the step by its new name. What the script cannot turn is printed, and stays to be turned by hand.
"""
import json
import os
import re
import sys

TOKEN = re.compile(r"(?<![\w.'-])([A-Za-z][\w'₀-₉-]*|κs)((?:\.[A-Za-z0-9_'₀-₉-]+)*)")


def norm(s):
    return s.replace("_", "-")


def load(path):
    with open(path, encoding="utf-8") as f:
        return json.load(f)


def clause(rest, fields):
    """The part of a contract by its clause's name, where it was told by its place."""
    if not rest or rest[0] not in ("0", "1"):
        return rest
    k, rest = 0, list(rest)
    while k < len(fields) - 1 and rest[:1] == ["1"]:
        k, rest = k + 1, rest[1:]
    if k < len(fields) - 1:
        if rest[:1] != ["0"]:
            return ["WHICH"] + rest
        rest = rest[1:]
    return [fields[k]] + rest


def split_tuple(text):
    """The parts of a tuple that ends the text, after what stands before it; None where the text does not end in one."""
    t = text.rstrip()
    if not t.endswith(")"):
        return None
    depth = 0
    for k in range(len(t) - 1, -1, -1):
        if t[k] in ")]}":
            depth += 1
        elif t[k] in "([{":
            depth -= 1
            if depth == 0:
                break
    before = t[:k]
    if before.strip() and not re.search(r"\bin\s*$", before):
        return None
    inner, parts, depth, last = t[k + 1 : -1], [], 0, 0
    for j, ch in enumerate(inner):
        if ch in "([{":
            depth += 1
        elif ch in ")]}":
            depth -= 1
        elif ch == "," and depth == 0:
            parts.append(inner[last:j])
            last = j + 1
    if inner[last:].strip():
        parts.append(inner[last:])
    return before, parts


class Names:
    def __init__(self, record):
        self.r = record
        self.places = {}
        self.clauses = {}
        self.today = {p[2][1] for p in record["places"]} | {a[0] for a in record["arms"] if a}
        for i, (name, parent, field, callee, subs) in enumerate(record["places"]):
            self.places[name] = (parent, field, callee, subs, record["arms"][i], record["typed"][i])
            self.clauses[name] = record["clauses"][i]
        self.where = [a[0] for a in record["asked_at"]]

    def parent(self, p):
        return self.places[p][0]

    def above(self, goal, head):
        """The nearest place from the goal's on upwards whose step has this old name; port.py gave some another spelling."""
        plain = lambda s: re.sub(r"-(?=\d+$)", "", re.sub(r"(-lem)?$", "", norm(s).lower()))
        for alike in (norm, plain, lambda s: re.sub(r"\d+$", "", plain(s))):
            q = goal
            while q is not None:
                if self.places[q][0] is not None and alike(self.places[q][1][0]) == alike(head):
                    return q
                q = self.places[q][0]
        return None

    def field(self, goal, place, segs):
        """The new path, without `c.`, for the old fields `segs` at `place`, seen from the goal's place; None where none is known."""
        head, rest = segs[0], segs[1:]
        if head in ("args", "requires", "ranges", "lifetimes"):
            if head == "requires" and self.r["pre"]:
                rest = clause(rest, self.r["pre"]["fields"])
            return ".".join([head] + rest)
        # a step is found by its name where the count of steps is another today
        if place is None or self.places[place][0] is None or norm(self.places[place][1][0]) != norm(head):
            place = self.above(goal, head) if head not in self.today else None
            if place is None:
                return None
        old, new = self.places[place][1]
        if rest[:1] in (["auto"], ["new"]) and rest[1:2] in ([], ["0"], ["1"]) and self.places[place][2] in self.r["params"]:
            # what a call keeps of the lengths, and leaves in what was lent to it: once a tuple over its parameters
            k, more = 0, rest[1:]
            params = self.r["params"][self.places[place][2]]
            while more and more[0] == "1" and k + 1 < len(params):
                k, more = k + 1, more[1:]
            if more[:1] == ["0"]:
                more = more[1:]
            if rest[1:]:
                rest = [rest[0], params[k]] + more
        if rest[:1] == ["ensures"] and self.clauses[place]:
            rest = ["ensures"] + clause(rest[1:], self.clauses[place]["fields"])
        # what the type of a variable says
        for var, step in self.places[place][5]:
            if norm(step) == norm(head) and goal == place and rest[:1] == ["given"]:
                return ".".join(["type_inv", var] + rest[1:])
        # arms that gather several steps
        q, depth = goal, 0
        chain = []
        while q is not None:
            chain.append(q)
            if q == place:
                break
            q = self.places[q][0]
        for r in chain:
            arm = self.places[r][4]
            if not arm:
                continue
            name, count, parts = arm
            # how far up the place is from r
            up, q = 0, r
            while q is not None and q != place:
                q, up = self.places[q][0], up + 1
            if q is None or up >= count:
                continue
            for newer, older, keys in parts:
                if norm(older) == norm(head) and rest[: len(keys)] == keys:
                    return ".".join([name, newer] + rest[len(keys) :])
            new = name
        subs = {norm(a): b for a, b in self.places[place][3]}
        if rest and norm(rest[0]) in subs:
            rest = [subs[norm(rest[0])]] + rest[1:]
        return ".".join([new] + rest)


def items(text):
    """Top-level items: runs of lines, each beginning at a line that is not indented; comments above belong to the next."""
    out, cur = [], []
    for line in text.split("\n"):
        top = line and not line[0].isspace() and line[0] not in ")]}"
        if top and cur:
            out.append(cur)
            cur = []
        cur.append(line)
    if cur:
        out.append(cur)
    return out


TYPED = r"\((\w+) : tie\.([A-Z][\w'-]*)(?: [\w'-]+)*\)"


class Turner:
    """Turns terms; `helpers` are the file's lemmas over a step's record, which are written out where they were used."""

    def __init__(self, names, where):
        self.n, self.where, self.left = names, where, []
        self.helpers = {}
        self.opened = set()

    def place(self, old):
        for p in self.n.places:
            if norm(p) == norm(old):
                return p
        return None

    def learn(self, parts):
        """Takes in the helpers among the items of a file, and says which items they are."""
        taken = set()
        for i, lines in enumerate(parts):
            t = "\n".join(lines).rstrip()
            m = re.match(r"(?:abbrev |pub )*([\w'-]+) : " + TYPED + r"\s+→ (.*)$", t, re.S)
            if m and i + 1 < len(parts):
                j, unf = i + 1, ""
                while j < len(parts) and not "\n".join(parts[j]).strip():
                    j += 1
                u = "\n".join(parts[j]).rstrip()
                if u.startswith("unfolding"):
                    unf, j = u, j + 1
                    u = "\n".join(parts[j]).rstrip()
                b = re.match(re.escape(m.group(1)) + r"\s+([\w']+)\s*=(.*)$", u, re.S)
                p = self.place(m.group(3))
                if b and p:
                    self.helpers[m.group(1)] = (p, b.group(1), b.group(2).strip(), unf, set(), (m.group(2), m.group(4)))
                    taken |= set(range(i, j + 1))
                continue
            m = re.match(r"module _ " + TYPED + r" where\n(.*)$", t, re.S)
            if m:
                p = self.place(m.group(2))
                inner = [x for x in items("\n".join(l[2:] for l in m.group(3).split("\n")))]
                names, unf, said = set(), "", {}
                k = 0
                for k, x in enumerate(inner):
                    y = "\n".join(x).rstrip()
                    if y.startswith("unfolding"):
                        unf = y
                        continue
                    g = re.match(r"([\w'-]+) :\s+(.*)$", y, re.S)
                    if g:
                        said[g.group(1)] = g.group(2)
                        continue
                    b = re.match(r"([\w'-]+)\s*=(?!=)(.*)$", y, re.S)
                    if b and p:
                        self.helpers[b.group(1)] = (p, m.group(1), b.group(2).strip(), unf, set(names), (m.group(1), said.get(b.group(1))))
                        names.add(b.group(1))
                        unf = ""
                taken.add(i)
        return taken

    def written_out(self, text, goal, inside=frozenset(), where=None, depth=0):
        """The term with helpers replaced by their own terms."""
        if depth > 8:
            return text
        for h in sorted(self.helpers, key=len, reverse=True):
            p, var, term, unf, inner, (who, said) = self.helpers[h]
            arg = r"" if h in inside else r"\s+(?:\((?:[\w'-]+)\s+[\w'.-]+\)|[\w'.-]+)"
            pat = re.compile(r"(?<![\w.'-])(\()?" + re.escape(h) + r"(?![\w'-])" + ("" if h in inside else arg) + r"(?(1)\))((?:\.[\w'-]+)*)")

            def one(m):
                path = m.group(2) or ""
                chain = re.fullmatch(r"[\w']+((?:\.before)*)", term)
                if chain:  # a helper that is a step's record
                    q = p
                    for _ in range(chain.group(1).count("before")):
                        q = self.n.parent(q)
                    return self.body("c" + path, goal, {"c": q})[0]
                if unf:
                    self.opened.add(unf)
                inl = self.written_out(term, goal, inner, p, depth + 1)
                inl = self.body(inl, goal, {var: p})[0]
                if said:
                    told = self.written_out(said, goal, inner, p, depth + 1)
                    told = self.body(told, goal, {who: p})[0]
                    inl = f"let it : ({' '.join(told.split())}) = {inl} in it"
                return "(" + inl + ")" + path

            text = pat.sub(one, text)
        return text

    def body(self, text, place, alias=None):
        alias = dict(alias) if alias else {"c": place}
        # let s = c.before.before in   -> a name for a place
        while True:
            m = None
            for m in re.finditer(r"let ([\w'-]+) = ([\w'-]+)((?:\.before)*) in\s*", text):
                if m.group(2) in alias and (m.group(3) or m.group(2) in alias):
                    break
            else:
                m = None
            if m is None:
                break
            p = alias[m.group(2)]
            for _ in range(m.group(3).count(".before")):
                p = self.n.parent(p) if p is not None else None
            alias[m.group(1)] = p
            text = text[: m.start()] + text[m.end() :]

        # let k = c.before.f in, let e = c.f.ensures in   -> written out, where parts are told by their clause's or variable's name today
        steps = {}
        for m in list(re.finditer(r"let ([\w'-]+) = ([\w'-]+)((?:\.[\w'-]+)+) in\s*", text)):
            segs = [s for s in m.group(3).split(".") if s and s != "before"]
            source = m.group(2) in alias or m.group(2) in steps
            told = segs[-1:] in (["ensures"], ["auto"]) or (segs == ["requires"] and self.n.r["pre"]) or (len(segs) == 1 and segs[0] not in ("args", "requires", "ranges"))
            used = re.search(r"(?<![\w.'-])" + re.escape(m.group(1)) + r"((\.ensures|\.auto)?\.[01]|(\.ensures|\.auto) in)", text)
            if source and told and used and len(segs) <= 2:
                steps[m.group(1)] = m.group(2) + m.group(3)
                text = text.replace(m.group(0), "", 1)
        for k in reversed(list(steps)):
            text = re.sub(r"(?<![\w.'-])" + re.escape(k) + r"(?![\w'-])", lambda _: steps[k], text)

        def one(m):
            var, path = m.group(1), m.group(2)
            if var not in alias:
                return m.group(0)
            segs = [s for s in path.split(".") if s]
            p = alias[var]
            while segs and segs[0] == "before":
                p, segs = (self.n.parent(p) if p is not None else None), segs[1:]
            if not segs:
                if var == "c":
                    self.left.append(f"{self.where}: a whole place: {m.group(0)}")
                    return m.group(0)
                self.left.append(f"{self.where}: a whole place: {m.group(0)}")
                return m.group(0)
            new = self.n.field(place, p, segs)
            if new is None and segs[0] in self.n.today:
                return "c." + ".".join(segs)
            if new is None:
                self.left.append(f"{self.where}: {m.group(0)} at {p}")
                return m.group(0)
            return "c." + new

        return TOKEN.sub(one, text), alias


def find(record, goal):
    """The place of an old goal in the list: by its name, whatever joins its words."""
    g = norm(goal)
    for i, (old, new) in enumerate(record["needs"]):
        o = norm(old)
        if g == o or g == "overflow-" + o or g == norm(new):
            return i
    return None


def turn(crate, path, record, where):
    with open(path, encoding="utf-8") as f:
        text = f.read()
    names = Names(record)
    t = Turner(names, where)
    loops = record["loops"]
    head, uses, invs, answers, others = [], [], [], [], []
    comment = []
    parts = items(text)
    i = 0
    found_spec = [p for p in parts if "tie.close" in "\n".join(p)]
    order = None
    if found_spec:
        m = re.search(r"tie\.spec\s+(.*?)\)\s*$", "\n".join(found_spec[0]), re.S)
        if m:
            order = m.group(1).split()
    needs = record["needs"]
    given = [o for o in (order or []) if not re.match(r"(invariant|decreases)-", o)]
    positional = len(given) == len(needs)
    helping = t.learn(parts)
    while i < len(parts):
        if i in helping:
            i += 1
            continue
        lines = parts[i]
        s = "\n".join(lines).rstrip()
        i += 1
        if not s.strip():
            continue
        if s.startswith("--"):
            comment.append(s)
            continue
        if s.startswith("use "):
            if comment and not uses:
                head += comment
                comment = []
            m = re.match(r"use Rattle\.\w+\.proofs\.(.*?)\.(Statement\.\{statement\}|Tie as tie)$", s)
            if not m:
                uses.append(s)
            continue
        m = re.match(r"(?:abbrev )?([\w'-]+) : tie\.(invariant|decreases)-([\w-]+)$", s)
        if m:
            kind, loop = m.group(2), m.group(3)
            body = "\n".join(parts[i]).rstrip()
            i += 1
            k = [j for j, l in enumerate(loops) if norm(l[0][0]) == norm(loop)]
            if not k:
                t.left.append(f"{where}: no loop {loop}")
                invs.append(comment + [s, body])
                comment = []
                continue
            (old, new), var = loops[k[0]][0], loops[k[0]][1]
            changed = record["changed"][k[0]]
            b = re.match(r"([\w'-]+)((?:\s+[\w'₀-₉-]+)*)\s*=(.*)$", body, re.S)
            params = b.group(2).split()
            want = [(f"l.initial.{v}" if c else f"l.{v}") for v, c in zip(var, changed)] + [f"l.{v}" for v, c in zip(var, changed) if c]
            if len(want) != len(params):
                t.left.append(f"{where}: {body.splitlines()[0]} has {len(params)} parameters, not {len(want)}")
                want += ["?"] * len(params)
            sub = dict(zip(params, want))

            def one(m):
                return sub[m.group(1)] + m.group(2) if m.group(1) in sub else m.group(0)

            rest = re.sub(r"(?<![\w.'-])([\w'₀-₉-]+)((?:\.[\w']+)*)", one, b.group(3))
            invs.append(comment + [f"abbrev pub {kind}-{new} : goal.{kind}-{new}", f"{kind}-{new} l ={rest}"])
            comment = []
            continue
        m = re.match(r"([\w'-]+) : tie\.Need-([\w'-]+)((?: [\w'-]+)*)$", s)
        if m:
            name, goal = m.group(1), m.group(2)
            nxt = "\n".join(parts[i]).rstrip()
            unf = None
            if nxt.startswith("unfolding"):
                unf = nxt
                i += 1
                nxt = "\n".join(parts[i]).rstrip()
            i += 1
            k = None
            if positional and name in given:
                k = given.index(name)
                if find(record, goal) is not None and find(record, goal) != k:
                    t.left.append(f"{where}: {goal} is goal {k} by place and {find(record, goal)} by name")
            else:
                k = find(record, goal)
            if k is None:
                t.left.append(f"{where}: no goal {goal}")
                others.append(comment + ["-- TURN: " + s, nxt])
                comment = []
                continue
            new = needs[k][1]
            place = names.where[k]
            b = re.match(r"([\w'-]+)\s+([\w']+)(\s+κs)?\s*=(.*)$", nxt, re.S)
            if not b:
                t.left.append(f"{where}: cannot read {nxt.splitlines()[0]}")
                others.append(comment + ["-- TURN: " + s, nxt])
                comment = []
                continue
            if b.group(2) not in ("c", "_"):
                t.left.append(f"{where}: parameter {b.group(2)}")
            term = b.group(4)
            if re.fullmatch(r"\s*search rules\s*", term):
                comment = []
                continue
            t.opened = set()
            term = t.written_out(term, place)
            term, _ = t.body(term, place)
            if t.opened:
                unf = "unfolding " + " ".join(dict.fromkeys(w for u in ([unf] if unf else []) + sorted(t.opened) for w in u.split()[1:]))
            fields = record["asked"].get(needs[k][0])
            if fields:
                cut = split_tuple(term)
                while cut and len(cut[1]) < len(fields):
                    inner = split_tuple(cut[1][-1])
                    if not inner or inner[0].strip():
                        break
                    cut = (cut[0], cut[1][:-1] + inner[1])
                if cut and len(cut[1]) == len(fields):
                    term = cut[0] + "record {\n" + "\n".join(f"      {f} = {v.strip()};" for f, v in zip(fields, cut[1])) + "\n    }"
                else:
                    t.left.append(f"{where}: {new} asks a record of {fields}")
            answers.append(comment + [f"pub {new} : goal.{new}"] + ([unf] if unf else []) + [f"{new} c ={term}"])
            comment = []
            continue
        if "tie.close" in s or re.match(r"pub [\w-]+[-_]spec : .*statement M$", s):
            comment = []
            continue
        # a lemma of the file: a signature, perhaps unfolding, and clauses
        if "tie." in s:
            t.left.append(f"{where}: tie in {s.splitlines()[0]}")
        others.append(comment + [s])
        comment = []
    mod = os.path.dirname(path).split("/proofs/", 1)[1].replace("/", ".")
    folder = os.path.dirname(path)
    block = lambda xs: "\n\n".join("\n".join(x) for x in xs)
    if invs:
        body = block(invs)
        own = [u for u in uses]
        with open(os.path.join(folder, "Invariants.antt"), "w", encoding="utf-8") as f:
            f.write("\n".join(["-- " + h[3:] for h in head]) + "\n" + "\n".join(trim(own, body)) + f"\nuse Rattle.{crate}.proofs.{mod}.Given as goal\n\n" + body + "\n")
    if answers or others:
        # lemmas before answers, in the order of the file, clauses of a lemma together
        body = group(others) + ("\n\n" if others else "") + block(answers)
        with open(os.path.join(folder, "Answers.antt"), "w", encoding="utf-8") as f:
            f.write("\n".join(head) + "\n" + "\n".join(trim(uses, body)) + f"\nuse Rattle.{crate}.proofs.{mod}.Goals as goal\n\n" + body + "\n")
    os.remove(path)
    return t.left


def group(others):
    """Clauses of one lemma stand together, with a line free above each signature."""
    out = []
    for x in others:
        s = "\n".join(x)
        first = x[-1].split("\n")[0]
        signature = bool(re.match(r"(abbrev |pub |unfoldable |data |record |module )*[\w'-]+\s+:|module |data |record |abbrev |pub ", first)) or x[0].startswith("--")
        if out and signature:
            out.append("")
        out.append(s)
    return "\n".join(out)


def trim(uses, body):
    """The imports of which the text has a name; operators by what stands between the holes."""
    words = set(re.findall(r"[A-Za-z_ℕℤ#][\w'₀-₉#-]*", body))
    out = []
    for u in uses:
        m = re.match(r"use (.*)\.\{(.*)\}$", u)
        if not m:
            name = u.split(" as ")[1].strip() if " as " in u else u.split(".")[-1]
            if re.search(r"(?<![\w.'-])" + re.escape(name) + r"\.", body):
                out.append(u)
            continue
        keep = []
        for it in [x.strip() for x in m.group(2).split(",")]:
            local = it.split(" as ")[-1].strip()
            if "◌" in local:
                core = [p for p in local.split("◌") if p]
                if all(p in body for p in core):
                    keep.append(it)
            elif re.search(r"(?<![\w.'-])" + re.escape(local) + r"(?![\w'-])", body):
                keep.append(it)
        if keep:
            out.append(f"use {m.group(1)}.{{{', '.join(keep)}}}")
    return out


def main():
    crate, file, only = sys.argv[1], sys.argv[2], sys.argv[3:]
    records = load(file)
    root = f"crates/{crate}/proofs"
    left, n = [], 0
    for folder, _, files in os.walk(root):
        if "Proof.antt" not in files:
            continue
        mod = folder[len(root) + 1 :].replace("/", ".")
        if only and mod not in only:
            continue
        key = f"Rattle-{crate}-proofs.{mod}.Lts"
        if key not in records:
            left.append(f"{mod}: not listed in {file}")
            continue
        left += turn(crate, os.path.join(folder, "Proof.antt"), records[key], mod)
        n += 1
    print("\n".join("left: " + l for l in left))
    print(f"{n} proofs turned, {len(left)} places left")


if __name__ == "__main__":
    main()
