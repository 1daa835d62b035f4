#!/usr/bin/env python3
"""Writes the clauses that `rt check` asks for where no clause of a lemma covers a case.

usage: python3 tools/clauses.py CRATE LOG      at the top; LOG is what `rt check` said. Run it again while a check asks for more.
"""
import collections
import re
import sys

ASKED = re.compile(r"^\./(\S+?\.antt):(\d+):(\d+): error: `([^`]+)`: write the clause `(.*)`$")


def main():
    crate, log = sys.argv[1], sys.argv[2]
    asked = collections.defaultdict(list)
    for l in open(log, encoding="utf-8"):
        m = ASKED.match(l.rstrip("\n"))
        if m:
            asked[m.group(1)].append((int(m.group(2)), m.group(4), m.group(5)))
    n = 0
    for path, wanted in asked.items():
        p = f"crates/{crate}/{path}"
        lines = open(p, encoding="utf-8").read().split("\n")
        for at, name, clause in sorted(wanted, reverse=True):
            first = re.compile(r"^(\s*)" + re.escape(name) + r"(\s[^:]*)?\s=(\s|$)|^(\s*)" + re.escape(name) + r"\s")
            for k in range(at - 1, len(lines)):
                m = first.match(lines[k])
                if m and " : " not in lines[k].split("=")[0]:
                    indent = re.match(r"\s*", lines[k]).group(0)
                    lines.insert(k, indent + clause)
                    n += 1
                    break
            else:
                print(f"left: {path}:{at}: {clause}")
        open(p, "w", encoding="utf-8").write("\n".join(lines))
    print(f"{n} clauses written")


if __name__ == "__main__":
    main()
