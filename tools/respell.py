#!/usr/bin/env python3
"""Turns the repository's own names in antt from camel case to snake case, once, after /opt/rattle/port/port.py.

usage: tools/respell.py [--list]      at the top of the repository; --list prints the names and what to look at, and writes nothing

A name is turned where it is declared in specs/ or proofs/ (a definition, a lemma, a field, a constructor) and begins with a
small letter: `sumTo-zero` becomes `sum_to-zero`. Types and modules keep their capitals. It goes by whole names, in .antt and
.rt files, in the edits that must fail, and between backquotes in docs/, README.md and CONTRIBUTING.md.
"""
import os
import re
import sys

# Lemmas whose names a definition of the same file comes to have, and what they are called instead.
FIRST = {
    "crates/posting/proofs/Examples.antt": {"held_on": "held_on-is"},
    "crates/state/proofs/OrderlyLaws.antt": {"term_fits": "term_fits-parts"},
    "crates/text/proofs/ReadLaws.antt": {"is_digit": "is_digit-digit"},
}

# A middle dot that port.py takes for a path in a comment.
GARBLED = {"typeof.h.I": "h\u00b7I"}

DECLARED = re.compile(
    r"^\s*(?:(?:pub|abbrev|unfoldable|record|data|ruleset|mutual)\s+)*([^\s:{}()]+)(?:\s+[({][^:]*)?\s*:(?!=)")
TOKEN = re.compile(r"[A-Za-z_][\w'₀₁₂₃₄₅₆₇₈₉-]*")


def files(root, *ends):
    for top in ("crates",):
        for folder, dirs, names in os.walk(os.path.join(root, top)):
            dirs[:] = sorted(d for d in dirs if d not in ("out", "target"))
            for n in sorted(names):
                if n.endswith(ends):
                    yield os.path.join(folder, n)


def snake(part):
    """sumTo is sum_to; over32Bits is over_32_bits; a part that begins with a capital stays."""
    if not re.match(r"[a-z]", part):
        return part
    part = re.sub(r"(?<=[a-z0-9'])([A-Z])", lambda m: "_" + m.group(1).lower(), part)
    return re.sub(r"([A-Z])", lambda m: m.group(1).lower(), part)


def turned(name):
    return "-".join(snake(p) for p in name.split("-"))


def declared(root):
    found = {}
    for p in files(root, ".antt"):
        with open(p, encoding="utf-8") as f:
            for l in f:
                if l.lstrip().startswith("--"):
                    continue
                m = DECLARED.match(l)
                if m:
                    n = m.group(1)
                    if re.match(r"[a-z][\w'-]*$", n) and re.search("[A-Z]", n) and turned(n) != n:
                        found.setdefault(n, set()).add(p)
    return found


def main(argv):
    root = os.getcwd()
    names = declared(root)
    to = {n: turned(n) for n in names}
    back = {}
    for n, t in to.items():
        back.setdefault(t, []).append(n)
    for t, ns in sorted(back.items()):
        if len(ns) > 1:
            print(f"falls together: {t}: {', '.join(ns)}")
    for p in files(root, ".antt", ".rt", ".edit"):
        with open(p, encoding="utf-8") as f:
            text = f.read()
        mark = "--" if p.endswith(".antt") else "//"
        toks = set(TOKEN.findall("\n".join(l.split(mark)[0] for l in text.splitlines())))
        for t in toks:
            if t in to and to[t] in toks and argv and argv[0] == "--list":
                print(f"look: {os.path.relpath(p, root)}: {t} becomes {to[t]}, which stands there already")
        if argv and argv[0] == "--list":
            continue
        first = FIRST.get(os.path.relpath(p, root), {})
        new = TOKEN.sub(lambda m: first.get(m.group(0)) or to.get(m.group(0), m.group(0)), text)
        for bad, good in GARBLED.items():
            new = new.replace(bad, good)
        if new != text:
            with open(p, "w", encoding="utf-8") as f:
                f.write(new)
    if argv and argv[0] == "--list":
        for n in sorted(to):
            print(n, to[n])
        return 0
    docs = [os.path.join(root, n) for n in ("README.md", "CONTRIBUTING.md")]
    docs += [os.path.join(root, "docs", n) for n in sorted(os.listdir(os.path.join(root, "docs"))) if n.endswith(".md") and n != "PORT.md"]
    for p in docs:
        with open(p, encoding="utf-8") as f:
            text = f.read()
        new = re.sub(r"`[^`\n]+`", lambda q: TOKEN.sub(lambda m: to.get(m.group(0), m.group(0)), q.group(0)), text)
        if new != text:
            with open(p, "w", encoding="utf-8") as f:
                f.write(new)
    print(f"{len(to)} names turned")
    return 0


if __name__ == "__main__":
    raise SystemExit(main(sys.argv[1:]))
