#!/usr/bin/env python3
"""Brings the names of this repository's own definitions and lemmas to snake case, in every crate and edit.

usage: python3 tools/respell.py            at the top, once, right after port.py

A definition in camel case (`levelsOf`) and a lemma in words joined by dashes (`upto-cut`) become `levels_of` and `upto_cut`.
Facts and types keep their capitals, goals that Rattle names keep theirs, and so does all that stands in strings and comments
of .rt files. It stops, and writes nothing, where two names would fall together, or where a parameter would hide a new one.
"""

import os
import re
import sys

WORD = re.compile(r"[A-Za-z_0-9'\u2080-\u2089\u2115\u2102\u2113-]*[A-Za-z_0-9'\u2080-\u2089]")
# a name whose snake case is taken
RENAMED = {"number-of": "number_told"}
HEAD = re.compile(r"^(\s+pub |\s+(?=[a-z][\w']*-[\w'-]* : )|(?:abbrev |unfoldable |pub |private |opaque )*)([^\s:(){}\"]+)\s*(?::(?!:)|\(|\{)")
GOAL = re.compile(r"\b(?:goal|need|given|g)\.([A-Za-z_0-9'-]+)")
TEXT = re.compile(r'"(?:[^"\\]|\\.)*"|//[^\n]*')


def files(root):
    for top in ("crates",):
        for folder, dirs, names in os.walk(os.path.join(root, top)):
            dirs[:] = sorted(d for d in dirs if d != "out")
            for n in sorted(names):
                if n.endswith((".rt", ".antt", ".edit")):
                    yield os.path.join(folder, n)


def snake(name):
    name = re.sub(r"(?<=[a-z0-9])([A-Z])", lambda m: "_" + m.group(1).lower(), name)
    return name.replace("-", "_")


def main():
    root = "."
    texts = {p: open(p, encoding="utf-8").read() for p in files(root)}
    own, goals = {}, set()
    for p, t in texts.items():
        if not p.endswith(".antt"):
            continue
        goals |= set(GOAL.findall(t))
        for line in t.splitlines():
            m = HEAD.match(line)
            if m and m.group(2) not in RENAMED and not line.startswith(("use ", "mod ", "pub mod", "pub record", "record", "pub data", "data", "ruleset", "pub ruleset", "pub use", "pub syntax", "syntax", "--", "ghost")):
                own.setdefault(m.group(2), set()).add(p)
    turned = {old: new for old, new in RENAMED.items() if new not in own}
    for name in own:
        if name in goals or "\u25cc" in name or not re.fullmatch(r"[a-z][A-Za-z0-9_'-]*", name):
            continue
        new = snake(name)
        if new != name:
            turned[name] = new
    # names that fall together
    bad = []
    seen = {}
    for name, new in turned.items():
        if new in own and new not in turned:
            bad.append(f"{name} would be {new}, which is a definition already: {sorted(own[new])[0]}")
        if new in seen and seen[new] != name:
            bad.append(f"{name} and {seen[new]} would both be {new}")
        seen[new] = name
    # in a clause a parameter hides a definition of its name
    code = {}
    for p, t in texts.items():
        if p.endswith(".rt"):
            for m in re.finditer(r"\bfn\s+\w+(?:<[^(]*>)?\(([^{;]*?)\)\s*(?:->|requires|ensures|where|\{|;)", TEXT.sub("", t)):
                for q in re.finditer(r"\b([a-z_][a-z_0-9]*)\s*:", m.group(1)):
                    code.setdefault(q.group(1), set()).add(p)
    for name, new in sorted(turned.items()):
        uses = {p for p, t in texts.items() if p.endswith(".rt") and re.search(r"(?<![\w'-])" + re.escape(name) + r"(?![\w'-])", t)}
        both = uses & code.get(new, set())
        if both:
            bad.append(f"{name} would be {new}, a parameter in {sorted(both)[0]}")
    if "--list" in sys.argv:
        for name, new in sorted(turned.items()):
            print(name, new)
    if bad and "--anyway" not in sys.argv:
        print("\n".join(bad))
        return 1
    if "--list" in sys.argv:
        return 0
    count = 0
    swap = lambda m: turned.get(m.group(0), m.group(0))
    for p, t in texts.items():
        if p.endswith(".rt"):
            parts, at = [], 0
            for m in TEXT.finditer(t):
                parts += [WORD.sub(swap, t[at:m.start()]), m.group(0)]
                at = m.end()
            new = "".join(parts) + WORD.sub(swap, t[at:])
        else:
            new = WORD.sub(swap, t)
        if new != t:
            open(p, "w", encoding="utf-8").write(new)
            count += 1
    print(f"{len(turned)} names turned, in {count} files")
    return 0


if __name__ == "__main__":
    raise SystemExit(main())
