#!/usr/bin/env python3
"""Brings the repository's own definitions and lemmas to one spelling: words in snake case, joined by `_`.

usage: tools/spelling.py [FOLDER] [--list]

It is run once, after port.py. Names of Rust functions, types, modules, strings and comments that name a field of an RFC stay.
With --list it writes nothing, and prints each name with its new spelling and each name that would fall together with another.
"""

import collections
import os
import re
import sys

WORD = r"[^\s(){}\[\],.;:λ«»\"]+"
DECLARED = re.compile(r"^\s*(?:pattern |unfoldable |abbrev |pub )*(%s)(?:\s+\{[^}]*\})?\s+:\s" % WORD)
CONSTRUCTOR = re.compile(r"^\s*\|\s*(%s)\s+:\s" % WORD)
TOKEN = re.compile(r"(?:[^\W\d]|[_])[\w'′₀-₉⁺⁻-]*")
# names of the RFCs' own fields: in a comment they mean the field
FIELDS = {"thisUpdate", "nextUpdate", "producedAt", "certStatus", "responseBytes", "responseType"}
# where a name would fall together with another one: its other new name
OTHER = {"is_said": "is_said_lem"}


def files(root):
    for folder, dirs, names in os.walk(os.path.join(root, "crates")):
        dirs[:] = sorted(d for d in dirs if d != "out")
        for n in sorted(names):
            if n.endswith((".antt", ".rt", ".edit")):
                yield os.path.join(folder, n)


def read(p):
    with open(p, encoding="utf-8") as f:
        return f.read()


def snake(name):
    out = re.sub(r"(?<=[a-z0-9])([A-Z])(?=[a-z0-9]|$|[-_'])", lambda m: "_" + m.group(1).lower(), name)
    return out.replace("-", "_").replace("′", "'")


def own_names(root):
    """The names that the repository's definitions and lemmas declare, and those that it takes from a library."""
    own, taken = collections.defaultdict(set), set()
    for p in files(root):
        if not p.endswith(".antt"):
            continue
        t = read(p)
        for m in re.finditer(r"(?m)^\s*use ([\w.·]+)\.\{([^}]*)\}", t):
            crate = re.match(r"Rattle[.·](\w+)", m.group(1))
            if not crate or not os.path.isdir(os.path.join(root, "crates", crate.group(1))):
                taken |= {w.strip() for w in m.group(2).split(",")}
        if os.path.basename(p) == "Proof.antt":
            continue
        for line in t.splitlines():
            m = DECLARED.match(line) or CONSTRUCTOR.match(line)
            if m:
                own[m.group(1)].add(p)
    return own, taken


def turned(root):
    own, taken = own_names(root)
    names = {}
    plain = {snake(n) for n in own if "-" not in n} | taken
    for n in own:
        if n in taken or not re.match(r"[^\W\d_A-Z]", n):
            continue
        new = OTHER.get(n) or snake(n)
        # a lemma that would have its definition's name ends in _lem
        if "-" in n and new in plain:
            new += "_lem"
        if new != n:
            names[n] = new
    return names, own, taken


def strings(line):
    """The parts of a line of Rust outside and inside of string literals, in turn."""
    return re.split(r'("(?:[^"\\]|\\.)*")', line)


def main(argv):
    root = next((a for a in argv if not a.startswith("--")), ".")
    names, own, taken = turned(root)
    if "--list" in argv:
        back = collections.defaultdict(set)
        for n in own:
            back[names.get(n, n)].add(n)
        tokens = collections.defaultdict(set)
        for p in files(root):
            if p.endswith(".edit"):
                continue
            for w in set(TOKEN.findall(re.sub(r"(?m)(--|//).*$", "", read(p)))):
                tokens[w].add(os.path.relpath(p, os.path.join(root, "crates")))
        for new, olds in sorted(back.items()):
            if len(olds) > 1:
                print("together:", new, {o: sorted(os.path.relpath(x, root + "/crates") for x in own[o])[:4] for o in olds})
        for n, new in sorted(names.items()):
            if new in tokens:
                print("token:", n, new, sorted(tokens[new])[:6])
            if new in taken:
                print("library:", n, new)
        print(len(names), "names")
        return 0
    table = names

    def sub(text, comment=False):
        return TOKEN.sub(lambda m: m.group(0) if comment and m.group(0) in FIELDS else table.get(m.group(0), m.group(0)), text)

    for p in files(root):
        old = read(p)
        out = []
        mark = "--" if p.endswith(".antt") else "//"
        for line in old.split("\n"):
            parts = strings(line) if not p.endswith(".antt") else [line]
            for i in range(0, len(parts), 2):
                code, m, rest = parts[i].partition(mark + " ") if mark == "--" else parts[i].partition("//")
                parts[i] = sub(code) + m + sub(rest, True)
            out.append("".join(parts))
        new = "\n".join(out)
        if new != old:
            with open(p, "w", encoding="utf-8") as f:
                f.write(new)
    # the pages, also where they have the old spelling of a name that is turned already
    told = {names.get(n, n) for n in own}

    def page(text):
        text = sub(text, True)
        return TOKEN.sub(lambda m: snake(m.group(0)) if snake(m.group(0)) in told else m.group(0), text)

    ticked = re.compile(r"`[^`\n]+`")
    for folder in ("docs", "docs/changes", "."):
        for n in sorted(os.listdir(os.path.join(root, folder))):
            p = os.path.join(root, folder, n)
            if n.endswith(".md"):
                old = read(p)
                new = ticked.sub(lambda m: page(m.group(0)) if not re.search(r"[/ ]", m.group(0)) or "·" in m.group(0) else m.group(0), old)
                if new != old:
                    with open(p, "w", encoding="utf-8") as f:
                        f.write(new)
    return 0


if __name__ == "__main__":
    raise SystemExit(main(sys.argv[1:]))
