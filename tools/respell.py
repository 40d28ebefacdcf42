#!/usr/bin/env python3
"""Brings the repository's own definitions, lemmas and variables to the spelling of today's Rattle.

usage: python3 tools/respell.py [--list] [ROOT]

A name in camel case that begins with a small letter becomes snake case. In a name with dashes a dash stays where it
joins two names of definitions, and is an underscore elsewhere. Types and modules keep their names, as do names of the
library and names that Rattle makes. Run it once, after the kit's own script; --list only prints the names.
"""

import glob
import os
import re
import sys

WORD = re.compile(r"[^\s()\[\]{}⦃⦄,;.`\"]+")
DECLARED = re.compile(r"^\s*(?:(?:abbrev|unfoldable|pub|data|record)\s+)*([^\s()\[\]{}⦃⦄,;.`\"]+)\s+:(?!=)", re.M)
IMPORT = re.compile(r"(?:pub |ghost )?use ([^\s{;]+?)\.?(?:\{([^}]*)\}|\s+as\s+\S+)?;?\s*$", re.M)
LEMMAS = {"in_order": "in_order_lem", "kept_above": "kept_above_lem", "lowest_by": "lowest_by_lem"}
LISTS = {"length", "take", "drop", "append", "map", "set", "replicate", "max", "min"}
OWN = re.compile(r"^Rattle\.(\w+)\.(specs|proofs)\.")


def read(path):
    with open(path, encoding="utf-8") as f:
        return f.read()


def snake(word):
    return re.sub(r"(?<=[a-z0-9])([A-Z])", lambda m: "_" + m.group(1).lower(), word)


def is_camel(word):
    return bool(re.match(r"[a-z][A-Za-z0-9_'-]*[A-Z]", word)) and all(
        re.match(r"[a-z]", p) or not p or re.match(r"[A-Z]", p) for p in re.split("[-_]", word)
    )


def parts_of(root):
    crates = sorted(c for c in os.listdir(os.path.join(root, "crates")))
    defs, lemmas, fproofs, sources = [], [], [], []
    for c in crates:
        d = os.path.join(root, "crates", c)
        defs += sorted(glob.glob(d + "/specs/**/*.antt", recursive=True))
        lemmas += sorted(glob.glob(d + "/proofs/*.antt"))
        fproofs += sorted(glob.glob(d + "/proofs/*/*.antt"))
        sources += sorted(glob.glob(d + "/src/*.rt"))
    return crates, defs, lemmas, fproofs, sources


def imports(text, crates):
    """Names imported from the library, and names imported from this repository."""
    library, own = set(), set()
    for m in IMPORT.finditer(text):
        path, names = m.group(1), m.group(2)
        if names is None:
            path, _, last = path.rpartition(".")
            names = last
        mine = OWN.match(path + ".")
        mine = mine and mine.group(1) in crates
        made = re.search(r"\.(Tie|Statement|Goals|Given|declared)\b", path)
        for n in names.split(","):
            n = n.strip()
            a, _, b = n.partition(" as ")
            (own if mine and not made else library).add(a)
            if b:
                (own if mine and not made else library).add(b)
    return library, own


def declared(text):
    out = set()
    for m in DECLARED.finditer(text):
        out.add(m.group(1))
    return out


def without_comments(text):
    return re.sub(r"--[^\n]*", "", text)


def table(root):
    crates, defs, lemmas, fproofs, sources = parts_of(root)
    library = set()
    own = {}
    definitions = set()
    for p in defs + lemmas + fproofs + sources:
        library |= imports(read(p), crates)[0]
    for p in defs + lemmas:
        t = without_comments(read(p))
        for n in declared(t):
            own.setdefault(n, p)
        if p in defs:
            for m in re.finditer(r"^\s*(?:abbrev|unfoldable)(?: pub)? (\S+) :|^pub ([^\s:]+) :", t, re.M):
                definitions.add(m.group(1) or m.group(2))
    # variables of definitions and lemmas
    variables, qualified = set(), set()
    for p in defs + lemmas:
        t = without_comments(read(p))
        lib = imports(t, crates)[0]
        body = re.sub(r"^(?:pub )?use .*$", "", t, flags=re.M)
        qualified |= set(re.findall(r"\.([^\s()\[\]{}⦃⦄,;.`\"]+)", body))
        for w in WORD.findall(body):
            if w in own or w in lib or w in library:
                continue
            if (re.match(r"[A-Za-zπλ][\w'-]*-[\w'-]+$", w) or is_camel(w)) and not re.search(r"[^\w'-]", w):
                variables.add(w)
    variables -= qualified
    nouns = {snake(d) for d in definitions if "-" not in d} | LISTS
    turned = {}
    for n in sorted(set(own) | variables):
        if n in library and n not in own:
            continue
        new = snake(n) if is_camel(n) else n
        if "-" in new.strip("-") and re.match(r"[\w'-]+$", new):
            ps = new.split("-")
            best = None
            for k in range(1, len(ps)):
                left, right = "_".join(ps[:k]), "_".join(ps[k:])
                if n not in variables and left in nouns and right in nouns:
                    best = left + "-" + right
                    break
            new = best or "_".join(ps)
        if new != n:
            turned[n] = new
    return turned, own, library


def settle(turned, own, library):
    """Names that would fall together: a lemma that would have a definition's name gets `_lem`."""
    out = dict(LEMMAS)
    taken = {b for a, b in turned.items() if is_camel(a)}
    for a, b in turned.items():
        if not is_camel(a) and (b in taken or b in library or (b in own and b not in LEMMAS)):
            b += "_lem"
        out[a] = b
    return out


def respelled(text, names):
    return WORD.sub(lambda m: names.get(m.group(0), m.group(0)), text)


def quoted(text, names, own):
    """Names in backticks, as in comments and pages."""

    def word(m):
        w = m.group(0)
        if w in names:
            return names[w]
        s = snake(w).replace("-", "_")
        return s if s != w and (is_camel(w) or re.match(r"[a-z]+(-[a-z0-9]+)+$", w)) and s in own else w

    return re.sub(r"`[^`\n]*`", lambda m: "`" + WORD.sub(word, m.group(0)[1:-1]) + "`", text)


def turn(text, names, own, comment):
    lines = []
    for line in text.split("\n"):
        i = line.find(comment)
        code, rest = (line, "") if i < 0 else (line[:i], line[i:])
        lines.append(respelled(code, names) + quoted(rest, names, own))
    return "\n".join(lines)


def main():
    words = [w for w in sys.argv[1:] if not w.startswith("--")]
    root = words[0] if words else "."
    turned, own, library = table(root)
    names = settle(turned, own, library)
    own = set(own) | set(names.values())
    if "--list" in sys.argv:
        for a, b in sorted(names.items()):
            print(a, b)
        return
    _, defs, lemmas, fproofs, sources = parts_of(root)
    pages = glob.glob(root + "/*.md") + glob.glob(root + "/docs/**/*.md", recursive=True)
    for p in defs + lemmas + fproofs + sources + pages:
        old = read(p)
        if p.endswith(".md"):
            new = quoted(old, names, own)
        else:
            new = turn(old, names, own, "//" if p.endswith(".rt") else "--")
        if new != old:
            with open(p, "w", encoding="utf-8") as f:
                f.write(new)


if __name__ == "__main__":
    main()
