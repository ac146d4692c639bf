#!/usr/bin/env python3
"""Brings the names that this repository's own specs/ and proofs/ declare to one spelling: words in snake case, types in
upper camel case.

usage: python3 tools/respell.py        at the top of the repository, once, after the toolchain's port.py

It renames what is declared with a dash in crates/*/specs and crates/*/proofs (definitions, lemmas, their local helpers,
record fields), wherever those names are imported, in comments and in docs/. It leaves the names that the toolchain makes
(goals, invariants and the parts of a goal), names of the library, and every name of src/. It stops, and writes nothing,
where two names of one scope would fall together.
"""

import collections
import os
import re
import sys

WORD = r"(?<![\w'.-])[^\W\d][\w']*(?:-[\w']+)+"
DOTTED = r"(?<=[\w')}]\.)[^\W\d][\w']*(?:-[\w']+)+"
NAME = r"[^\W\d][\w']*(?:-[\w']+)+"
DECLARED = re.compile(r"^(\s*)(?:(?:pub|abbrev|unfoldable|record|data)\s+)*(" + NAME + r")(?=\s*:|\s+[({].*:|\s+where)")
PLAIN = re.compile(r"^(\s*)(?:(?:pub|abbrev|unfoldable|record|data)\s+)*([^\W\d][\w']*)(?=\s*:|\s+[({].*:|\s+where)")
IMPORT = re.compile(r"\buse\s+([\w.+'-]+)\.\{([^}]*)\}", re.S)


# names whose plain spelling is taken in their scope: by a type of src/, or by a function of the library
INSTEAD = {"Not-made": "WhyNotMade", "bit-and": "bit_of_and", "bit-or": "bit_of_or"}


def files(root):
    for folder, dirs, names in os.walk(os.path.join(root, "crates")):
        dirs[:] = sorted(d for d in dirs if d not in ("out", "target"))
        for n in sorted(names):
            if n.endswith((".rt", ".antt")):
                yield os.path.join(folder, n)


def respelled(name):
    if name in INSTEAD:
        return INSTEAD[name]
    parts = name.split("-")
    if name[0].isupper():
        return "".join(p[0].upper() + p[1:] for p in parts)
    return "_".join(parts)


def code(text, path):
    return re.sub(r"(?m)--.*$" if path.endswith(".antt") else r"(?m)//.*$", "", text)


def own_module(module, crates):
    """Whether a module is one that this repository writes, and not one that the toolchain makes or the library has."""
    parts = module.split(".")
    if len(parts) < 4 or parts[0] != "Rattle" or parts[1] not in crates or parts[2] not in ("specs", "proofs"):
        return False
    return parts[3] != "declared" and not (len(parts) > 4 and parts[-1] in ("Goals", "Given"))


def imports(text, crates):
    ours, others = set(), set()
    for module, names in IMPORT.findall(text):
        for n in names.split(","):
            n = n.strip().split(" as ")
            (ours if own_module(module, crates) else others).add(n[-1].strip())
            if len(n) == 2 and own_module(module, crates):
                ours.add(n[0].strip())
    return ours, others


def modules(text, crates):
    """The short names of this repository's modules that a file imports whole."""
    found = re.findall(r"(?m)^\s*(?:pub\s+)?use\s+(Rattle\.[\w.]+?)(?:\s+as\s+(\w+))?\s*$", text)
    return {short or path.split(".")[-1] for path, short in found if own_module(path, crates)}


def main():
    root = "."
    crates = set(os.listdir(os.path.join(root, "crates")))
    texts = {p: open(p, encoding="utf-8").read() for p in files(root)}
    layer, declared, plain, fields = {}, {}, {}, set()
    for p, t in texts.items():
        parts = os.path.relpath(p, os.path.join(root, "crates")).split(os.sep)
        layer[p] = "goals" if parts[1] == "proofs" and len(parts) > 3 else parts[1]
        declared[p], plain[p] = set(), set()
        if not p.endswith(".antt"):
            continue
        in_record = False
        for line in code(t, p).split("\n"):
            if line and not line[0].isspace():
                in_record = bool(re.match(r"(?:pub\s+)?record\b", line))
            m = DECLARED.match(line)
            if m and not (layer[p] == "goals" and re.search(r":\s*goal\.", line)):
                declared[p].add(m[2])
                if m[1] and in_record:
                    fields.add(m[2])
            m = PLAIN.match(line)
            if m:
                plain[p].add(m[2])
    # a name that a goal's file declares is the toolchain's where it is not imported and not a local helper
    everywhere = set().union(*(d for p, d in declared.items() if layer[p] != "goals"))
    bad = []
    for p in texts:
        both = declared[p] | plain[p]
        seen = collections.defaultdict(set)
        for n in both:
            seen[respelled(n) if n in declared[p] else n].add(n)
        ours, others = imports(texts[p], crates)
        for n in ours:
            seen[respelled(n)].add(n)
        for n in others:
            seen[n].add(n)
        for new, olds in seen.items():
            if len(olds) > 1:
                bad.append(f"{p}: {sorted(olds)} fall together as {new}")
    if bad:
        print("\n".join(bad))
        return 1
    changed = 0
    for p, t in texts.items():
        ours, others = imports(t, crates)
        if layer[p] == "goals" or p.endswith(".rt"):
            names = {n for n in ours if "-" in n} | declared[p]
        else:
            names = everywhere - others
        names -= others
        whole = modules(t, crates)

        def word(m):
            return respelled(m[0]) if m[0] in names else m[0]

        def dotted(m):
            head = re.search(r"([\w']+)\.$", m.string[: m.start()])
            theirs = head and head[1] in whole and m[0] in everywhere
            return respelled(m[0]) if theirs or m[0] in fields else m[0]

        def field(m):
            return m[1] + (respelled(m[2]) if m[2] in fields else m[2]) + m[3]

        new = re.sub(WORD, word, t)
        new = re.sub(DOTTED, dotted, new)
        if layer[p] == "goals":
            new = re.sub(r"([{;]\s*)(" + NAME + r")(\s*=)", field, new)
        if p.endswith(".rt"):
            new = re.sub(r"(?m)//.*$", lambda m: re.sub(WORD, lambda w: respelled(w[0]) if w[0] in everywhere else w[0], m[0]), new)
        if new != t:
            with open(p, "w", encoding="utf-8") as f:
                f.write(new)
            changed += 1
    for folder, _, names in os.walk(os.path.join(root, "docs")):
        for n in names:
            p = os.path.join(folder, n)
            t = open(p, encoding="utf-8").read()
            new = re.sub(r"`[^`\n]*`", lambda m: re.sub(WORD, lambda w: respelled(w[0]) if w[0] in everywhere else w[0], m[0]), t)
            if new != t:
                with open(p, "w", encoding="utf-8") as f:
                    f.write(new)
                changed += 1
    print(f"respell: {len(everywhere)} names, {changed} files")
    return 0


if __name__ == "__main__":
    sys.exit(main())
