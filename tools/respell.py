#!/usr/bin/env python3
"""Brings the names of the repository's own definitions, lemmas, fields and variables in .antt files, and in the clauses of
.rt files, to snake case: `kindGap` becomes `kind_gap`. A dash stays where it joins a definition's name to what a lemma says
of it, as in `number_at-zero`. Names of the library and of what the checker makes stay.

usage: tools/respell.py [--list] [FOLDER]      FOLDER: the top of the repository, else the current folder; --list changes nothing

It was run once, right after the spelling of the Rattle of 2026-11 was brought in by that toolchain's own script.
"""

import os
import re
import sys

NAME = r"[A-Za-z_\u0370-\u03ff\u2102-\u2124][\w'\u2080-\u2089]*(?:-[\w'\u2080-\u2089<>=*]+)*"
TOKEN = re.compile(NAME)
USE = re.compile(r"^(\s*(?:pub )?(?:ghost )?use )([^\s{;]+?)(?:\.\{(.*?)\})?(\s+as\s+\S+?)?(;?)\s*$")
CLASHING = set()
DECLARED = re.compile(r"^ *(?:(?:abbrev|unfoldable|pub|opaque|private) )*(" + NAME + r") :", re.M)
CODE = re.compile(r'//[^\n]*|"(?:[^"\\]|\\.)*"')


def snake(name):
    """kindGap -> kind_gap; a name that begins with a capital stays, but in its later parts."""
    return re.sub(r"(?<=[a-z0-9])([A-Z])", lambda m: "_" + m.group(1).lower(), name) if name[:1].islower() else name


def files(top):
    for folder, dirs, names in os.walk(os.path.join(top, "crates")):
        dirs[:] = sorted(d for d in dirs if d not in ("out", ".git"))
        for name in sorted(names):
            if name.endswith((".antt", ".rt", ".edit")):
                yield os.path.join(folder, name)


def read(path):
    with open(path, encoding="utf-8") as f:
        return f.read()


def own_crates(top):
    return set(os.listdir(os.path.join(top, "crates")))


def is_own(path, crates):
    parts = path.split(".")
    return parts[0] == "Rattle" and len(parts) > 1 and parts[1] in crates and "Tie" not in parts and "Statement" not in parts


def external(text, crates):
    """The names that a text imports from elsewhere, and the aliases of modules."""
    found = set()
    for line in text.split("\n"):
        m = USE.match(line)
        if m and not is_own(m.group(2), crates):
            for item in (m.group(3) or "").split(","):
                for word in TOKEN.findall(item):
                    found.add(word)
    return found


def respelled(name, definitions):
    if "-" not in name:
        return snake(name)
    parts = [snake(p) if p[:1].islower() else p for p in name.replace("getD", "get_or").split("-")]
    out = parts[0]
    for before, part in zip(parts, parts[1:]):
        out += ("-" if before in definitions or before[:1].isupper() else "_") + part
    # A lemma that would have its function's name.
    return out + "_lem" if out in definitions or name in CLASHING else out


def definitions_of(top):
    """The names, as they are to be spelled, that files of specs/ declare, and those in camel case that files of proofs/ do."""
    found = set()
    for path in files(top):
        if path.endswith(".antt"):
            names = [n for n in DECLARED.findall(read(path)) if "-" not in n]
            found.update(snake(n) for n in names if "/specs/" in path or snake(n) != n)
    return found


def lemmas_named_so(top, definitions):
    """The lemmas that have today the name that a definition in camel case is to have."""
    turned = set()
    for path in files(top):
        if path.endswith(".antt"):
            turned.update(snake(n) for n in DECLARED.findall(read(path)) if snake(n) != n and n[:1].islower())
    found = set()
    for path in files(top):
        if path.endswith(".antt") and "/proofs/" in path:
            found.update(n for n in DECLARED.findall(read(path)) if n in turned)
    return found


def lemmas_aside(text, crates, names):
    """Renames such a lemma where a file declares or imports it."""
    mine = set()
    declared = set(DECLARED.findall(text))
    for line in text.split("\n"):
        m = USE.match(line)
        if m and is_own(m.group(2), crates) and ".proofs." in m.group(2):
            declared.update(TOKEN.findall(m.group(3) or ""))
    mine = declared & names

    def turn(m):
        return m.group() + "_lem" if m.group() in mine and text[max(0, m.start() - 1) : m.start()] != "." else m.group()

    return TOKEN.sub(turn, text) if mine else text


def imported(text, crates):
    """The names that a text imports from the repository's own modules."""
    found = set()
    for line in text.split("\n"):
        m = USE.match(line)
        if m and is_own(m.group(2), crates):
            found.update(TOKEN.findall(m.group(3) or ""))
    return found


def tokens_to_turn(text, outside, definitions, only=None):
    turned = {}
    for word in set(TOKEN.findall(text)):
        if only is not None and "-" in word and word not in only:
            continue
        if word in outside or not (("-" in word) or re.search(r"[a-z0-9][A-Z]", word) and word[:1].islower()):
            continue
        if not word[:1].islower() and "-" not in word:
            continue
        new = respelled(word, definitions)
        if new != word:
            turned[word] = new
    return turned


def turn_antt(text, crates, definitions, walk):
    """walk: the file goes through a function's code. There the names that the checker makes are left for its own proof."""
    outside = external(text, crates)
    turned = tokens_to_turn(text, outside, definitions, imported(text, crates) if walk else None)

    def turn(line, t):
        before = line[max(0, t.start() - 5) : t.start()]
        if before.endswith(("tie.", "goal.")):
            return t.group()
        if walk and before.endswith(".") and "-" in t.group():
            return respelled(t.group(), definitions)
        return turned.get(t.group(), t.group())

    out = []
    for line in text.split("\n"):
        m = USE.match(line)
        if m and not is_own(m.group(2), crates):
            out.append(line)
        elif line.lstrip().startswith("--"):
            out.append(TOKEN.sub(lambda t: turn(line, t) if re.search(r"[a-z][A-Z]", t.group()) else t.group(), line))
        else:
            out.append(TOKEN.sub(lambda t: turn(line, t), line))
    return "\n".join(out), turned


def turn_code(text, definitions):
    """In .rt files camel case stands in ghost lines and clauses alone."""
    turned = {}
    for word in set(re.findall(r"\b[a-z][a-z0-9_]*(?:[A-Z][A-Za-z0-9]*)+\b", text)):
        turned[word] = snake(word)
    return re.sub(r"\b[a-z][a-z0-9_]*(?:[A-Z][A-Za-z0-9]*)+\b", lambda m: turned[m.group()], text), turned


def main():
    args = [a for a in sys.argv[1:] if a != "--list"]
    top = args[0] if args else "."
    crates = own_crates(top)
    definitions = definitions_of(top) | {"length", "take", "drop", "get_or", "set", "map", "replicate", "sum", "all", "any", "nat_abs"}
    lemmas = lemmas_named_so(top, definitions)
    # Names with dashes that would fall together with a name that stands beside them.
    for path in files(top):
        if path.endswith(".antt") and not path.endswith("/Proof.antt"):
            text = read(path)
            have = set(TOKEN.findall(text))
            outside = external(text, crates)
            CLASHING.update(w for w in have if "-" in w and w not in outside and respelled(w, definitions) in have - {w})
    every, clashes, edits = {}, [], []
    for path in files(top):
        text = read(path)
        if path.endswith(".antt"):
            text = lemmas_aside(text, crates, lemmas)
            new, turned = turn_antt(text, crates, definitions, path.endswith("/Proof.antt"))
        elif path.endswith(".rt") or "file: src/" in text:
            new, turned = turn_code(text, definitions)
        else:
            edits.append(path)
            continue
        have = set(TOKEN.findall(text))
        for old, to in turned.items():
            every[old] = to
            if to in have:
                clashes.append((path, old, to))
        back = {}
        for old, to in turned.items():
            if to in back:
                clashes.append((path, old, back[to], to))
            back[to] = old
        if "--list" not in sys.argv:
            with open(path, "w", encoding="utf-8") as f:
                f.write(new)
    # Edits of definitions: their text is turned as the files that they are of.
    for path in edits:
        text = read(path)
        new = TOKEN.sub(lambda t: every.get(t.group(), t.group()), text)
        if "--list" not in sys.argv and new != text:
            with open(path, "w", encoding="utf-8") as f:
                f.write(new)
    if "--list" in sys.argv:
        for old in sorted(every):
            print(old, every[old])
    for clash in clashes:
        print("fall together:", *clash, file=sys.stderr)


if __name__ == "__main__":
    main()
