#!/usr/bin/env python3
"""Spells the names that this repository declares in specs/ and proofs/ in snake case, as limit_of for limitOf and chose_none for chose-none.

usage: tools/respell.py [--check]        at the top of the repository, once, after the kit's port.py

Types, modules and names of capitals keep their spelling, but for a dash, which becomes an underscore. A name stays where a file imports it from a
library that is not of this repository. A lemma that would then have the name of another word of some file ends in _lem, and a definition that would
have the name of another word or of something in src/ ends in _of. Comments and pages are turned in their code spans, and the edits of specs/ too.
--check prints the names that still fall together, and writes nothing; else the table of names is printed.
"""
import collections
import glob
import os
import re
import sys

WORD = r'[^\s(){}.;,@"«»]+'
QUIET = re.compile(r'"(?:[^"\\\n]|\\.)*"|(?<![^\s(){}.;,@"«»])--[^\n]*|\{-.*?-\}', re.S)
NEED = re.compile(rf"(?m)^{WORD} : tie\.[^\n]*$")
DECLARED = re.compile(rf"(?m)^ *((?:pub |abbrev |unfoldable |data |record )*)({WORD})(?: *\{{[^{{}}\n]*\}}| *\([^()\n]*\))* :(?!:)")
USE = re.compile(r"\buse ([^\s;{]+?)\.?(\{[^}]*\})?(?: as ([^\s;]+))?(?=;|\n|$)")
GHOST_USE = re.compile(r"ghost\s+use\b[^;]*;")
CLAUSE = re.compile(r"(?:requires|ensures)\s*\*?\s*(?:\w+\s*)?\{|ghost\s*\w+\s*(?::|=)\s*\{")


def snake(name):
    """limitOf is limit_of, chose-none is chose_none, is-X-at is is_X_at."""
    spaced = re.sub(r"(?<=[a-z0-9])([A-Z])(?=[a-z])", lambda m: "_" + m[1].lower(), name) if name[0].islower() else name
    spaced = re.sub(r"(?<=[a-z0-9])([A-Z]+)(?![a-z])", r"_\1", spaced) if name[0].islower() else spaced
    return spaced.replace("-", "_")


def is_own(path, crates):
    steps = path.split(".")
    return len(steps) > 1 and steps[0] == "Rattle" and steps[1] in crates or steps[0] == "package"


def files():
    for pattern in ("crates/*/specs/**/*.antt", "crates/*/proofs/**/*.antt", "crates/*/src/**/*.rt"):
        yield from sorted(glob.glob(pattern, recursive=True))


def imports(text, crates):
    """The names that a text brings in from libraries of others."""
    out = set()
    for path, items, alias in USE.findall(text):
        if not is_own(path, crates):
            out.update(re.findall(WORD, items or path.split(".")[-1]))
    return out


def clauses(text):
    """The parts of a source that are antt: ghost use items and clauses, as pairs of places."""
    out = [(m.start(), m.end()) for m in GHOST_USE.finditer(text)]
    for m in CLAUSE.finditer(text):
        depth, at = 1, m.end()
        while depth and at < len(text):
            depth += {"{": 1, "}": -1}.get(text[at], 0)
            at += 1
        out.append((m.end(), at))
    return sorted(out)


def spans(text, table):
    """A comment or a page, with the names in its code spans turned."""
    return re.sub(r"`[^`\n]+`", lambda s: re.sub(WORD.replace('"', '`"'), lambda m: table.get(m[0], m[0]), s[0]), text)


def main():
    crates = set(os.listdir("crates"))
    texts = {f: open(f, encoding="utf-8").read() for f in files()}
    declared = collections.defaultdict(set)
    for f, t in texts.items():
        if f.endswith(".antt"):
            for _, name in DECLARED.findall(NEED.sub(" ", QUIET.sub(" ", t))):
                declared[name].add(f)
    table = {n: snake(n) for n in declared if snake(n) != n}
    tokens = {}
    for f, t in texts.items():
        code = QUIET.sub(" ", t) if f.endswith(".antt") else re.sub(r"//[^\n]*", " ", t)
        if f.endswith(".rt"):
            code = " ".join(code[a:b] for a, b in clauses(code))
        tokens[f] = set(re.findall(WORD, code))
    rust = set()
    for f, t in texts.items():
        if f.endswith(".rt"):
            rust.update(re.findall(r"\w+", re.sub(r"//[^\n]*", " ", t)))
    every = set().union(*tokens.values())

    def fallen():
        by_new, clashes = collections.defaultdict(set), collections.defaultdict(list)
        for old, new in table.items():
            by_new[new].add(old)
        for new, olds in by_new.items():
            if len(olds) > 1 or new in every:
                for f, words in tokens.items():
                    here = [o for o in olds if o in words] + ([new] if new in words else [])
                    if len(here) > 1:
                        clashes[new].append((f, here))
        return clashes

    for old in table:
        if "-" not in old and old[0].islower() and table[old] in rust and not table[old].endswith("_of"):
            table[old] += "_of"
    for new, where in fallen().items():
        olds = {o for _, here in where for o in here if o in table}
        for old in olds:
            if "-" in old:
                table[old] += "_lem"
            elif new in every and not new.endswith("_of"):
                table[old] += "_of"
    clashes = fallen()
    if "--check" in sys.argv[1:]:
        for new, where in sorted(clashes.items()):
            print(new, len(where), where[0])
        print(len(table), "names,", len(clashes), "clashes")
        return
    for f, t in texts.items():
        theirs = imports(QUIET.sub(" ", t), crates)
        here = {n for _, n in DECLARED.findall(QUIET.sub(" ", t))} if f.endswith(".antt") else set()
        own = {o: n for o, n in table.items() if o in here or o not in theirs}

        def turn(part):
            return re.sub(WORD, lambda m: own.get(m[0], m[0]), part)

        if f.endswith(".antt"):
            new, at = "", 0
            for m in QUIET.finditer(t):
                new += turn(t[at : m.start()]) + (spans(m[0], own) if m[0][0] != '"' else m[0])
                at = m.end()
            new += turn(t[at:])
        else:
            new, at = "", 0
            for a, b in clauses(t):
                if a >= at:
                    new += t[at:a] + turn(t[a:b])
                    at = b
            new += t[at:]
        if new != t:
            with open(f, "w", encoding="utf-8") as out:
                out.write(new)
    for f in sorted(glob.glob("docs/*.md") + ["README.md"]):
        t = open(f, encoding="utf-8").read()
        new = spans(t, table)
        if new != t:
            with open(f, "w", encoding="utf-8") as out:
                out.write(new)
    for f in sorted(glob.glob("crates/*/must-fail/*.edit")):
        t = open(f, encoding="utf-8").read()
        if re.search(r"(?m)^file: (specs|proofs)/", t):
            new = re.sub(r"(?m)^(old|new): .*$", lambda line: re.sub(WORD, lambda m: table.get(m[0], m[0]), line[0]), t)
            if new != t:
                with open(f, "w", encoding="utf-8") as out:
                    out.write(new)
    for old, new in sorted(table.items()):
        print(f"{old}\t{new}")


main()
