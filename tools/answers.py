#!/usr/bin/env python3
"""Turns the proofs of functions from the older form, a Proof.antt that lists an answer to each need of the code, to Invariants.antt and Answers.antt.

usage: rt names NAMES; tools/answers.py NAMES [CRATE..]       at the top of the repository; NAMES is a folder that 'rt names' writes

Each answer goes by today's name of its goal, and each path through the steps of the code by today's names of the steps. An answer that was the search is
left out, since the check searches by itself. What has no name today is said on a line. A proof that has another form stays as it is.
"""
import glob
import json
import os
import re
import sys

WORD = r"[^\s(){}.;,@\"«»]+"
ARGUMENT = r"(?!=)[^\s(){}.;,@\"«»]+"


def norm(name):
    return name.replace("_", "-").lower()


def blocks(text):
    """The declarations of a file: for each its first line's words, and its lines."""
    out, now = [], None
    for line in text.splitlines():
        m = re.match(rf"((?:pub |abbrev |unfoldable )*)({WORD})((?: \{{[^{{}}]*\}})*) : (.*)$", line)
        if m and not line.startswith((" ", "use ", "--")):
            now = [m[2], m[4], [line]]
            out.append(now)
        elif now is not None:
            now[2].append(line)
    return out


class Names:
    """What 'rt names' says of one function."""

    def __init__(self, said):
        self.said = said
        self.places = said["places"]
        self.at = {p[0]: i for i, p in enumerate(self.places)}
        self.needs = {}
        for i, (old, new) in enumerate(said["needs"]):
            self.needs[norm(old)] = (new, said["asked_at"][i])

    def chain(self, place):
        while place is not None:
            i = self.at[place]
            yield i
            place = self.places[i][1]

    def path(self, place, step, rest):
        """Today's path for a step and the fields behind it, as seen from a place."""
        said = self.said
        if step in ("args", "ranges"):
            if rest:
                for old, new in said["args"]:
                    if old == f".{step} .{rest[0]}":
                        return [step, new.split(".")[-1], *rest[1:]]
            return [step, *rest]
        if step in ("requires", "pre"):
            return ["requires", *rest]
        for i in self.chain(place):
            arm = said["arms"][i]
            best = None
            for field, of, old in arm[2] if arm else []:
                if norm(of) == norm(step) and rest[: len(old)] == old and (best is None or len(old) > len(best[1])):
                    if not field.endswith("-own"):
                        best = (field, old)
            if best:
                return [arm[0], best[0], *rest[len(best[1]) :]]
            old, new = self.places[i][2]
            if norm(old) == norm(step) and old:
                return [new, *rest]
        for i in self.chain(place):
            for name, of in said["typed"][i]:
                if norm(of) == norm(step):
                    return ["type_inv", name, *rest]
        # A step elsewhere, as in another branch.
        for p in self.places:
            if norm(p[2][0]) == norm(step):
                return [p[2][1], *rest]
        return None

    def name(self, label):
        for it in (label, re.sub(r"^(overflow|nonzero)[-_]", "", label)):
            if norm(it) in self.needs:
                return self.needs[norm(it)]
        return None


def substituted(text, table):
    """A text with whole words replaced, but not behind a dot."""
    # The name of a record's field stays.
    return re.sub(rf"(?<![^\s(){{}};,@\"«»]){WORD}(?! = [^;}}]*[;}}])|(?<=[{{;]) ?{WORD}(?= = )|(?<![^\s(){{}};,@\"«»]){WORD}", lambda m: m[0] if re.search(r"[{;] ?$", text[: m.start()]) and text[m.end() :].startswith(" = ") else table.get(m[0], m[0]), text)


def turned(body, var, names, place, lost):
    # A name for the record at an earlier step is the record itself today, which has all steps.
    aliases = {}
    for m in re.finditer(rf"let ({WORD}) = {re.escape(var)}((?:\.before)*) in\s*", body):
        if m[2].count(".before"):
            aliases[m[1]] = m[2]
    for alias, way in aliases.items():
        body = re.sub(rf"let {re.escape(alias)} = {re.escape(var)}(?:\.before)* in\s*", "", body)
        body = re.sub(rf"(?<![^\s(){{}};,@\"«»]){re.escape(alias)}(?=[.\s),;]|$)", var + way, body)

    def one(m):
        words = m[0].split(".")[1:]
        while words and words[0] == "before":
            words.pop(0)
        if not words:
            lost.append(m[0])
            return var
        new = names.path(place, words[0], words[1:]) or names.path(place, re.sub("_(lem|of)$", "", words[0]), words[1:])
        if new is None:
            lost.append(m[0])
            return var + "." + ".".join(words)
        return var + "." + ".".join(new)

    return re.sub(rf"(?<![^\s(){{}};,@\"«»])(?:{re.escape(var)})(?:\.{WORD})+", one, body)


def convert(path, crate, key, said):
    text = open(path, encoding="utf-8").read()
    if "tie.spec" not in text:
        print(f"{path}: another form")
        return
    names = Names(said)
    folder = os.path.dirname(path)
    module = "Rattle." + key.replace("Rattle-", "").replace("-proofs.", ".proofs.", 1)[: -len(".Lts")]
    head = []
    for line in text.splitlines():
        if line.startswith("use "):
            if not re.search(r"\.(Statement|Tie)(\.|\s|$)", line):
                head.append(line)
        elif line.startswith("--") and not head:
            head.append(line)
    comments = [l for l in head if l.startswith("--")]
    uses = [l for l in head if l.startswith("use ")]
    invariants, answers = [], []
    for name, kind, lines in blocks(text):
        body = "\n".join(lines[1:]).rstrip()
        m = re.match(r"tie\.(invariant|decreases)_loop(\d*)", kind)
        if m:
            k = int(m[2] or 1) - 1
            (old, new), variables = said["loops"][k][0], said["loops"][k][1]
            changed = said["changed"][k]
            m2 = re.search(rf"(?m)^{re.escape(name)}((?: {ARGUMENT})*) =(.*)", body, re.S)
            given = m2[1].split()
            unf = body[: m2.start()].strip("\n")
            # The variables as they were at the loop's start, then those that change.
            expect = len(variables) + sum(changed)
            table = {}
            if len(given) == expect:
                for v, n, ch in zip(variables, given, changed):
                    table[n] = f"l.initial.{v}" if ch else f"l.{v}"
                for v, n in zip([v for v, ch in zip(variables, changed) if ch], given[len(variables) :]):
                    table[n] = f"l.{v}"
            else:
                print(f"{path}: {name} has {len(given)} arguments for {variables} {changed}")
            goal = f"{m[1]}-{new}"
            text2 = substituted(m2[2], table)
            invariants.append(f"abbrev pub {goal} : goal.{goal}\n" + (unf + "\n" if unf.strip() else "") + f"{goal} l ={text2}".rstrip())
            continue
        if re.match(r"tie\.Need", kind):
            label = re.match(r"tie\.Need-(\S+)", kind)[1]
            found = names.name(label) or names.name(name)
            m2 = re.search(rf"(?m)^{re.escape(name)}((?: {ARGUMENT})*) =(.*)", body, re.S)
            if not m2:
                print(f"{path}: {name}: no equation")
                continue
            unf = body[: m2.start()].strip("\n")
            term = m2[2].strip()
            if term in ("search rules", "search needs") and not unf.strip():
                continue
            if found is None:
                print(f"{path}: {label}: no goal has this name now")
                continue
            new, at = found
            args = m2[1].split()
            lost = []
            term2 = turned(m2[2], args[0], names, at[0], lost)
            for it in lost:
                print(f"{path}: {new}: {it}: no such step")
            keep = args[:1] if not re.search(r"κs", term2) else args
            answers.append(f"pub {new} : goal.{new}\n" + (unf + "\n" if unf.strip() else "") + f"{new} {' '.join(keep)} ={term2}".rstrip())
            continue
        if "statement M" in kind:
            continue
        answers.append("\n".join(lines).rstrip())
    os.remove(path)
    for file, parts, given in (("Invariants", invariants, "Given"), ("Answers", answers, "Goals")):
        if parts:
            words = "\n".join(parts)
            kept = []
            for u in uses:
                m = re.match(r"use ([^\s{]+?)\.?\{(.*)\}$", u)
                if not m:
                    kept.append(u)
                    continue
                items = [i.strip() for i in m[2].split(",")]
                here = []
                for i in items:
                    w = i.split(" as ")[-1].strip()
                    pieces = [p for p in w.split("◌") if p]
                    if "◌" in w and (w in words or all(re.search(rf"(?<![^\s(){{}};,@\"«».]){re.escape(p)}(?![^\s(){{}};,@\"«».])", words) for p in pieces)):
                        here.append(i)
                    elif "◌" not in w and re.search(rf"(?<![^\s(){{}};,@\"«».]){re.escape(w)}(?![^\s(){{}};,@\"«».])", words):
                        here.append(i)
                if here:
                    kept.append(f"use {m[1]}.{{{', '.join(here)}}}")
            with open(os.path.join(folder, f"{file}.antt"), "w", encoding="utf-8") as f:
                f.write("\n".join([*(comments if file == ("Invariants" if invariants else "Answers") else []), *kept, f"use {module}.{given} as goal", "", "\n\n".join(parts)]) + "\n")
    if not invariants and not answers and not os.listdir(folder):
        os.rmdir(folder)


def main():
    where, crates = sys.argv[1], sys.argv[2:]
    for listed in sorted(glob.glob(os.path.join(where, "crates/*/names.json"))):
        crate = listed.split(os.sep)[-2]
        if crates and crate not in crates:
            continue
        said = json.load(open(listed, encoding="utf-8"))
        for key, it in said.items():
            path = os.path.join("crates", crate, "proofs", *key.split(".")[1:-1], "Proof.antt")
            if os.path.isfile(path):
                convert(path, crate, key, it)


main()
