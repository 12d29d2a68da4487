#!/usr/bin/env python3
"""Moves the laws and theorems of crates from specs/ to proofs/, with what names them, where edits of the crate change a definition.

usage: tools/move_theorems.py CRATE..     at the top of the repository

An edit that makes a theorem in specs/ false, on which others there rest, reads as one that cannot be read; in proofs/ it is refused. Only the place
changes: the modules keep their names and their texts, and Rattle.CRATE.specs.Laws is Rattle.CRATE.proofs.Laws.
"""
import glob
import os
import re
import subprocess
import sys


def is_moved(module):
    return module == "Laws" or module.endswith(("Theorems", "Theorem"))


def main():
    moved = {}
    for crate in sys.argv[1:]:
        lib = f"crates/{crate}/specs/Lib.antt"
        lines = open(lib, encoding="utf-8").read().splitlines()
        names = [m[1] for line in lines if (m := re.match(r"pub mod (\w+)$", line)) and is_moved(m[1])]
        moved[crate] = names
        os.makedirs(f"crates/{crate}/proofs", exist_ok=True)
        for name in names:
            for part in (f"{name}.antt", name):
                if os.path.exists(f"crates/{crate}/specs/{part}"):
                    subprocess.run(["git", "mv", f"crates/{crate}/specs/{part}", f"crates/{crate}/proofs/{part}"], check=True)
        with open(lib, "w", encoding="utf-8") as f:
            f.write("\n".join(line for line in lines if not (line.startswith("pub mod ") and line[8:] in names)) + "\n")
        to = f"crates/{crate}/proofs/Lib.antt"
        was = open(to, encoding="utf-8").read() if os.path.isfile(to) else ""
        with open(to, "w", encoding="utf-8") as f:
            f.write(was + "".join(f"pub mod {name}\n" for name in names))
    path = re.compile(r"Rattle\.(\w+)\.specs\.(\w+)")

    def turned(m):
        return f"Rattle.{m[1]}.proofs.{m[2]}" if m[2] in moved.get(m[1], ()) else m[0]

    for pattern in ("crates/*/specs/**/*.antt", "crates/*/proofs/**/*.antt", "crates/*/src/**/*.rt"):
        for f in glob.glob(pattern, recursive=True):
            t = open(f, encoding="utf-8").read()
            new = path.sub(turned, t)
            if new != t:
                with open(f, "w", encoding="utf-8") as out:
                    out.write(new)


main()
