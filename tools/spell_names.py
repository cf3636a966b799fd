#!/usr/bin/env python3
"""Spells this repository's own definitions and lemmas as today's Rattle spells names, by names.tsv beside this file (old, a tab, new).

usage: python3 tools/spell_names.py [TREE]    TREE is a checkout, by default the one that holds this file

It was run once, after the toolchain's port.py and before any edit by hand. Words are in snake case, types in camel case; a lemma that
would have had its definition's name ends in _lem. It turns whole words of crates/: all of an .antt file, the clauses and ghost items of an
.rt file, and a word of a comment where the file's code has it. Functions of src/, strings and files keep their names.
"""
import os
import subprocess
import sys

HERE = os.path.dirname(os.path.realpath(__file__))
TREE = os.path.realpath(sys.argv[1]) if len(sys.argv) > 1 else os.path.dirname(HERE)


def main():
    guide = subprocess.run(["rt", "doc"], capture_output=True, text=True, check=True).stdout.strip()
    port = os.path.join(os.path.dirname(guide), "port", "notes", "2026-11-18-names-are-in-snake-case", "snake.py")
    crates = os.path.join(TREE, "crates")
    table = os.path.join(HERE, "names.tsv")
    subprocess.run([sys.executable, "-B", port, "--table", table, "--only", "antt,rt", crates], check=True)
    for name in sorted(os.listdir(crates)):
        folder = os.path.join(crates, name)
        if os.path.isdir(os.path.join(folder, "src")):
            subprocess.run(["rt", "fmt"], cwd=folder, check=True, stdout=subprocess.DEVNULL)


if __name__ == "__main__":
    main()
