#!/usr/bin/env python3
"""Spells this repository's own definitions and lemmas in snake case, by the table tools/respell.tsv.

usage: tools/respell.py            at the top of the repository, right after the kit's port/port.py

It goes over specs/, proofs/ and the clauses of src/, and over the code spans of the pages. Functions of src/, exported
names, strings, inputs and outputs keep their spelling. The rewriting itself is done by a script of the kit.
"""
import os
import subprocess
import sys

KIT = "/opt/rattle/port/notes/2026-11-18-names-are-in-snake-case/snake.py"
HERE = os.path.dirname(os.path.realpath(__file__))
TABLE = os.path.join(HERE, "respell.tsv")
MADE = "c,w,l,g,goal,tie"


def respell(kinds, *paths):
    words = ["--table", TABLE, "--only", kinds, "--prose", "none", "--skip-behind", MADE, *paths]
    said = subprocess.run([sys.executable, KIT, *words], stdout=subprocess.PIPE, text=True)
    return said.returncode


def main():
    os.chdir(os.path.dirname(HERE))
    pages = [it for it in ("README.md", "CONTRIBUTING.md", "docs", "loader/README.md", "c/README.md", "tools/README.md", "examples/README.md") if os.path.exists(it)]
    return respell("antt,rt", "crates") or respell("md", *pages)


if __name__ == "__main__":
    raise SystemExit(main())
