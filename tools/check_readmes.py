#!/usr/bin/env python3
"""Checks that each crate's README has one form and at most 120 words.

A README is its title `# NAME` and four paragraphs, each with its label in front:
- **Job:** what the crate is for;
- **Begin with:** where to begin reading: one of its files at least;
- **Apart:** why it is a crate of its own;
- **No clause says:** what a wrong body could still do, or, of a crate of tests, what these show that no clause says.
A path into its src/, specs/ or proofs/ has to exist, with or without its ending.

Usage: tools/check_readmes.py    (prints each fault, and then exits with 1)
"""

import pathlib
import re
import sys

LABELS = ["Job", "Begin with", "Apart", "No clause says"]
MAX_WORDS = 120
PATH = re.compile(r"`((?:src|specs|proofs)/[\w/.]+)`")
LABEL = re.compile(r"\*\*([^*]+):\*\* \S")


def is_there(crate: pathlib.Path, path: str) -> bool:
    return any((crate / (path + ending)).exists() for ending in ("", ".rt", ".antt"))


def faults_of(crate: pathlib.Path) -> list[str]:
    """What is wrong with the README of a crate."""
    readme = crate / "README.md"
    if not readme.is_file():
        return ["no README.md"]
    text = readme.read_text(encoding="utf-8")
    title, *paragraphs = re.split(r"\n\s*\n", text.strip())
    labels = [label[1] if (label := LABEL.match(paragraph)) else "" for paragraph in paragraphs]
    faults = [f"no {path}" for path in PATH.findall(text) if not is_there(crate, path)]
    if title != f"# {crate.name}":
        faults.append(f"its title isn't # {crate.name}")
    if labels != LABELS:
        faults.append("its paragraphs aren't " + ", ".join(f"**{label}:**" for label in LABELS))
    elif not PATH.search(paragraphs[LABELS.index("Begin with")]):
        faults.append("names no file to begin with")
    if len(text.split()) > MAX_WORDS:
        faults.append(f"{len(text.split())} words, more than {MAX_WORDS}")
    return faults


def main() -> int:
    crates = sorted((pathlib.Path(__file__).resolve().parent.parent / "crates").iterdir())
    faults = [f"{crate.name}/README.md: {fault}" for crate in crates if crate.is_dir() for fault in faults_of(crate)]
    print("\n".join(faults) if faults else "ok: each crate's README has its four parts and at most 120 words")
    return 1 if faults else 0


if __name__ == "__main__":
    sys.exit(main())
