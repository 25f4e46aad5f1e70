#!/usr/bin/env python3
"""Checks that docs/LIBRARY.md shows the example of crates/uses, word for word.

The example is crates/uses/src/lib.rt without its first comment. The document has it between the line
```rust crates/uses/src/lib.rt and the next line ```.

Usage: tools/library_example.py [--write]    (--write puts the example into the document)
The exit status is 0 if the document has the example, else 1.
"""

import pathlib
import sys

ROOT = pathlib.Path(__file__).resolve().parent.parent
SOURCE = ROOT / "crates/uses/src/lib.rt"
DOCUMENT = ROOT / "docs/LIBRARY.md"
FENCE = "```rust crates/uses/src/lib.rt\n"


def example_of(source: str) -> str:
    """The source without its first comment."""
    lines = source.splitlines(keepends=True)
    first = next((at for at, line in enumerate(lines) if not line.startswith("//!")), len(lines))
    return "".join(lines[first:]).strip("\n") + "\n"


def with_example(document: str, example: str) -> str | None:
    """The document with this example, or None if it has no place for it."""
    before, fence, after = document.partition(FENCE)
    _, end, rest = ("\n" + after).partition("\n```\n")
    return before + fence + example + end.lstrip("\n") + rest if fence and end else None


def main(arguments: list[str]) -> int:
    if arguments not in ([], ["--write"]):
        print("usage: tools/library_example.py [--write]")
        return 1
    document = DOCUMENT.read_text(encoding="utf-8")
    shown = with_example(document, example_of(SOURCE.read_text(encoding="utf-8")))
    if shown is None:
        print(f"docs/LIBRARY.md: no block that begins with {FENCE.strip()}")
        return 1
    if arguments:
        DOCUMENT.write_text(shown, encoding="utf-8")
    elif shown != document:
        print("docs/LIBRARY.md: not the code of crates/uses/src/lib.rt; tools/library_example.py --write puts it there")
        return 1
    print("ok: docs/LIBRARY.md has the code of crates/uses/src/lib.rt")
    return 0


if __name__ == "__main__":
    sys.exit(main(sys.argv[1:]))
