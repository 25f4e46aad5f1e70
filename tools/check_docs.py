#!/usr/bin/env python3
"""Checks the documents: README.md, CONTRIBUTING.md, docs/*.md, the README of each crate, of companion/ and of each folder
of examples/.

It reports, each with its file and line:
- a path, a link, a target of `make`, or a command or option of `drain` that doesn't exist;
- a line of README.md over 100 characters, a README.md over 80 lines, and a line of the other pages or of docs/ over
  120 characters (200 in a table; code is exempt);
- a name in an entry of docs/DEFINITIONS.md that no file which it links has, and a crate with specs/ that it leaves out;
- a call or clause in the first column of docs/PROVED.md that no code has;
- another number of files or lines than docs/THEOREM.md says are to be read;
- a word that readers don't know (WORDS), outside code; and over 42,000 words in all .md files;
- with PROGRAM, an example whose output isn't what the program prints.

An example is a fenced block with a line `$ drain ..` or `$ build/drain ..`. All its lines `$ ..` are run, in order, by
one shell, and the lines below each are compared with what it prints. A line `..` or `...` stands for any lines, and a
tail `  # ..` is a comment. The blocks of one document run in one scratch folder, which has copies of samples/ and
tools/; each block starts at its top. So a block that can't be run everywhere carries no `$ `.

Usage: tools/check_docs.py [--write] [PROGRAM]    (--write puts what the program prints into the examples that differ)
The exit status is 0 if there is nothing to report, else 1.
"""

import argparse
import dataclasses
import os
import pathlib
import re
import shutil
import subprocess
import sys
import tempfile
from collections.abc import Iterable, Iterator

README_LINE, README_LINES, DOCS_LINE, TABLE_LINE, ALL_WORDS = 100, 80, 120, 200, 42_000
WORDS = re.compile(
    r"\b(noughts?|want\s+of\s+memory|(?:is|are|was|were)\s+(?:told|asked\s+for)|hand(?:s|ed)\s+out|whoever"
    r"|a\s+word\s+on|faults?\s+of\s+the\s+words)\b",
    re.IGNORECASE,
)
FOLDERS = "docs|crates|tools|tests|samples|bench|companion|examples"
PATH = re.compile(rf"(?<![\w./*-])(?:{FOLDERS})/[\w.*/+-]*")
CRATE_PATH = re.compile(r"(?<![\w./*-])\w+/(?:src|specs|proofs|more-edits)/[\w./]*")
DOCUMENT = re.compile(r"(?<![\w./-])[A-Z][A-Z_]+\.md\b")
LINK = re.compile(r"\]\(([^)\s]+)\)")
SPAN = re.compile(r"`([^`]+)`")
DRAIN = re.compile(r"(?<![\w./-])(?:build/)?drain\s+([a-z]+|--[a-z-]+)(?![\w/:=.])([^|]*)")
EXAMPLE = re.compile(r"^\$ (?:.*\s)?(?:build/)?drain ")
CONTRACT = re.compile(r"\b(?:fn|ensures|struct)\s+(\w+)")
DEFINITION = re.compile(r"\[(\w+)\]\(\.\./(crates/\w+/specs/(\w+)\.antt)\)|`(\w+)`")
USED = re.compile(r"^(?:pub )?use Rattle\.(\w+)\.specs\.(?!declared\b)(\w+)(?:\.\{(.*)\})?", re.MULTILINE)
READ_FIRST = (("drain_grid", "Correct"), ("drain_verdict", "Meaning"), ("drain_verdict", "Inputs"))
READING = re.compile(r"(\d+) files of `specs/` \(([\d,]+) lines\)")
READING_STEP = re.compile(r"^[2-5]\. [A-Z][\w ]+ \((\d+)\)")
MARK = "@@ end of a command @@"


@dataclasses.dataclass(frozen=True)
class Line:
    number: int
    text: str
    is_code: bool


@dataclasses.dataclass
class Shown:
    """A command of an example, and the lines below it."""

    number: int
    command: str
    output: list[str]


def lines_of(text: str) -> list[Line]:
    """The lines of a document. Code is what stands in a fence, or is indented after an empty line."""
    lines: list[Line] = []
    fenced = indented = False
    before = ""
    for number, line in enumerate(text.splitlines(), 1):
        fence = line.lstrip().startswith("```")
        if not fenced and not fence and line.strip():
            indented = line.startswith("    ") and (indented or not before.strip())
        lines.append(Line(number, line, fenced or fence or (indented and bool(line.strip()))))
        fenced ^= fence
        before = line
    return lines


def slugs_of(text: str) -> set[str]:
    """The anchors of a document's headings, as GitHub makes them."""
    slugs: dict[str, int] = {}
    found = set()
    for line in lines_of(text):
        if line.text.startswith("#") and not line.is_code:
            slug = re.sub(r"[^\w\- ]", "", line.text.lstrip("#").strip().lower()).replace(" ", "-")
            found.add(f"{slug}-{slugs[slug]}" if slug in slugs else slug)
            slugs[slug] = slugs.get(slug, 0) + 1
    return found


def is_there(root: pathlib.Path, path: str) -> bool:
    """Whether a path exists, as it is or without its ending. A part in capitals, as NAME, is any name."""
    parts = path.rstrip("/").split("/")
    if "out" in parts or (root / path).exists():
        return True
    pattern = "/".join("*" if re.fullmatch(r"[A-Z]+", part) else part for part in parts)
    return any(next(root.glob(pattern + ending), None) for ending in ("", ".rt", ".antt", ".md"))


def path_faults(root: pathlib.Path, document: pathlib.Path, line: Line) -> Iterator[str]:
    for found in PATH.findall(line.text):
        if not is_there(root, found.rstrip(".")):
            yield f"no {found.rstrip('.')}"
    for found in CRATE_PATH.findall(line.text):
        if (root / "crates" / found.split("/")[0]).is_dir() and not is_there(root / "crates", found.rstrip(".")):
            yield f"no crates/{found.rstrip('.')}"
    for found in DOCUMENT.findall(line.text):
        if not any((folder / found).is_file() for folder in (document.parent, root, root / "docs")):
            yield f"no {found}"


def neighbour_faults(root: pathlib.Path, lines: list[Line]) -> Iterator[tuple[int, str]]:
    """Files of a crate that are named alone, after one with its crate: `drain_grid/src/cell.rt`, `rule.rt`."""
    crate: pathlib.Path | None = None
    for line in lines:
        if not line.text.strip() or line.text.startswith(("|", "#")):
            crate = None
        for span in [] if line.is_code else SPAN.findall(line.text):
            named = re.match(r"(?:crates/)?(\w+)/", span)
            if named and (root / "crates" / named[1]).is_dir():
                crate = root / "crates" / named[1]
            elif crate and re.fullmatch(r"[\w/]+\.(?:rt|antt)", span) and not any(crate.rglob(span)):
                yield line.number, f"no {span} in {crate.name}"


def link_faults(document: pathlib.Path, line: Line) -> Iterator[str]:
    if line.is_code:
        return
    for target in LINK.findall(SPAN.sub("", line.text)):
        if re.match(r"[a-z]+:", target):
            continue
        path, _, anchor = target.partition("#")
        linked = document.parent / path if path else document
        if not linked.exists():
            yield f"no link target {target}"
        elif anchor and anchor not in slugs_of(linked.read_text(encoding="utf-8")):
            yield f"no heading #{anchor} in {linked.name}"


def code_of(line: Line) -> list[str]:
    return [without_tail(line.text).strip()] if line.is_code else SPAN.findall(line.text)


def make_faults(targets: set[str], line: Line) -> Iterator[str]:
    for code in code_of(line):
        match = re.match(r"(?:\$ )?make(?:\s+(.*))?$", code)
        for word in (match[1] or "").split() if match else []:
            if word.startswith("#") or not re.match(r"[\w-]", word):
                break
            if "=" not in word and not word.startswith("-") and word not in targets:
                yield f"no target {word} of make"


def drain_faults(options: dict[str, set[str]], line: Line) -> Iterator[str]:
    for code in code_of(line):
        for command, rest in DRAIN.findall(code):
            if command.startswith("--"):
                known = command in options[""]
            else:
                known = command in options
            if not known:
                yield f"no command drain {command}"
            for option in re.findall(r"(?<!\S)--[a-z-]+", rest.split("#")[0]) if known else []:
                if option not in options.get(command, set()):
                    yield f"no option {option} of drain {command}"


def options_of(root: pathlib.Path) -> dict[str, set[str]]:
    """The options of each command, by its help that the tests compare; those of no command under ""."""
    helps = sorted((root / "tests/program/expected").glob("*help.txt"))
    found: dict[str, set[str]] = {"": set(), "help": set()}
    for path in helps:
        command = re.sub(r"(-short)?-?help\.txt$", "", path.name)
        found.setdefault(command, set()).update(re.findall(r"--[a-z]+", path.read_text(encoding="utf-8")))
    return found


def width_faults(name: str, line: Line) -> Iterator[str]:
    if name == "README.md":
        limit = README_LINE
    elif name.startswith("crates/") or line.is_code:
        return
    else:
        limit = TABLE_LINE if line.text.startswith("|") else DOCS_LINE
    if len(line.text) > limit:
        yield f"{len(line.text)} characters, more than {limit}"


def word_faults(lines: list[Line]) -> Iterator[tuple[int, str]]:
    prose = "\n".join("" if line.is_code else SPAN.sub("", line.text) for line in lines)
    for match in WORDS.finditer(prose):
        yield prose.count("\n", 0, match.start()) + 1, f'"{" ".join(match[0].split())}"'


def definition_faults(root: pathlib.Path, lines: list[Line]) -> Iterator[tuple[int, str]]:
    """What an entry names that no file which it links has, and the crates with definitions that the page leaves out."""
    texts: list[str] = []
    for line in lines:
        if line.text.startswith("- ") or not line.text:
            texts = []
        for title, path, module, name in DEFINITION.findall(line.text):
            if path and (root / path).exists():
                texts.append((root / path).read_text(encoding="utf-8"))
            if path and title != module:
                yield line.number, f"{title} is {module}"
            if name and texts and not any(re.search(rf"\b{name}\b", text) for text in texts):
                yield line.number, f"no definition {name}"
    page = "\n".join(line.text for line in lines)
    for crate in sorted(folder.parent.name for folder in root.glob("crates/*/specs")):
        if f"/{crate}/" not in page:
            yield len(lines), f"no definition of {crate}"


def modules_used(root: pathlib.Path, text: str) -> Iterator[tuple[str, str]]:
    """The crates and modules whose names a text uses. A module `Names` only passes names on: their own count."""
    for crate, module, names in USED.findall(text):
        if module != "Names":
            yield crate, module
            continue
        passed = (root / "crates" / crate / "specs" / "Names.antt").read_text(encoding="utf-8")
        for home_crate, home, given in USED.findall(passed):
            if set(names.split(", ")) & set(given.split(", ")):
                yield home_crate, home


def lines_reached(root: pathlib.Path, first: Iterable[tuple[str, str]]) -> dict[tuple[str, str], int]:
    """The lines of each file of specs/ that these, each a crate and a module, reach by `use`."""
    found: dict[tuple[str, str], int] = {}
    waiting = list(first)
    while waiting:
        crate, module = waiting.pop()
        file = root / "crates" / crate / "specs" / f"{module}.antt"
        if (crate, module) not in found and file.is_file():
            text = file.read_text(encoding="utf-8")
            found[crate, module] = len(text.splitlines())
            waiting += modules_used(root, text)
    return found


def reading_faults(root: pathlib.Path, lines: list[Line]) -> Iterator[tuple[int, str]]:
    """The list of what to read: how many files and lines it says, and the lines of each of its steps from 2 on."""
    reached = lines_reached(root, READ_FIRST)
    steps = [(line.number, int(count)) for line in lines for count in READING_STEP.findall(line.text)]
    for line in lines:
        for files, count in READING.findall(line.text):
            if (int(files), int(count.replace(",", ""))) != (len(reached), sum(reached.values())):
                yield line.number, f"{len(reached)} files of {sum(reached.values())} lines are reached"
            if sum(step for _, step in steps) != sum(reached.values()):
                yield line.number, f"the steps have {sum(step for _, step in steps)} lines in all"


def claim_faults(root: pathlib.Path, lines: list[Line]) -> Iterator[tuple[int, str]]:
    """The calls and clauses in the first column of docs/PROVED.md that no code has."""
    sources = (path.read_text(encoding="utf-8") for path in root.glob("crates/*/src/**/*.rt"))
    known = {name for text in sources for name in CONTRACT.findall(text)}
    for line in lines:
        for name in re.findall(r"`(\w+)`", line.text.split("|")[1]) if line.text.startswith("|") else []:
            if name not in known:
                yield line.number, f"no call or clause {name}"


def examples_of(lines: list[Line]) -> Iterator[list[Shown]]:
    """The examples of a document: the commands of each block that has one of drain's."""
    block: list[Shown] = []
    fenced = False
    for line in lines:
        if line.text.startswith("```"):
            if fenced and any(EXAMPLE.match("$ " + shown.command) for shown in block):
                yield block
            fenced, block = not fenced, []
        elif fenced and line.text.startswith("$ "):
            block.append(Shown(line.number, line.text[2:], []))
        elif fenced and block and goes_on(block[-1].command) and not block[-1].output:
            block[-1].command += "\n" + line.text
        elif fenced and block:
            block[-1].output.append(line.text)


def goes_on(command: str) -> bool:
    """Whether a command goes on in the next line: by a backslash, or within a quotation."""
    return command.endswith("\\") or without_tail(command).count("'") % 2 == 1


def without_tail(line: str) -> str:
    return re.sub(r"\s+# .*$", "", line).rstrip()


def agree(shown: list[str], printed: list[str]) -> bool:
    """Whether lines of an example are those that were printed."""
    if not shown:
        return not printed
    if shown[0] in ("..", "..."):
        return any(agree(shown[1:], printed[start:]) for start in range(len(printed) + 1))
    return bool(printed) and shown[0] in (printed[0], without_tail(printed[0])) and agree(shown[1:], printed[1:])


def printed_by(block: list[Shown], folder: pathlib.Path) -> list[list[str]]:
    """What each command of an example prints."""
    script = 'mark() { local status=$?; printf "\\n%s\\n" "$MARK"; return $status; }\n'
    script += "".join(f"{shown.command}\nmark\n" for shown in block)
    known = {"HOME": str(folder), "MARK": MARK, "PATH": f"{folder}/build:{os.environ['PATH']}", "LC_ALL": "C.UTF-8"}
    run = subprocess.run(
        ["bash", "-c", script],
        cwd=folder,
        env={**os.environ, **known},
        stdin=subprocess.DEVNULL,
        stdout=subprocess.PIPE,
        stderr=subprocess.STDOUT,
        timeout=600,
        check=False,
    )
    parts = run.stdout.decode("utf-8", "replace").split(f"\n{MARK}\n")[:-1]
    parts += [""] * (len(block) - len(parts))
    return [[line.rstrip() for line in part.splitlines()] for part in parts]


def example_faults(root: pathlib.Path, program: pathlib.Path, lines: list[Line]) -> Iterator[tuple[Shown, list[str]]]:
    """The commands of a document's examples that print something else than it shows, with what they print."""
    blocks = list(examples_of(lines))
    if not blocks:
        return
    with tempfile.TemporaryDirectory() as scratch:
        folder = pathlib.Path(scratch)
        shutil.copytree(root / "samples", folder / "samples")
        shutil.copytree(root / "tools", folder / "tools")
        (folder / "build").mkdir()
        (folder / "build/drain").symlink_to(program)
        for block in blocks:
            for shown, printed in zip(block, printed_by(block, folder)):
                if not agree([without_tail(line) for line in shown.output], printed):
                    yield shown, printed


def write_examples(document: pathlib.Path, faults: list[tuple[Shown, list[str]]]) -> None:
    """Puts what was printed in place of what a document shows, but where it leaves lines out."""
    lines = document.read_text(encoding="utf-8").splitlines()
    for shown, printed in reversed(faults):
        if not {"..", "..."} & set(shown.output):
            start = shown.number + shown.command.count("\n")
            lines[start : start + len(shown.output)] = printed
    document.write_text("\n".join(lines) + "\n", encoding="utf-8")


def documents_of(root: pathlib.Path) -> list[pathlib.Path]:
    patterns = ["README.md", "CONTRIBUTING.md", "docs/*.md"]
    patterns += [f"{folder}/README.md" for folder in ("crates/*", "companion", "examples/*")]
    return [path for pattern in patterns for path in sorted(root.glob(pattern))]


def words_of(root: pathlib.Path) -> int:
    """The words of all .md files below a folder, but for what is built."""
    words = 0
    for folder, folders, files in os.walk(root):
        folders[:] = [name for name in folders if name not in ("out", "build") and not name.startswith(".")]
        texts = (pathlib.Path(folder, name).read_text(encoding="utf-8") for name in files if name.endswith(".md"))
        words += sum(len(text.split()) for text in texts)
    return words


def faults_of(root: pathlib.Path, program: pathlib.Path | None = None, write: bool = False) -> list[str]:
    """What is wrong with the documents below a folder."""
    targets = set(re.findall(r"^([\w./-]+):", (root / "Makefile").read_text(encoding="utf-8"), re.MULTILINE))
    options = options_of(root)
    faults: list[str] = []
    for document in documents_of(root):
        name = document.relative_to(root).as_posix()
        text = document.read_text(encoding="utf-8")
        lines = lines_of(text)
        found = [*word_faults(lines), *neighbour_faults(root, lines)]
        if name == "docs/DEFINITIONS.md":
            found += definition_faults(root, lines)
        if name == "docs/PROVED.md":
            found += claim_faults(root, lines)
        if name == "docs/THEOREM.md":
            found += reading_faults(root, lines)
        for line in lines:
            for fault in (
                *path_faults(root, document, line),
                *link_faults(document, line),
                *make_faults(targets, line),
                *drain_faults(options, line),
                *width_faults(name, line),
            ):
                found.append((line.number, fault))
        if name == "README.md" and len(lines) > README_LINES:
            found.append((README_LINES + 1, f"{len(lines)} lines, more than {README_LINES}"))
        if program:
            differing = list(example_faults(root, program, lines))
            if write and differing:
                write_examples(document, differing)
            found += [(shown.number, "prints: " + " / ".join(printed)[:300]) for shown, printed in differing]
        faults += [f"{name}:{number}: {fault}" for number, fault in sorted(set(found))]
    if (words := words_of(root)) > ALL_WORDS:
        faults.append(f"all .md: {words} words, more than {ALL_WORDS}")
    return faults


def main() -> int:
    about, _, more = (__doc__ or "").partition("\n")
    form = argparse.RawDescriptionHelpFormatter
    parser = argparse.ArgumentParser(description=about, epilog=more, formatter_class=form)
    parser.add_argument("program", nargs="?", type=pathlib.Path, metavar="PROGRAM")
    parser.add_argument("--write", action="store_true")
    arguments = parser.parse_args()
    program = arguments.program.resolve() if arguments.program else None
    if program and not program.is_file():
        print(f"{program}: no such program")
        return 1
    faults = faults_of(pathlib.Path(__file__).resolve().parent.parent, program, arguments.write)
    examples = "their examples print what they show" if program else "examples not run"
    print("\n".join(faults) if faults else f"ok: the documents name what is there; {examples}")
    return 1 if faults else 0


if __name__ == "__main__":
    sys.exit(main())
