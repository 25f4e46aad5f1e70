#!/usr/bin/env python3
"""Tries the edits that name their function by a line 'only: PATH'. Those of a crate are put into one copy of it, each
in a file of its own. The prover checks only these functions, and has to refuse each for a goal of its own. A function's
proof sees the contracts of what it calls and no body, so no edit helps another to be refused. The checks use the
libraries that rt ci built, so an edit takes some twenty seconds, while a try of the whole crate takes minutes.

An edit of specs/ makes a definition wrong. It is tried alone, and counts as refused where a proof on which its function
rests isn't one of the wrong definition.

With --every the others are tried as well, each on the function that its first text is in. One that isn't refused there
may be refused elsewhere in its crate: its name goes into FILE, and tools/try_edits.sh tries it on the whole crate. One
that doesn't compile is a failure.

With --gate, as tools/gate.sh calls it right after rt ci, only those are tried that gate_edits.py chooses: not what was
refused on this machine before, all of a crate whose contracts changed, and else those in a third of the
crates.

An edit is a file of must-fail/ or more-edits/ as rt reads it; rt ignores the line 'only:'. Every edit of a crate is
read, also those that aren't tried: each line has to be one of 'file: PATH', 'old: TEXT', 'new: TEXT' and 'only: PATH',
and each old text has to be in its file exactly once.

Usage: tools/try_named_edits.py [--gate | --every FILE] [CRATE...]    (default: all crates)
"""

import argparse
import concurrent.futures
import functools
import os
import re
import shutil
import subprocess
import sys
import tempfile
from collections.abc import Iterator, Sequence
from pathlib import Path

sys.dont_write_bytecode = True
sys.path.insert(0, str(Path(__file__).resolve().parent))
from gate_edits import Choice, Kept, Sources  # noqa: E402

TOP = Path(__file__).resolve().parent.parent

# What is said of a proof that names something which the wrong body doesn't have.
OF_A_NAME = re.compile(r"has no field|is not in scope|that can be named from here|is no name that rattle asks for")
# What is said of a wrong body that the compiler refuses: it shows nothing of the contracts.
NO_CODE = "it does not compile"
# What is said of a proof that rests on another one which was refused.
OF_ANOTHER = re.compile(r"stands by its signature alone|(?:was|were) not checked")


class BadEdit(Exception):
    """An edit that can't be read, or whose old texts aren't found."""


class Edit:
    """A wrong body: which texts of which files it changes, and the function that has to be refused."""

    def __init__(self, file: Path) -> None:
        self.name = f"{file.parent.parent.name}/{file.stem}"
        self.only: str | None = None
        self.changes: list[tuple[str, str, str]] = []
        self.text = file.read_text()
        path = old = ""
        for number, line in enumerate(self.text.splitlines(), 1):
            word, _, rest = line.partition(": ")
            if word == "file":
                path = rest
            elif word == "old":
                old = rest
            elif word == "only":
                self.only = rest
            elif line.startswith("new:") and path and old:
                self.changes.append((path, old, line.removeprefix("new:").removeprefix(" ")))
            elif line.startswith("new:"):
                raise BadEdit(f"{self.name}: line {number}: a new text without a file or an old text")
            else:
                raise BadEdit(f"{self.name}: line {number} is none of file: old: new: only:")
        if not self.changes:
            raise BadEdit(f"{self.name}: no new text")
        self.file = self.changes[0][0]

    def is_definition(self) -> bool:
        return self.file.startswith("specs/")

    def find_function(self, crate: Path) -> None:
        """Names the function that the first text is in, where none is named."""
        path, old, _ = self.changes[0]
        text = (crate / path).read_text()
        self.only = self.only or function_at(path, text, text.index(old))

    def applied(self, crate: Path, texts: dict[str, str]) -> dict[str, str] | None:
        """The changed texts of the crate's files, some maybe changed before; none if an old text isn't found exactly
        once."""
        texts = dict(texts)
        for path, old, new in self.changes:
            text = texts.get(path) or (crate / path).read_text()
            if text.count(old) != 1:
                return None
            texts[path] = text.replace(old, new)
        return texts


FUNCTION = re.compile(r"( *)(?:pub(?:\([a-z]+\))? )?(?:const )?fn (\w+)")
IMPL = re.compile(r"impl(?:<.*?>)? (?:(\w+)(?:<.*>)? for )?&?(\w+)(?:<.*>)?(?: where .*)? *\{")


def function_at(path: str, text: str, place: int) -> str | None:
    """The function whose contract or body has this place of a file, as the prover names it: modules and the name; of an
    `impl` the type, whose module may be another, with its trait's name behind it, and the name. None outside
    functions."""
    modules = [part for part in Path(path).with_suffix("").parts[1:] if part not in ("lib", "main")]
    owner: list[str] = []
    found: tuple[int, str] | None = None
    at = 0
    for line in text.splitlines(keepends=True):
        if start := IMPL.match(line):
            owner = [f"{start[2][0].upper()}{start[2][1:]}{start[1] or ''}"]
        elif line.startswith("}"):
            owner = []
        if start := FUNCTION.match(line):
            found = len(start[1]), start[2]
        at += len(line)
        if place < at:
            return "::".join([*(owner if found[0] else modules), found[1]]) if found else None
        if found and line.startswith(" " * found[0] + "}"):
            found = None
    return None


class Round:
    """Edits of one crate that are tried together, each in a file of its own, and the texts that they make."""

    def __init__(self, crate: Path, edit: Edit) -> None:
        self.crate, self.edits, self.texts = crate, [edit], applied_alone(crate, edit)

    def takes(self, edit: Edit) -> bool:
        """Puts the edit in, unless another one is in its file, or one is of a definition."""
        if any(each.is_definition() for each in (edit, *self.edits)):
            return False
        texts = edit.applied(self.crate, self.texts)
        if texts is None or edit.file in (other.file for other in self.edits):
            return False
        self.edits.append(edit)
        self.texts = texts
        return True


def applied_alone(crate: Path, edit: Edit) -> dict[str, str]:
    """The changed texts of the crate's files."""
    texts = edit.applied(crate, {})
    if texts is None:
        raise BadEdit(f"{edit.name}: an old text of it isn't found exactly once in its file")
    return texts


def edits_of(crate: Path, left: list[str] | None = None) -> list[Edit]:
    """The edits of a crate that name a function; all others are only read and put in. With a list the function of each
    other edit is looked for, and the names of those that are in none are added to the list."""
    named = []
    for part in ("must-fail", "more-edits"):
        for file in sorted((crate / part).glob("*.edit")):
            edit = Edit(file)
            applied_alone(crate, edit)
            if left is not None:
                edit.find_function(crate)
                if not edit.only:
                    left.append(edit.name)
            if edit.only:
                named.append(edit)
    return named


def rounds_of(crate: Path, edits: Sequence[Edit]) -> list[Round]:
    """These edits of a crate in rounds."""
    rounds: list[Round] = []
    for edit in edits:
        if not any(found.takes(edit) for found in rounds):
            rounds.append(Round(crate, edit))
    return rounds


def libraries() -> dict[str, list[str]]:
    """What each crate of crates.txt uses, by its name: crates of the repository and of the kit."""
    found = {}
    for line in (TOP / "crates.txt").read_text().splitlines():
        name, colon, below = line.partition("#")[0].partition(":")
        if colon:
            found[name.split()[0]] = below.split()
    return found


@functools.cache
def kit() -> Path:
    """The folder of the toolchain."""
    guide = subprocess.run(["rt", "doc"], capture_output=True, text=True, check=True).stdout
    return Path(guide.strip()).parent


def words_of(crate: str, below: dict[str, list[str]]) -> list[str]:
    """The arguments of a check of a crate over the libraries that were built."""
    words = ["--extern", f"std={kit()}/rlibs/std.rlib", "-L", f"dependency={kit()}/rlibs"]
    found: list[str] = []
    left = [crate]
    while left:
        for name in below[left.pop()]:
            if name in below and name not in found:
                found.append(name)
                left.append(name)
    for name in sorted({"core", *found, *below[crate]}):
        folder = TOP / "crates" / name / "out/rlib" if name in below else kit() / "rlibs"
        rlib = folder / f"{name}.rlib"
        if not rlib.is_dir():
            sys.exit(f"{crate}: its library {name} isn't built: run rt ci first")
        used = name in below[crate] or name == "core"
        words += ["--extern", f"{name}={rlib}"] if used else ["-L", f"dependency={folder}"]
    root = "src/main.rt" if (TOP / "crates" / crate / "src/main.rt").exists() else "src/lib.rt"
    logic = ["--antt-project", f"{kit()}/rattle/logic/antt-project.json", "--logic-built", f"{kit()}/logic_built"]
    is_static = re.search(rf"^{crate} +staticlib *:", (TOP / "crates.txt").read_text(), re.M)
    kind = ["--crate-type", "staticlib"] if is_static else []
    return ["--crate-name", crate, root, *words, *logic, *kind, "--jobs", "1"]


def tried(together: Round, below: dict[str, list[str]]) -> dict[str, tuple[str, bool, str]]:
    """Tries the edits of a round: of each the line to print, whether the prover refused it, and the prover's output.
    The prover skips a function that calls one which another edit made wrong, so an edit that isn't refused with others
    is tried alone."""
    said = said_of(together, below)
    answers = {edit.name: (*verdict(together.crate.name, edit, said), said) for edit in together.edits}
    if len(together.edits) > 1:
        for edit in together.edits:
            if not answers[edit.name][1]:
                answers.update(tried(Round(together.crate, edit), below))
    return answers


def said_of(together: Round, below: dict[str, list[str]]) -> str:
    """What the prover says of the functions that the edits of a round name."""
    with tempfile.TemporaryDirectory() as room:
        for part in ("src", "specs", "proofs"):
            if (together.crate / part).is_dir():
                shutil.copytree(together.crate / part, Path(room) / part)
        for path, text in together.texts.items():
            (Path(room) / path).write_text(text)
        only = [word for edit in together.edits for word in ("--only", edit.only or "")]
        return subprocess.run(
            [kit() / "bin/rattle", "check", *words_of(together.crate.name, below), *only],
            cwd=room,
            stdin=subprocess.DEVNULL,
            stdout=subprocess.PIPE,
            stderr=subprocess.STDOUT,
            text=True,
            errors="replace",
        ).stdout


def verdict(crate: str, edit: Edit, said: str) -> tuple[str, bool]:
    """The line to print, and whether the prover finished and said that a goal of the edit's own function isn't met: not
    only that of a callee, and not only that a proof names what the wrong body doesn't have, since another body of the
    same meaning would be refused for that too."""
    if not re.search(r"^only=\d+ proved=\d+$", said, re.M):
        is_code = not re.search(r"^src/\S+: error\[", said, re.M)
        return f"NOT REFUSED: {'the check did not finish' if is_code else NO_CODE}", False
    only = edit.only or ""
    found = re.search(rf"^fn {crate}::(?:\S+::)?{re.escape(only)}: (not proved|no proof.*)$", said, re.M)
    if not found:
        return "NOT REFUSED", False
    own = rf"^(?:note: )?(?:\./)?proofs/(?:\S*/)?{re.escape(only.rpartition('::')[2])}/"
    if edit.is_definition():
        own = r"^(?:\./)?proofs/"
    of_names, goals = 0, []
    for place, message in messages(said):
        if re.match(own, place):
            if OF_A_NAME.search(message):
                if "/Invariants.antt" in place:
                    return "NOT REFUSED: a name in its invariants", False
                of_names += 1
            elif "error" in place and not OF_ANOTHER.search(message):
                goals += re.findall(r"^`(\S+)`", message)[:1] or ["a lemma"]
        elif place.startswith(f"note: {edit.file}:"):
            goals += re.findall(r"^it is not proved.*?\(`(\S+)`\)", message, re.S)
    goals += re.findall(r"did not prove `(\S+)`", found[1])
    if goals:
        return f"refused by {', '.join(dict.fromkeys(goals))}", True
    return "NOT REFUSED: only a name in its proof" if of_names else "NOT REFUSED", False


def messages(said: str) -> Iterator[tuple[str, str]]:
    """The prover's messages at files: the place, and the text with the indented lines behind it."""
    at = r"^((?:note: )?\S+\.(?:antt|rt)(?::\d+:\d+)?: (?:error: )?)(.*(?:\n  .*)*)"
    return ((found[1], found[2]) for found in re.finditer(at, said, re.M))


def toolchain() -> str:
    """The name of the toolchain."""
    return subprocess.run(["rt", "version"], capture_output=True, text=True, check=True).stdout


def main() -> None:
    """Tries the edits of the crates, prints a line for each, and fails if one isn't refused. With --every it fails only
    where an edit can't be read or doesn't compile."""
    words = argparse.ArgumentParser()
    which = words.add_mutually_exclusive_group()
    which.add_argument("--gate", action="store_true")
    which.add_argument("--every", metavar="FILE", type=Path)
    words.add_argument("crates", nargs="*", metavar="CRATE")
    given = words.parse_args()
    left: list[str] | None = [] if given.every else None
    below = libraries()
    try:
        found = {name: edits_of(TOP / "crates" / name, left) for name in given.crates or below}
    except BadEdit as bad:
        sys.exit(str(bad))
    edits = {name: named for name, named in found.items() if named}
    choice = Choice(Sources(TOP, below, toolchain()), Kept(), edits) if given.gate else None
    chosen = choice.chosen if choice else edits
    rounds = [each for name, named in chosen.items() for each in rounds_of(TOP / "crates" / name, named)]
    is_refused, is_broken = try_all(rounds, below, shows_why=left is None)
    failed = sorted(name for name, is_right in is_refused.items() if not is_right)
    if choice:
        choice.keep(is_refused)
        print(f"edits: {len(is_refused)} of {sum(map(len, edits.values()))} chosen")
    print(f"edits: {len(is_refused) - len(failed)} passed, {len(failed)} failed")
    if left is not None:
        given.every.write_text("".join(f"{name}\n" for name in sorted([*left, *failed])))
    sys.exit(is_broken or (left is None and len(failed) > 0))


def try_all(rounds: list[Round], below: dict[str, list[str]], shows_why: bool) -> tuple[dict[str, bool], bool]:
    """Tries rounds side by side and prints a line for each edit: which were refused, and whether one isn't code."""
    is_refused: dict[str, bool] = {}
    is_broken = False
    with concurrent.futures.ThreadPoolExecutor(int(os.environ.get("RT_JOBS") or os.cpu_count() or 1)) as pool:
        for run in [pool.submit(tried, together, below) for together in rounds]:
            for name, (line, is_right, said) in run.result().items():
                is_refused[name] = is_right
                is_broken |= NO_CODE in line
                print(f"{name}: {line}", flush=True)
                if shows_why and not is_right:
                    print(said[-2000:])
    return is_refused, is_broken


if __name__ == "__main__":
    main()
