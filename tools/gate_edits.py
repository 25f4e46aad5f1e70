"""Chooses the wrong bodies that the gate tries, of those that name their function.

A wrong body that was refused is refused again as long as nothing changes that the prover reads. So each refusal is
kept on this machine with its key: a sum of the wrong body, of code, definitions and proofs of its crate and of all
crates below, of what these use, of the toolchain's name, and of the scripts that try it. A wrong body with its key is
left out. Of the others the gate tries

- all of a crate whose contracts may have changed: its code or its definitions, or the definitions of a crate below,
  are not those of the commit before, or not those of the refusal that was kept; and all of a crate where one wasn't
  refused;
- else those of a third of the crates.

The third is that after the last one that was tried here; where none was, the number of commits chooses it. Any three
runs one after the other try all. Without a number of commits, as in a copy without git, all crates are tried.

Kept are, in ~/.cache/drain-edits (or drain-edits of XDG_CACHE_HOME), a file for each wrong body with its key and the
sum of its contracts, and the file `third`.
"""

import contextlib
import functools
import hashlib
import os
import subprocess
from collections.abc import Iterable, Mapping, Sequence
from pathlib import Path
from typing import Generic, Protocol, TypeVar

THIRDS = 3
PARTS = ("src", "specs", "proofs")
CONTRACTS = ("src", "specs")
DEFINITIONS = ("specs",)
SCRIPTS = ("gate_edits.py", "try_named_edits.py")
# What is kept of a wrong body that wasn't refused: no key and no sum of contracts is equal to it.
NOT_REFUSED = "- -"


class Named(Protocol):
    """A wrong body: the name of its crate and its own, the file of source that it changes, and its text."""

    name: str
    file: str
    text: str


Edit = TypeVar("Edit", bound=Named)


def sum_of(parts: Iterable[bytes]) -> str:
    """A sum of these texts in their order."""
    found = hashlib.sha256()
    for part in parts:
        found.update(hashlib.sha256(part).digest())
    return found.hexdigest()


def git(top: Path, *words: str) -> str | None:
    """What git prints, None where it fails or isn't there."""
    try:
        ended = subprocess.run(["git", "-C", top, *words], capture_output=True, text=True, check=False)
    except OSError:
        return None
    return ended.stdout.strip() if ended.returncode == 0 else None


class Sources:
    """The sources of a repository as they were when they were first read."""

    def __init__(self, top: Path, below: Mapping[str, Sequence[str]], toolchain: str) -> None:
        self.top, self.below, self.toolchain = top, below, toolchain
        self.scripts = [(Path(__file__).parent / name).read_bytes() for name in SCRIPTS]
        self.crate_sum = functools.cache(self.read_sum)

    def all_below(self, crate: str) -> list[str]:
        """The crates of the repository that a crate uses, by way of others too."""
        found: set[str] = set()
        left = [crate]
        while left:
            new = {name for name in self.below[left.pop()] if name in self.below} - found
            found |= new
            left += new
        return sorted(found)

    def read_sum(self, crate: str, parts: tuple[str, ...]) -> str:
        """A sum of the files in these folders of a crate, with their names."""
        folder = self.top / "crates" / crate
        files = sorted(file for part in parts for file in (folder / part).rglob("*") if file.is_file())
        return sum_of(text for file in files for text in (str(file.relative_to(folder)).encode(), file.read_bytes()))

    def contracts(self, crate: str) -> str:
        """A sum of what the contracts of a crate say."""
        low = [self.crate_sum(name, DEFINITIONS) for name in self.all_below(crate)]
        return sum_of(text.encode() for text in (self.crate_sum(crate, CONTRACTS), *low))

    def key(self, crate: str, edit: Named) -> str:
        """A sum of all that decides whether the prover refuses a wrong body of a crate."""
        names = [crate, *self.all_below(crate)]
        texts = [f"{name}: {' '.join(self.below[name])} {self.crate_sum(name, PARTS)}" for name in names]
        return sum_of([*self.scripts, *(text.encode() for text in (self.toolchain, edit.name, edit.text, *texts))])

    def changed_crates(self) -> set[str]:
        """The crates whose contracts differ from those of the commit before: of where this branch left the one that it
        lands on, else of the parent."""
        head = git(self.top, "rev-parse", "HEAD")
        bases = [git(self.top, "merge-base", "HEAD", name) for name in ("@{upstream}", "origin/HEAD", "origin/main")]
        bases.append(git(self.top, "rev-parse", "-q", "--verify", "HEAD^"))
        base = next((found for found in bases if found and found != head), None)
        if base is None:
            return set()
        files = (git(self.top, "diff", "--relative", "--name-only", base, "--", "crates") or "").splitlines()
        files += (git(self.top, "ls-files", "--others", "--exclude-standard", "crates") or "").splitlines()
        places = {tuple(file.split("/")[1:3]) for file in files}
        changed = {crate for crate, part in (place for place in places if len(place) == 2) if part in CONTRACTS}
        redefined = {crate for crate in changed if (crate, "specs") in places}
        return changed | {crate for crate in self.below if redefined & set(self.all_below(crate))}

    def commits(self) -> int | None:
        """The number of commits, None where git doesn't have them all."""
        is_whole = git(self.top, "rev-parse", "--is-shallow-repository") == "false"
        count = git(self.top, "rev-list", "--count", "HEAD") if is_whole else None
        return int(count) if count else None


class Kept:
    """What is kept of earlier runs. Where a file can't be read or written nothing is kept."""

    def __init__(self, folder: Path | None = None) -> None:
        caches = os.environ.get("XDG_CACHE_HOME") or os.path.expanduser("~/.cache")
        self.folder = folder or Path(caches) / "drain-edits"

    def read(self, name: str) -> list[str]:
        """The words of a file, none if it isn't there."""
        with contextlib.suppress(OSError, UnicodeDecodeError):
            return (self.folder / name).read_text().split()
        return []

    def write(self, name: str, text: str) -> None:
        with contextlib.suppress(OSError):
            path = self.folder / name
            path.parent.mkdir(parents=True, exist_ok=True)
            new = path.with_name(f"{path.name}.{os.getpid()}")
            new.write_text(text + "\n")
            new.replace(path)


class Choice(Generic[Edit]):
    """What one run of the gate tries. `keep` keeps what came of it."""

    def __init__(self, sources: Sources, kept: Kept, edits: Mapping[str, Sequence[Edit]]) -> None:
        self.sources, self.kept, self.edits = sources, kept, edits
        self.keys = {edit.name: sources.key(crate, edit) for crate, all_ in edits.items() for edit in all_}
        self.third = self.next_third()
        self.chosen = {crate: self.of_crate(crate, number) for number, crate in enumerate(edits)}

    def next_third(self) -> int | None:
        """The third of this run, None for all."""
        last = self.kept.read("third")
        number = int(last[0]) + 1 if last and last[0].isdecimal() else self.sources.commits()
        return None if number is None else number % THIRDS

    @functools.cached_property
    def changed(self) -> set[str]:
        """The crates whose contracts may have changed."""
        changed = self.sources.changed_crates()
        for crate, all_ in self.edits.items():
            sums = {words[1] for edit in all_ if len(words := self.kept.read(edit.name)) == 2}
            if sums - {self.sources.contracts(crate)}:
                changed.add(crate)
        return changed

    def of_crate(self, crate: str, number: int) -> list[Edit]:
        """The wrong bodies of the crate with this number that are tried."""
        left = [edit for edit in self.edits[crate] if self.kept.read(edit.name)[:1] != [self.keys[edit.name]]]
        if crate in self.changed:
            return left
        return left if self.third is None or number % THIRDS == self.third else []

    def keep(self, is_refused: Mapping[str, bool]) -> None:
        """Keeps which of the chosen ones were refused, unless the sources have changed since, and the third."""
        now = Sources(self.sources.top, self.sources.below, self.sources.toolchain)
        for crate, chosen in self.chosen.items():
            for edit in chosen:
                if not is_refused[edit.name]:
                    self.kept.write(edit.name, NOT_REFUSED)
                elif now.key(crate, edit) == self.keys[edit.name]:
                    self.kept.write(edit.name, f"{self.keys[edit.name]} {self.sources.contracts(crate)}")
        if self.third is not None:
            self.kept.write("third", str(self.third))
