"""Reads the rules of a Snakefile without Snakemake: keywords with a value on their own line."""

import os
import re
from collections.abc import Mapping
from dataclasses import dataclass
from pathlib import Path
from types import SimpleNamespace
from typing import Any
from unittest import mock


def flat(value: object) -> list[str]:
    return [str(value)] if isinstance(value, (str, Path)) else [word for part in value for word in flat(part)]


@dataclass
class Rule:
    """A rule, whose values may be functions of the wildcards."""

    values: dict[str, tuple[tuple[Any, ...], dict[str, Any]]]

    def of(self, name: str) -> SimpleNamespace:
        """What it says with this wildcard."""
        wildcards = SimpleNamespace(name=name)

        def called(value: Any) -> Any:
            return value(wildcards) if callable(value) else value

        files = {
            key: [file.replace("{name}", name) for file in flat([called(value) for value in self.values[key][0]])]
            for key in ("input", "output")
        }
        params = {key: called(value) for key, value in self.values.get("params", ((), {}))[1].items()}
        return SimpleNamespace(**files, params=SimpleNamespace(**params), shell=self.values["shell"][0][0])


def rules_of(path: Path, basedir: Path, env: Mapping[str, str]) -> dict[str, Rule]:
    """The rules of a Snakefile that lies in this folder."""
    head, *parts = re.split(r"^rule (\w+):\n", path.read_text(), flags=re.MULTILINE)
    names: dict[str, Any] = {
        "workflow": SimpleNamespace(basedir=str(basedir)),
        "expand": lambda pattern, name: [pattern.replace("{name}", one) for one in name],
        "value": lambda *words, **named: (words, named),
    }
    with mock.patch.dict(os.environ, env):
        exec(head, names)
        return {
            name: Rule(
                {
                    key: eval(f"value({said})", names)
                    for key, said in re.findall(r"^    (\w+): (.*)$", body, re.MULTILINE)
                }
            )
            for name, body in zip(parts[::2], parts[1::2])
        }
