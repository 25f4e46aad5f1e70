#!/usr/bin/env python3
"""Prints the completions of a program for bash, made from its help: its commands, their options, folders and files.

Usage: tools/completions.py PROGRAM
"""
import os
import re
import sys

from man_page import commands, output_of

# The function that completes: at the first word a command; behind an option what it takes; else options, or files.
SCRIPT = """\
# Completions of {name} for bash, made from its help.
_{function}() {{
    local word=${{COMP_WORDS[COMP_CWORD]}} before=" ${{COMP_WORDS[COMP_CWORD - 1]}} " options folders files others
    COMPREPLY=()
    if [ "$COMP_CWORD" = 1 ]; then
        mapfile -t COMPREPLY < <(compgen -W "{commands} --help --version" -- "$word")
        return
    fi
    case ${{COMP_WORDS[1]}} in
{cases}
    *) return ;;
    esac
    if [[ " $folders " = *"$before"* ]]; then
        mapfile -t COMPREPLY < <(compgen -d -- "$word")
    elif [[ " $files " = *"$before"* || $word != -* && " $others " != *"$before"* ]]; then
        mapfile -t COMPREPLY < <(compgen -f -- "$word")
    elif [[ " $others " != *"$before"* ]]; then
        mapfile -t COMPREPLY < <(compgen -W "$options" -- "$word")
    fi
}}
complete -o filenames -F _{function} {name}
"""


def case_of(command: str) -> str:
    """The options of a command, by what they take: a folder, a file or another value."""
    shown = re.findall(r"^ +(?:-\w, )?(--[a-z-]+)(?: <(.+?)>)?", output_of(command, "--help").split("\nOptions:\n")[1], re.M)
    options = list(dict(shown))
    taking = {kind: [it for it, value in shown if value and kind == {"DIR": "folders", "FILE": "files"}.get(value, "others")]
              for kind in ("folders", "files", "others")}
    lists = [("options", options), *taking.items()]
    return f"    {command}) " + " ".join(f'{name}="{" ".join(words)}"' for name, words in lists) + " ;;"


def main() -> None:
    name, listed = os.path.basename(sys.argv[1]), [command for command, _ in commands(output_of("--help"))]
    cases = "\n".join(case_of(command) for command in listed)
    print(SCRIPT.format(name=name, function=name.replace("-", "_"), commands=" ".join(listed), cases=cases), end="")


if __name__ == "__main__":
    main()
