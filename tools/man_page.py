#!/usr/bin/env python3
"""Prints the man page of a program, made from its help: drain's, or drain-gis's.

Usage: tools/man_page.py PROGRAM
"""
import os
import re
import subprocess
import sys

NAMES = {
    "drain": "checks drainage rasters computed from a DEM",
    "drain-gis": "has drain judge drainage rasters of any tool",
}


def output_of(*arguments):
    """What the program prints."""
    words, environment = [sys.argv[1], *arguments], {**os.environ, "COLUMNS": "100", "LC_ALL": "C.UTF-8"}
    return subprocess.run(
        words, check=True, capture_output=True, text=True, stdin=subprocess.DEVNULL, env=environment
    ).stdout


def escaped(line):
    """The line escaped for roff: its backslashes and hyphens, and a dot or quote at its beginning."""
    line = line.replace("\\", "\\e").replace("-", "\\-")
    return "\\&" + line if line.startswith((".", "'")) else line


def as_it_is(text):
    """The text with its lines kept as they are."""
    return [".nf", *(escaped(line) for line in text.rstrip("\n").split("\n")), ".fi"]


def commands(help_text):
    """The commands that the help lists, except help, each with what it does."""
    listed = help_text.split("Commands:\n")[1].split("\n\n")[0]
    found = [re.match(r"  (\S+) +(.*)", line).groups() for line in listed.split("\n")]
    return [it for it in found if it[0] != "help"]


def about(help_text):
    """What the program does: the help's paragraphs up to a list, without its usage."""
    paragraphs = re.split(r"\n\n(?=Usage:|Options:|Commands:)", help_text)[0].split("\n\n")
    return [" ".join(text.split()) for text in paragraphs if not text.startswith("Usage:")]


def section(title, heading, help_text):
    """A section with the lines of the help below this heading, up to the next empty line; none without it."""
    found = re.search(rf"^ *{heading}:\n((?:.+\n)+)", help_text + "\n", re.M)
    return [f'.SH "{title}"', *as_it_is(found[1])] if found else []


def main():
    overview, name = output_of("--help"), os.path.basename(sys.argv[1])
    version, *logic = output_of("--version").replace(", version", "").rstrip("\n").split("\n")
    page = [f'.TH {escaped(name.upper())} 1 "" "{version}" "User Commands"', ".SH NAME"]
    page += [f"{escaped(name)} \\- {NAMES[name]}", ".SH SYNOPSIS"]
    for command, _ in commands(overview):
        usage = re.search(r"^Usage: (.*(?:\n {3,}.*)*)$", output_of(command, "--help"), re.M)[1]
        page += [escaped(" ".join(usage.split())), ".br"]
    page += [".SH DESCRIPTION"]
    for text in [*about(overview), *(line[0].upper() + line[1:] + "." for line in logic)]:
        page += [escaped(text), ".PP"]
    for command, does in commands(overview):
        shown = output_of(command, "--help")
        page += [f'.SH "{escaped(name.upper())} {command.upper()}"', *([] if does in shown else [escaped(does) + ".", ".PP"])]
        page += as_it_is(shown)
    page += section("EXIT STATUS", "Exit status(?:es)?", overview) + section("EXAMPLES", "Examples?", overview)
    print("\n".join(page))


if __name__ == "__main__":
    main()
