#!/usr/bin/env python3
"""Which definitions a reader must believe: the files that each crate's specs/Lib.antt names first, and their lines.

Without arguments it prints a table of them, and their counts as docs/PROVED.md has them; with --check it fails where
that has others, and with --files it prints a line a crate: its name, its lines and its files."""
import argparse
import pathlib
import re
import sys
from collections.abc import Iterator
from typing import NamedTuple

TOP = pathlib.Path(__file__).resolve().parent.parent
_GROUP = re.compile(r"## ([a-z][a-z ]*): ")


class Believed(NamedTuple):
    """The definitions of a crate."""

    group: str
    crate: str
    files: list[str]
    lines: int


def _files(crate: pathlib.Path) -> list[str]:
    """The files under the first comment of Lib.antt, which says that a reader must believe them."""
    files: list[str] = []
    for line in (crate / "specs" / "Lib.antt").read_text().splitlines():
        if line.startswith("--"):
            if files:
                break
        elif line.startswith("pub mod "):
            files.append(line.removeprefix("pub mod ").strip())
    return files


def believed() -> Iterator[Believed]:
    """The crates of crates.txt that have such definitions."""
    group = ""
    for line in (TOP / "crates.txt").read_text().splitlines():
        found = _GROUP.match(line)
        group = found[1] if found else group
        name = line.split(":")[0].split()
        if not name or name[0].startswith("#"):
            continue
        crate = TOP / "crates" / name[0]
        files = _files(crate) if (crate / "specs" / "Lib.antt").is_file() else []
        if files:
            lines = sum(len((crate / "specs" / f"{file}.antt").read_text().splitlines()) for file in files)
            yield Believed(group, name[0], files, lines)


def table(crates: list[Believed]) -> str:
    """A row a group, and one for all."""
    rows = ["| group | its crates, each with its lines | lines |", "|---|---|---|"]
    for group in dict.fromkeys(one.group for one in crates):
        own = [one for one in crates if one.group == group]
        words = ", ".join(f"{one.crate} {one.lines}" for one in own)
        rows.append(f"| {group} | {words} | {sum(one.lines for one in own):,} |")
    return "\n".join([*rows, f"| all | | {sum(one.lines for one in crates):,} |"])


def counts(crates: list[Believed]) -> str:
    """The lines of each group, and of all, in the words of the page."""
    groups = dict.fromkeys(one.group for one in crates)
    lines = (f"{group} {sum(one.lines for one in crates if one.group == group):,}" for group in groups)
    return f"{', '.join(lines)}; in all {sum(one.lines for one in crates):,}."


def main() -> None:
    parser = argparse.ArgumentParser(description=__doc__, formatter_class=argparse.RawDescriptionHelpFormatter)
    which = parser.add_mutually_exclusive_group()
    which.add_argument("--check", action="store_true", help="fails where docs/PROVED.md has other counts")
    which.add_argument("--files", action="store_true", help="prints a line a crate, with its files")
    asked = parser.parse_args()
    crates = list(believed())
    if asked.files:
        for one in crates:
            print(one.crate, one.lines, ", ".join(one.files))
    elif not asked.check:
        print(table(crates))
        print(counts(crates))
    elif counts(crates) not in " ".join((TOP / "docs/PROVED.md").read_text().split()):
        sys.exit("docs/PROVED.md has other counts of definitions; run tools/definitions.py")


main()
