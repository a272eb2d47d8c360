#!/usr/bin/env python3
"""Has the links of a release's pages lead to where their files are installed.

`mend.py ROOT PLACE=INSTALLED ..` goes through the pages of Markdown below ROOT. PLACE is a file or a folder of the
repository, and INSTALLED where it stands below ROOT; a PLACE may stand at more than one. The link of a page that came
from a PLACE leads to what is below ROOT or below a root of --beside; where neither has it, its words alone stay.
"""

import argparse
import functools
import os
import pathlib
import re
import sys
from dataclasses import dataclass

_LINK = re.compile(r"!?\[([^\]]*)\]\(([^)\s]+)\)")
_FENCED = re.compile(r"(^```.*?^```$)", re.MULTILINE | re.DOTALL)


@dataclass
class Release:
    """Folders that stand for one root, the first of which is mended, and what of the repository is where in it."""

    roots: list[pathlib.Path]
    places: list[tuple[str, str]]

    def installed(self, name: str) -> list[str]:
        """Where a file or folder of the repository may stand."""
        found = [(place, at) for place, at in self.places if name == place or name.startswith(f"{place}/")]
        return [at + name[len(place) :] for place, at in sorted(found, key=lambda pair: -len(pair[0]))]

    def has(self, path: str) -> bool:
        return any((root / path).exists() for root in self.roots)

    def source(self, path: str) -> str | None:
        """The name in the repository of what stands there."""
        found = [(place, at) for place, at in self.places if path == at or path.startswith(f"{at}/")]
        place, at = max(found, key=lambda pair: len(pair[1]), default=("", None))
        return None if at is None else place + path[len(at) :]

    def led(self, page: str, source: str, link: re.Match[str]) -> str:
        """The link of a page, as it leads somewhere; else its words."""
        words, to = link.groups()
        path, mark, heading = to.partition("#")
        if re.match(r"[a-z]+:", to) or not path:
            return link[0]
        wanted = os.path.normpath(os.path.join(os.path.dirname(source), path))
        for found in filter(self.has, self.installed(wanted)):
            return f"{link[0].split('](')[0]}]({os.path.relpath(found, os.path.dirname(page))}{mark}{heading})"
        return words

    def mend(self) -> None:
        """Writes each page of the first root anew."""
        for path in sorted(self.roots[0].rglob("*.md")):
            page = str(path.relative_to(self.roots[0]))
            source = self.source(page)
            if source is not None:
                parts = _FENCED.split(path.read_text(encoding="utf-8"))
                led = functools.partial(self.led, page, source)
                parts[::2] = [_LINK.sub(led, part) for part in parts[::2]]
                path.write_text("".join(parts), encoding="utf-8")


def _place(word: str) -> tuple[str, str]:
    place, _, installed = word.partition("=")
    return place, installed


def main() -> int:
    parser = argparse.ArgumentParser(description=__doc__, formatter_class=argparse.RawDescriptionHelpFormatter)
    parser.add_argument("root", type=pathlib.Path, metavar="ROOT", help="of the release, or of one package")
    parser.add_argument("places", type=_place, nargs="*", metavar="PLACE=INSTALLED", help="what is where")
    parser.add_argument("--beside", type=pathlib.Path, action="append", default=[], metavar="ROOT", help="is there too")
    asked = parser.parse_args()
    Release([asked.root, *asked.beside], asked.places).mend()
    return 0


if __name__ == "__main__":
    sys.exit(main())
