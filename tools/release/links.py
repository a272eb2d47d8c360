#!/usr/bin/env python3
"""Looks at what installed files refer to: `links.py ROOT < NAMES` prints each reference that leads nowhere.

ROOT stands for /, and NAMES has a file's name from there a line, as `dpkg -L` prints them. Symbolic links are followed,
links of pages of Markdown with their headings, and of pages, manual pages, units and /etc/wisangub each path of
Wisangub's own below /usr, /etc and /var/lib, and each manual page. A unit's %i, and NAME before an ending, is the
sample, roadside; of a file below /var/lib, and of the fleet, its folder is enough. The exit status is 1 where a
reference leads nowhere.
"""

import gzip
import os
import pathlib
import re
import sys
from collections.abc import Iterator

sys.path.insert(0, str(pathlib.Path(__file__).resolve().parents[1]))

from upkeep.documents import LINK, anchors  # noqa: E402

_PATH = re.compile(r"/(?:usr|etc|var/lib)/[\w./@%-]*wisangub[\w./@%-]*")
_MANUAL = re.compile(r"(?:^\.Xr |\bman:)(wisangub[\w-]*)(?: |\()(\d)", re.MULTILINE)
_FENCED = re.compile(r"^```.*?^```$", re.MULTILINE | re.DOTALL)
_SAMPLE = "roadside"
_MADE = ("/var/lib/", "/etc/wisangub/fleet.toml")  # by services and administrators
_DOTS = re.compile(r"\\[&-]")  # what a manual page's source writes beside a name


def reached(root: pathlib.Path, path: str, depth: int = 0) -> pathlib.Path | None:
    """What stands at this path below the root, through symbolic links as they are from there."""
    at = root
    for part in pathlib.PurePosixPath(os.path.normpath("/" + path)).parts[1:]:
        below = at / part
        if below.is_symlink():
            if depth == 40:
                return None
            to = os.path.join("/", str(at.relative_to(root)), os.readlink(below))
            found = reached(root, to, depth + 1)
            if found is None:
                return None
            below = found
        if not below.exists():
            return None
        at = below
    return at


def _of_page(root: pathlib.Path, name: str, text: str) -> Iterator[str]:
    """The links of a page that lead nowhere."""
    for to in LINK.findall(_FENCED.sub("", text)):
        if re.match(r"[a-z]+:", to):
            continue
        path, _, heading = to.partition("#")
        found = reached(root, os.path.join(os.path.dirname(name), path) if path else name)
        if found is None or (heading and heading not in anchors(found.read_text(encoding="utf-8"))):
            yield to


def _of_text(root: pathlib.Path, text: str) -> Iterator[str]:
    """The paths and manual pages of a text that are not there."""
    for word in _PATH.findall(_DOTS.sub("", text)):
        path = word.rstrip("./").replace("%i", _SAMPLE).replace("/NAME.", f"/{_SAMPLE}.")
        if reached(root, os.path.dirname(path) if path.startswith(_MADE) else path) is None:
            yield word
    for page, section in _MANUAL.findall(text):
        if reached(root, f"usr/share/man/man{section}/{page}.{section}.gz") is None:
            yield f"{page}({section})"


def leads_nowhere(root: pathlib.Path, name: str) -> Iterator[str]:
    """What a file refers to that is not there."""
    path = root / name
    if path.is_symlink():
        if reached(root, name) is None:
            yield os.readlink(path)
        return
    is_page, is_manual = name.endswith((".md", "/README.Debian")), "/man/man" in name
    if not path.is_file() or not (
        is_page or is_manual or name.endswith(".service") or name.startswith("etc/wisangub/")
    ):
        return
    octets = path.read_bytes()
    text = (gzip.decompress(octets) if name.endswith(".gz") else octets).decode("utf-8")
    yield from _of_text(root, text)
    if is_page:
        yield from _of_page(root, name, text)


def main() -> int:
    if len(sys.argv) != 2 or sys.argv[1].startswith("-"):
        print(__doc__, end="", file=sys.stderr if "--help" not in sys.argv else sys.stdout)
        return 0 if "--help" in sys.argv else 2
    root, found = pathlib.Path(sys.argv[1]), 0
    for name in (line.strip().lstrip("./") for line in sys.stdin):
        for word in leads_nowhere(root, name):
            print(f"{name}: {word}")
            found += 1
    return 1 if found else 0


if __name__ == "__main__":
    sys.exit(main())
