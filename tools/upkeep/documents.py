"""Bars of the documents: how wide they are, and that what they link to is there."""

import re
from collections.abc import Iterator

from .tree import Tree

WIDTH, ROW = 120, 200
LONGEST = {"README.md": 200, "docs/MAP.md": 200, "docs/CAVEATS.md": 40}
TOGETHER = 2200
LINK = re.compile(r"\]\(([^)\s]+)\)")
_SHOWN = re.compile(r"\[([^\]]*)\]\([^)\s]+\)")
FENCE = "```"


def prose(tree: Tree, name: str) -> Iterator[tuple[int, str]]:
    """A page's lines outside of blocks of code, with their numbers."""
    is_code = False
    for number, line in tree.lines(name):
        if line.lstrip().startswith(FENCE):
            is_code = not is_code
        elif not is_code:
            yield number, line


def is_row(line: str) -> bool:
    return line.lstrip().startswith("|")


def wide_lines(tree: Tree) -> list[str]:
    """Lines of prose, and of README lines of commands too, of more than 120 columns; an address alone may be longer."""
    found = []
    for name in tree.documents():
        lines = tree.lines(name) if name == "README.md" else prose(tree, name)
        found += [
            f"{name}:{number}: {len(line)} columns, {WIDTH} at most"
            for number, line in lines
            if len(line) > WIDTH and not is_row(line) and " " in line.strip()
        ]
    return found


def wide_rows(tree: Tree) -> list[str]:
    """Rows of tables of more than 200 columns, without the addresses of links."""
    rows = (
        (name, number, len(_SHOWN.sub(r"\1", line)))
        for name in tree.documents()
        for number, line in prose(tree, name)
        if is_row(line)
    )
    return [
        f"{name}:{number}: a row of {columns} columns, {ROW} at most" for name, number, columns in rows if columns > ROW
    ]


def long_pages(tree: Tree) -> list[str]:
    """Pages that have more lines than they may, each or together."""
    counts = {name: tree.text(name).count("\n") for name in tree.documents()}
    found = [
        f"{name}: {counts[name]} lines, {most} at most" for name, most in LONGEST.items() if counts.get(name, 0) > most
    ]
    total = sum(counts.values())
    return [*found, f"all pages: {total} lines, {TOGETHER} at most"] if total > TOGETHER else found


def anchors(text: str) -> set[str]:
    """The anchors of a page's headings."""
    headings = re.findall(r"(?m)^#+ (.*)$", text)
    return {re.sub(r"[^\w\- ]", "", heading.lower()).strip().replace(" ", "-") for heading in headings}


def links(tree: Tree) -> list[str]:
    """Links to files that are not there, or to headings that a page has not."""
    found = []
    for name in tree.documents():
        folder = (tree.top / name).parent
        for number, line in prose(tree, name):
            for to in LINK.findall(line):
                if re.match(r"[a-z]+:", to):
                    continue
                path, _, heading = to.partition("#")
                target = folder / path if path else tree.top / name
                if not target.exists():
                    found.append(f"{name}:{number}: no {to}")
                elif heading and target.suffix == ".md" and heading not in anchors(target.read_text("utf-8")):
                    found.append(f"{name}:{number}: no heading #{heading} in {target.name}")
    return found
