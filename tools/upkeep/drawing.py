"""The drawing of the groups, docs/pictures/houses.svg: what stands on what, by crates.txt."""

import re
import subprocess
from html import unescape

from . import crates
from .tree import Tree

PICTURE = "docs/pictures/houses.svg"
PAGE = "docs/ARCHITECTURE.md"
EDGE = re.compile(r"<title>([\w]+)->([\w]+)</title>")
NODE = re.compile(r"<title>([a-z]\w+)</title>")
BY_FILE = "### File by file"
SHADES = ("#dbe9f6", "#eef4d9")


def stands_on(tree: Tree) -> dict[str, set[str]]:
    """For each crate the crates of the repository that its line of crates.txt names."""
    all_crates = set(crates.names(tree))
    lines = [line for _, line in tree.lines(crates.LIST) if line.strip() and not line.startswith("#")]
    parts = (line.split(":", 1) for line in lines)
    return {head.split()[0]: set(rest.split()) & all_crates for head, rest in parts}


def nearest(tree: Tree) -> dict[str, set[str]]:
    """The same without those that a crate stands on by way of another."""
    direct = stands_on(tree)
    below: dict[str, set[str]] = {}

    def under(crate: str) -> set[str]:
        if crate not in below:
            below[crate] = set().union(*({lower} | under(lower) for lower in direct[crate]), set())
        return below[crate]

    return {
        crate: {lower for lower in lowers if not any(lower in under(other) for other in lowers)}
        for crate, lowers in direct.items()
    }


def drawn_crates(tree: Tree) -> set[str]:
    """The crates of the drawing: all but those of tests."""
    return {crate for crate in crates.names(tree) if not crate.endswith("_tests")}


def as_dot(tree: Tree) -> str:
    """The drawing for Graphviz: a box a group, and a line from each crate down to what it stands on."""
    shown, lines = drawn_crates(tree), ["digraph houses {", "rankdir=TB; nodesep=0.25; ranksep=0.35;"]
    lines.append('node [shape=box, style="rounded,filled", fillcolor=white, fontname="sans-serif", fontsize=12];')
    lines.append('edge [arrowsize=0.6]; fontname="sans-serif"; fontsize=14;')
    for number, (group, members) in enumerate(crates.groups(tree).items()):
        shade = SHADES[number % len(SHADES)]
        inside = " ".join(f"{crate};" for crate in members if crate in shown)
        lines.append(f'subgraph cluster_{number} {{ label="{group}"; style=filled; color="{shade}"; {inside} }}')
    for crate, lowers in nearest(tree).items():
        lines += [f"{crate} -> {lower};" for lower in sorted(lowers) if crate in shown]
    return "\n".join([*lines, "}"]) + "\n"


def draw(tree: Tree) -> None:
    """Writes the drawing, by Graphviz (Debian's package of that name)."""
    ended = subprocess.run(["dot", "-Tsvg"], input=as_dot(tree), capture_output=True, text=True, check=True)
    (tree.top / PICTURE).write_text(ended.stdout, encoding="utf-8")


def drawn(tree: Tree) -> list[str]:
    """Lines that the drawing has too many or too few."""
    text = unescape(tree.text(PICTURE)) if tree.has(PICTURE) else ""
    shown = drawn_crates(tree)
    wanted = {(crate, lower) for crate, lowers in nearest(tree).items() if crate in shown for lower in lowers}
    found = [f"{PICTURE}: no crate {crate}" for crate in sorted(shown - set(NODE.findall(text)))]
    found += [f"{PICTURE}: no line {upper} to {lower}" for upper, lower in sorted(wanted - set(EDGE.findall(text)))]
    found += [f"{PICTURE}: a line {upper} to {lower}" for upper, lower in sorted(set(EDGE.findall(text)) - wanted)]
    return [f"{line} (tools/house.py --draw)" for line in found]


def passed(tree: Tree) -> list[str]:
    """Files that the page says octets pass, and that are gone: of Rattle in the crate before them, or of Python."""
    _, _, section = tree.text(PAGE).partition(f"\n{BY_FILE}\n")
    if not section:
        return [f"{PAGE}: no section `{BY_FILE}`"]
    folder, found = "", []
    for word in re.findall(r"[\w/]+(?:\.rt|\.py)?", section.partition("\n## ")[0]):
        if word in nearest(tree):
            folder = f"crates/{word}/src"
        where = f"{folder}/{word}" if word.endswith(".rt") else f"python/wisangub/{word}"
        if word.endswith((".rt", ".py")) and not tree.has(where):
            found.append(f"{PAGE}: there is no {where}")
    return found
