"""A bar of the crates' families: what crates.txt says of each crate, and its name."""

import re

from . import crates
from .tree import Tree

_MOST_WORDS = 10
_SAID = re.compile(r"# (?P<what>[^\[\]]+?)(?: \[(?P<apart>[^\[\]]+)\])?")


def families(tree: Tree) -> dict[str, list[str]]:
    """The families of each group, by its line of crates.txt."""
    lines = (crates.GROUP.fullmatch(line) for _, line in tree.lines(crates.LIST))
    return {line["group"]: line["families"].split(", ") for line in lines if line}


def family(crate: str, known: list[str]) -> str | None:
    """The family to which a crate belongs by its name: the longest that is it, or that it begins with."""
    found = [name for name in known if crate == name or crate.startswith(f"{name}_")]
    return max(found, key=len) if found else None


def said(tree: Tree) -> dict[str, tuple[str, str]]:
    """What crates.txt says of each crate in the line above it: what it is, and why it is apart from its family's."""
    lines = [line for _, line in tree.lines(crates.LIST)]
    found = {}
    for above, line in zip(["", *lines], lines):
        comment = _SAID.fullmatch(above)
        if re.match(r"\w", line):
            found[line.split(":")[0].split()[0]] = (comment["what"], comment["apart"] or "") if comment else ("", "")
    return found


def _of_names(tree: Tree) -> list[str]:
    """Crates whose name is that of no family of their group, and families without a crate of their name."""
    by_group, groups = families(tree), crates.groups(tree)
    known = [name for names in by_group.values() for name in names]
    found = [f"{crates.LIST}: there is no crate {name}" for name in known if name not in crates.names(tree)]
    for group, members in groups.items():
        for crate in members:
            if family(crate, known) not in by_group[group]:
                found.append(f"{crates.LIST}: {crate} begins with none of {', '.join(by_group[group])}")
    return found


def _of_words(tree: Tree) -> list[str]:
    """Crates of which crates.txt says nothing or too much, or not why they are apart."""
    known = [name for names in families(tree).values() for name in names]
    found = []
    for crate, (what, apart) in said(tree).items():
        is_part = crate not in known and not crates.is_tests(crate)
        if not 0 < len(what.split()) <= _MOST_WORDS:
            found.append(f"{crates.LIST}: what {crate} is, in one to {_MOST_WORDS} words, does not stand above it")
        if is_part and not apart:
            found.append(f"{crates.LIST}: why {crate} is apart does not stand above it, in brackets")
    return found


def kept(tree: Tree) -> list[str]:
    """What does not agree."""
    return [*_of_names(tree), *_of_words(tree)]
