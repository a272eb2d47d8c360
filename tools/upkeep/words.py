"""Bars of the words: nothing is put off in a comment, and nothing is named that is gone."""

import re

from .tree import Tree

_PUT_OFF = re.compile(r"\b(?:TO" r"DO|FIX" r"ME|HA" r"CK)\b")
_TEXTS = (".md", ".rt", ".antt", ".py", ".sh", ".c", ".h", ".rs", ".sql", ".txt", ".html", ".css", ".js", ".toml")
_HELD = "bin conform control crates docs measures mibs model python signs tools trials vectors".split()
_CITED = re.compile(r"(?<![\w/.<-])((?:" + "|".join(_HELD) + r")/[\w./*{},-]*)")
_BUILT = re.compile(r"/out(?:/|$)|[*{<]|\.\.|NNN|NAME")


def put_off(tree: Tree) -> list[str]:
    """Words that say that something is still to be done."""
    return [
        f"{name}:{number}: {found[0]}"
        for name in tree.names
        if name.endswith(_TEXTS) or "." not in name.rsplit("/", 1)[-1]
        for number, line in tree.lines(name)
        if (found := _PUT_OFF.search(line))
    ]


def _cited(line: str) -> list[str]:
    """The paths of the repository that a line names, but for what is built and for patterns."""
    found = [path.rstrip(".,-") for path in _CITED.findall(line)]
    return [path for path in found if not _BUILT.search(path)]


def gone(tree: Tree) -> list[str]:
    """Files and folders that pages name and that are not there."""
    return [
        f"{name}:{number}: there is no {path}"
        for name in tree.documents()
        for number, line in tree.lines(name)
        for path in _cited(line)
        if not tree.has(path) and not any(tree.has(f"{path}{end}") for end in (".py", ".antt", ".rt"))
    ]
