"""A bar of the crates' code and definitions: how wide they are. Data in a file of rows may be wider."""

import re

from .rows import FILES
from .tree import Tree

WIDTH = 120
_CODE = re.compile(r"crates/\w+/(?:src/.*\.rt|specs/.*\.antt)")
# a comment, a text as it stands, a text with escapes, a character
_PIECE = re.compile(
    r"""//[^\n]*|(?<!\w)b?r(?P<marks>\#*)"(?:.*?)"(?P=marks)|b?"(?:[^"\\]|\\.)*"|'(?:[^'\\\n]|\\[^\n]+?)'""", re.S
)
TEXT = re.compile(r'b?r?#*"')
_BEFORE, _AFTER = re.compile(r"\s*\*?"), re.compile(r"[,;]?")
_WORDS = re.compile(r"\s*(?://|#)")


def data(text: str) -> set[int]:
    """The numbers of the lines that are one text or a part of one, with a comma or a semicolon at most beside it."""
    found: set[int] = set()
    for piece in filter(lambda piece: TEXT.match(piece[0]), _PIECE.finditer(text)):
        first = text.count("\n", 0, piece.start()) + 1
        last = first + piece[0].count("\n")
        before = text[text.rfind("\n", 0, piece.start()) + 1 : piece.start()]
        after = text[piece.end() :].split("\n", 1)[0]
        found.update(range(first + 1, last))
        if _BEFORE.fullmatch(before) and (first < last or _AFTER.fullmatch(after)):
            found.add(first)
        if first < last and _AFTER.fullmatch(after):
            found.add(last)
    return found


def wide(tree: Tree) -> list[str]:
    """Lines of more than 120 columns in src/ and specs/, words too, but for rows of data in a file of rows."""
    found = []
    for name in filter(_CODE.fullmatch, tree.names):
        wider = [(number, line) for number, line in tree.lines(name) if len(line) > WIDTH]
        rows = data(tree.text(name)) if wider and FILES.fullmatch(name) else set()
        found += [
            f"{name}:{number}: {len(line)} columns, {WIDTH} at most"
            for number, line in wider
            if number not in rows or _WORDS.match(line)
        ]
    return found
