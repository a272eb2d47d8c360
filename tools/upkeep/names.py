"""Names that the new text of a wrong body has and its file does not: a check refuses the text then, and not what it
says, so that it is no wrong body.

Looked at are names with a capital letter, the heads of paths and the functions that are called. A name is there where
the file declares or imports it, or has it elsewhere by itself; behind `::` or a dot it is what stands before that which
has it, and within a comment or a text it is none.
"""

from __future__ import annotations

import functools
import re
from collections.abc import Collection, Iterator

from .edits import Edit

# the kit's prelude (rattle/std/src/prelude.rt), and what no file has to import
EVERYWHERE = frozenset(
    """
    AsMut AsRef Box Clone Copy Default DoubleEndedIterator Drop Eq Err ExactSizeIterator Extend Fn FnMut FnOnce From
    FromIterator Into IntoIterator Iterator None Ok Option Ord PartialEq PartialOrd Result Self Send Sized Some String
    Sync ToString TryFrom TryInto Vec
    align_of align_of_val drop size_of size_of_val
    bool char i8 i16 i32 i64 i128 isize str u8 u16 u32 u64 u128 usize
    crate self std super
    """.split()
)
_WORDS_OF_THE_LANGUAGE = frozenset("as else fn for if impl in let match move mut pub return where while".split())
_SKIPPED = re.compile(
    r"""//[^\n]*|(?<!\w)b?r(?P<marks>\#*)".*?"(?P=marks)|b?"(?:[^"\\]|\\.)*"|b?'(?:[^'\\\n]|\\[^\n]+?)'""", re.S
)
_NAME = re.compile(r"(?<![\w:.])(?:[A-Z]\w*|[a-z_]\w*(?=::|\())")
_IMPORTED = re.compile(r"\buse\b([^;]*);")
_DECLARED = re.compile(r"\b(?:const|enum|fn|let|let mut|mod|static|struct|trait|type)\s+(\w+)")
_OVER = re.compile(r"\b(?:enum|fn|impl|struct|trait|type)\b\s*\w*\s*<([^>]*)>")
_CASES = re.compile(r"\benum\b[^{;]*\{[^}]*(?:\}|\Z)")
_BEFORE, _BEHIND = re.compile(r"[\w:.]*\Z"), re.compile(r"[\w:.(]*")
_PATH = 200  # the most of a path that is looked at


def _said(text: str) -> str:
    """A text without its comments, texts and characters."""
    return _SKIPPED.sub(" ", text)


def _own(said: str) -> set[str]:
    """What a text declares or imports."""
    imported = {word for words in _IMPORTED.findall(said) for word in re.findall(r"\w+", words)}
    over = (re.match(r"\s*(?:const )?(\w*)", part) for parts in _OVER.findall(said) for part in parts.split(","))
    return {*imported, *_DECLARED.findall(said), *(part[1] for part in over if part)}


@functools.cache
def _known(text: str) -> tuple[frozenset[str], frozenset[str]]:
    """The names that a file has, and all of its words, one of which may be a function that is handed in."""
    said = _said(text)
    alone = _NAME.findall(_CASES.sub(" ", _IMPORTED.sub(" ", said)))
    return frozenset({*_own(said), *alone}), frozenset(re.findall(r"\w+", said))


def _within(before: str, new: str, behind: str) -> Iterator[tuple[str, bool]]:
    """The names that stand in a new text, whole where it is a part of one, and whether they are called."""
    first, last = _BEFORE.search(before[-_PATH:]), _BEHIND.match(behind[:_PATH])
    assert first is not None and last is not None
    begin, end = len(first[0]), len(first[0]) + len(new)
    piece = first[0] + _SKIPPED.sub(lambda skipped: " " * len(skipped[0]), new) + last[0]
    for name in _NAME.finditer(piece):
        if name.end() > begin and name.start() < end and name[0] not in _WORDS_OF_THE_LANGUAGE:
            yield name[0], piece.startswith("(", name.end()) and name[0][0].islower()


def _is_case(before: str) -> bool:
    """Whether the cases of an enum stand at the end of a text, which are its own names."""
    last = before.rfind("enum ")
    said = _said(before[last:]) if last >= 0 else ""
    return "}" not in said and bool(_CASES.match(said))


def unknown(edit: Edit, stands_on: Collection[str]) -> list[str]:
    """The names of an edit that its files do not have, of a crate that stands on these."""
    texts, were, own, found = dict[str, str](), dict[str, str](), set[str](), list[tuple[str, str, bool]]()
    for pair in edit.pairs:
        file = str(pair.file)
        were.setdefault(file, pair.file.read_text(encoding="utf-8"))
        before, _, behind = texts.get(file, were[file]).partition(pair.old)
        earlier = {name for name, _ in _within(before, pair.old, behind)}
        more = [] if _is_case(before) else _within(before, pair.new, behind)
        found += [(file, name, is_called) for name, is_called in more if name not in earlier]
        own |= _own(_said(pair.new))
        texts[file] = before + pair.new + behind
    everywhere = {*EVERYWHERE, *stands_on, *own}
    wanted = [one for one in found if one[1] not in everywhere]
    return list(dict.fromkeys(name for file, name, is_called in wanted if name not in _known(were[file])[is_called]))
