"""Wrong bodies: an edit of a crate's files, and the paths of the functions that it changes."""

import dataclasses
import pathlib
from collections.abc import Iterator

from .functions import place_at, users


class BadEdit(Exception):
    """An edit that cannot be applied."""


@dataclasses.dataclass(frozen=True)
class Pair:
    file: pathlib.Path
    old: str
    new: str


@dataclasses.dataclass
class Edit:
    name: str
    pairs: list[Pair]
    # the paths of the functions that it changes; None for what stands in no function
    functions: set[str | None]
    fault: str = ""  # why it cannot be read
    # where it changes constants or types, the paths of the functions that name them, and of those that it changes
    users: set[str] = dataclasses.field(default_factory=set)


def read_pairs(crate: pathlib.Path, path: pathlib.Path) -> Iterator[Pair]:
    file: pathlib.Path | None = None
    old: str | None = None
    for line in path.read_text(encoding="utf-8").splitlines():
        if line.startswith("file: "):
            file = crate / line.removeprefix("file: ").strip()
        elif line.startswith("old: "):
            old = line.removeprefix("old: ")
        elif line.startswith("new:"):
            if file is None or not old:
                raise BadEdit("a `new:` line stands before any `file:` or `old:` line")
            yield Pair(file, old, line.removeprefix("new:").removeprefix(" "))


def read_edit(crate: pathlib.Path, path: pathlib.Path) -> Edit:
    name = f"{path.parent.name}/{path.stem}"
    texts: dict[pathlib.Path, str] = {}
    try:
        pairs, places = list(read_pairs(crate, path)), set()
        for pair in pairs:
            text = texts.get(pair.file) or pair.file.read_text(encoding="utf-8")
            places.add(place_at(crate, pair.file, text, text.find(pair.old)))
            texts[pair.file] = text.replace(pair.old, pair.new)  # an earlier pair may make what a later one changes
    except (BadEdit, OSError, ValueError) as fault:
        return Edit(name, [], {None}, str(fault))
    functions, items = {place.function for place in places}, {place.item for place in places if place.item}
    known = {path for path in functions if path}
    return Edit(name, pairs, functions, users=users(crate, items) | known if None in functions else set())


def edits_of(crate: pathlib.Path) -> list[Edit]:
    folders = [crate / "must-fail", crate / "wrong-bodies"]
    return [read_edit(crate, path) for folder in folders for path in sorted(folder.glob("*.edit"))]


def applied(edit: Edit, texts: dict[pathlib.Path, str]) -> dict[pathlib.Path, str]:
    """These texts of files with the edit in place."""
    if edit.fault or not edit.pairs:
        raise BadEdit(edit.fault or "it has no `old:` and `new:` pair")
    texts, were = dict(texts), dict(texts)
    for pair in edit.pairs:
        try:
            text = texts[pair.file] if pair.file in texts else pair.file.read_text(encoding="utf-8")
        except (OSError, ValueError) as fault:
            raise BadEdit(str(fault)) from fault
        if text.count(pair.old) != 1:
            raise BadEdit(f"`{pair.old}` stands {text.count(pair.old)} times in {pair.file.name}")
        were.setdefault(pair.file, text)
        texts[pair.file] = text.replace(pair.old, pair.new)
    if texts == were:
        raise BadEdit("it changes nothing")
    return texts


def faults(edits: list[Edit]) -> dict[str, str]:
    """Why edits cannot be applied, by their names."""
    found = {}
    for edit in edits:
        try:
            applied(edit, {})
        except BadEdit as fault:
            found[edit.name] = str(fault)
    return found
