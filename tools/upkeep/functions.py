"""The functions of a crate's files by their paths, and what stands in none: constants and types, by their names."""

from __future__ import annotations

import dataclasses
import pathlib
import re
from collections.abc import Iterator

FUNCTION = re.compile(r'^(?P<indent> *)(?:pub(?:\([a-z]+\))? )?(?:const )?(?:unsafe )?(?:extern "C" )?fn (?P<name>\w+)')
BLOCK = re.compile(r"^(?:pub(?:\([a-z]+\))? )?(?P<kind>impl|trait|mod)\b(?P<head>[^{]*)\{")
ITEM = re.compile(r"^(?:pub(?:\([a-z]+\))? )?(?:const|static|struct|enum|type|use) (?:\w+::)*(?P<name>\w+)")


@dataclasses.dataclass(frozen=True)
class Place:
    """Where a line stands: in a function, by its path from the crate's name on, or else in an item of this name."""

    function: str | None
    item: str = ""


def type_word(text: str) -> str:
    """A type as paths have it: `&[u8]` is `RefSliceU8`, and what it is generic over is left out."""
    text = re.sub(r"<[^<>]*>", "", re.sub(r"<[^<>]*>", "", text)).replace("&", "Ref ").replace("[", "Slice ")
    return "".join(word[0].upper() + word[1:] for word in re.findall(r"\w+", text.split("::")[-1]))


def module_of(crate: pathlib.Path, file: pathlib.Path) -> list[str]:
    parts = file.relative_to(crate / "src").with_suffix("").parts
    return [] if parts in (("lib",), ("main",)) else [*parts]


def module_of_type(crate: pathlib.Path, word: str, otherwise: list[str]) -> list[str]:
    """The module that has a type of this name, in whose path its methods stand."""
    for file in sorted((crate / "src").rglob("*.rt")):
        if re.search(rf"(?m)^(?:pub(?:\([a-z]+\))? )?(?:struct|enum) {word}\b", file.read_text(encoding="utf-8")):
            return module_of(crate, file)
    return otherwise


def block_path(crate: pathlib.Path, module: list[str], kind: str, head: str) -> list[str]:
    """The path of a block of functions, as `object_identifier::Oid`, `object_identifier::OidDisplay`, `sign::mode`."""
    head = head.split(" where ")[0]
    if kind != "impl":
        named = re.match(r"\s*(\w+)", head)
        assert named is not None
        return [*module, named.group(1)]
    of_trait, is_of_trait, of_type = re.sub(r"^<[^>]*>", "", head).strip().rpartition(" for ")
    word = type_word(of_type)
    if not is_of_trait:
        return [*module_of_type(crate, word, module), word]
    over = re.search(r"<(.*)>$", of_trait)
    return [*module, word + type_word(of_trait) + (type_word(over.group(1)) if over else "")]


def places(crate: pathlib.Path, file: pathlib.Path, text: str) -> Iterator[tuple[str, Place]]:
    """Each line of a file of `src`, with where it stands."""
    module = module_of(crate, file)
    block, place = module, Place(None)
    for line in text.splitlines():
        opened, begun, named = BLOCK.match(line), FUNCTION.match(line), ITEM.match(line)
        if line.startswith("}"):
            block, place = module, Place(None)
        elif opened:
            block = block_path(crate, module, opened["kind"], opened["head"])
        elif begun:
            place = Place("::".join([crate.name, *(block if begun["indent"] else module), begun["name"]]))
        elif named:
            place = Place(None, named["name"])
        yield line, place


def place_at(crate: pathlib.Path, file: pathlib.Path, text: str, at: int) -> Place:
    """Where this place of a file's text stands; what is no file of `src` has no functions."""
    if file.suffix != ".rt" or at < 0:
        return Place(None)
    end = text.find("\n", at)
    return [place for _, place in places(crate, file, text[: end if end >= 0 else len(text)])][-1]


def users(crate: pathlib.Path, names: set[str]) -> set[str]:
    """The paths of the functions of a crate in whose text or path one of these names stands."""
    found = set()
    for file in sorted((crate / "src").rglob("*.rt")):
        for line, place in places(crate, file, file.read_text(encoding="utf-8")):
            if place.function and names & {*re.findall(r"\w+", line), *place.function.split("::")}:
                found.add(place.function)
    return found
