"""The calls of the sources, before a compiler makes loops of some: as the kit's libraries of the crates have them, and
as the measures of proofs/ show that a function calls itself."""

from __future__ import annotations

import json
import pathlib
from dataclasses import dataclass, field
from typing import Any

from .graphs import Calls, cycles

_MADE = "toolchain/mir.json"
_BUILT = ("crates/signtool/out/proved/{crate}.rlib", "crates/{crate}/out/rlib/{crate}.rlib")


@dataclass
class _Sources:
    """The functions of libraries. A library of the kit is read once a function of it is named."""

    kit: pathlib.Path
    functions: dict[str, Any] = field(default_factory=dict)
    methods: dict[str, set[str]] = field(default_factory=dict)
    read: set[str] = field(default_factory=set)

    def add(self, library: pathlib.Path) -> None:
        self.read.add(library.stem)
        if not (library / _MADE).exists():
            return
        for name, function in json.loads((library / _MADE).read_text(encoding="utf-8")):
            self.functions[name] = function["body"]
            for impl in function["generics"]["impls"]:
                names = {method for method in impl["methods"] if isinstance(method, str)}
                self.methods.setdefault(impl["name"], set()).update(names)

    def calls(self) -> Calls:
        """What the functions that were added call, and what these call, and so on."""
        found: Calls = {}
        left = list(self.functions)
        while left:
            name = left.pop()
            if name not in found:
                found[name] = self.called(name, self.functions[name])
                left.extend(found[name])
        return found

    def called(self, name: str, body: Any) -> set[str]:
        """A function calls each that it names, and each method of an impl that it hands to one. A method that is its
        trait's own text is handed its impl, and does not call itself by that."""
        named, impls = _named_in(body)
        for crate in {other.partition("::")[0] for other in named | impls} - self.read:
            self.add(self.kit / f"rlibs/{crate}.rlib")
        handed = {method for impl in impls for method in self.methods.get(impl, ())}
        if any(other != name and other.rpartition("::")[2] == name.rpartition("::")[2] for other in named):
            handed.discard(name)
        return {other for other in named | handed if other in self.functions}


def _named_in(body: Any) -> tuple[set[str], set[str]]:
    """The functions and the impls that a body names."""
    functions, impls, left = set(), set(), [body]
    while left:
        part = left.pop()
        if isinstance(part, list):
            left.extend(part)
        elif isinstance(part, dict):
            for kind, value in part.items():
                if isinstance(value, list) and value and isinstance(value[0], str):
                    if kind == "Fn":
                        functions.add(value[0])
                    elif kind == "Impl":
                        impls.add(value[0])
                left.append(value)
    return functions, impls


def in_libraries(top: pathlib.Path, crates: list[str], kit: pathlib.Path) -> tuple[list[tuple[str, ...]], int]:
    """The cycles that have a function of these crates, and of how many crates a library stands built."""
    sources, count = _Sources(kit), 0
    for crate in crates:
        places = [top / place.format(crate=crate) for place in _BUILT]
        built = [place for place in places if (place / _MADE).exists()]
        if built:
            sources.add(max(built, key=lambda place: (place / _MADE).stat().st_mtime))
            count += 1
    own = tuple(f"{crate}::" for crate in crates)
    return [cycle for cycle in cycles(sources.calls()) if any(name.startswith(own) for name in cycle)], count


def measured(top: pathlib.Path) -> list[tuple[str, ...]]:
    """The functions whose proof has a measure of a call of their own: the folder +NAME below the module's."""
    found = []
    for folder in (top / "crates").glob("*/proofs/**/+*"):
        crate, _, *modules = folder.relative_to(top / "crates").parts
        found.append(("::".join([crate, *modules]).replace("+", ""),))
    return sorted(found)
