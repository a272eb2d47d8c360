"""A wrong sign: model with one edit, loaded beside the right one."""

import importlib
import sys
import types
from dataclasses import dataclass
from typing import Sequence

from model.description import Description
from wisangub.process.places import TOP
from wisangub.tester.sign.simulated import SomeSign

FOLDER = TOP / "model"
IMPORTS = {  # the files in the order in which they are loaded, and which of them each imports
    "wire": (),
    "multi": (),
    "codes": (),
    "layout": ("multi",),
    "description": ("layout", "codes"),
    "state": ("layout", "codes", "description"),
    "showing": ("layout", "codes", "description", "multi", "state"),
    "objects": ("wire", "codes", "description", "state"),
    "changes": ("wire", "codes", "description", "objects", "showing", "state"),
    "replies": ("wire",),
    "sign": ("replies", "wire", "codes", "changes", "description", "objects", "showing", "state"),
    "centre": ("wire", "codes", "objects"),
    "text": ("layout", "centre", "codes", "description", "sign"),
}


@dataclass(frozen=True)
class Mutant:
    """A sign wrong in one rule: in this file the old lines, which stand once, are the new ones.

    `rule` is a key of the findings' rules.txt.
    """

    name: str
    rule: str
    file: str
    old: str
    new: str
    has: bytes = b"1 0"  # whether the sign that is tried has beacons and pixel services
    order: bytes = b"high"  # of the checksums' octets of the sign that is tried
    size: bytes = b"23 14"  # columns and rows of the sign that is tried
    group: str = ""  # of those that a default run has to find, what they are wrong in


def edited(mutant: Mutant, source: str | None = None) -> str:
    """The text of the mutant's file, or another text of it, with the edit."""
    source = (FOLDER / mutant.file).read_text(encoding="utf-8") if source is None else source
    count = ("\n" + source).count("\n" + mutant.old)
    if count != 1:
        raise ValueError(f"{mutant.name}: {mutant.old!r} stands {count} times in {mutant.file}")
    return ("\n" + source).replace("\n" + mutant.old, "\n" + mutant.new)[1:]


def constants(package: str) -> dict[str, object]:
    """The constants of the modules that are loaded so far: an edit may name any of them."""
    modules = [module for name, module in sys.modules.items() if name.startswith(f"{package}.")]
    return {name: held for module in modules for name, held in vars(module).items() if name.isupper()}


def module_of(package: str, stem: str, source: str) -> None:
    name = f"{package}.{stem}"
    module = types.ModuleType(name)
    module.__package__, module.__file__ = package, str(FOLDER / f"{stem}.py")
    module.__dict__.update(constants(package))
    sys.modules[name] = module
    exec(compile(source, f"{name}", "exec"), module.__dict__)
    setattr(sys.modules[package], stem, module)


def share(package: str, stem: str) -> None:
    """What no edit reaches is the right sign's own."""
    module = importlib.import_module(f"model.{stem}")
    sys.modules[f"{package}.{stem}"] = module
    setattr(sys.modules[package], stem, module)


def sign_of(mutants: Sequence[Mutant], description: bytes) -> SomeSign:
    """The sign with all of these edits, as it begins."""
    package = package_of(mutants)
    holder = types.ModuleType(package)
    holder.__path__ = []  # a package without files: its modules are put into it
    sys.modules[package] = holder
    anew: set[str] = set()
    for stem, imports in IMPORTS.items():
        edits = [mutant for mutant in mutants if mutant.file == f"{stem}.py"]
        if not edits and anew.isdisjoint(imports):
            share(package, stem)
            continue
        anew.add(stem)
        held = (FOLDER / f"{stem}.py").read_text(encoding="utf-8")
        for mutant in edits:
            held = edited(mutant, held)
        module_of(package, stem, held)
    described: Description = sys.modules[f"{package}.text"].described(description)
    sign: SomeSign = sys.modules[f"{package}.sign"].Sign(described)
    return sign


def package_of(mutants: Sequence[Mutant]) -> str:
    return "_and_".join(["mutant", *[mutant.name for mutant in mutants]])


def unload(mutants: Sequence[Mutant]) -> None:
    """Forgets the modules of a sign."""
    package = package_of(mutants)
    for name in [name for name in sys.modules if name == package or name.startswith(package + ".")]:
        del sys.modules[name]
