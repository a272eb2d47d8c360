"""The kit's compiler, and what it is called with."""

from __future__ import annotations

import pathlib
import shutil
import sys
from dataclasses import dataclass

from .plan import Crate, Plan

TARGET = "x86_64-unknown-linux-gnu"
OF_SYSTEM = ("libos_c.a", "liblibc_c.a")  # what a program is linked with


@dataclass(frozen=True)
class Kit:
    folder: pathlib.Path

    @staticmethod
    def found() -> Kit:
        """The kit whose `rt` stands first in PATH."""
        if not (rt := shutil.which("rt")):
            sys.exit("no rt in PATH: README says which kit it is of")
        return Kit(pathlib.Path(rt).resolve().parent.parent)

    @property
    def name(self) -> str:
        return (self.folder / "KIT-ID").read_text(encoding="utf-8")

    def checked(self, plan: Plan, crate: Crate, libraries: pathlib.Path, jobs: int) -> list[str]:
        """The words that prove a crate over libraries that stand built in a folder, and build it."""
        words = [f"{self.folder}/bin/rattle", "build", "--crate-name", crate.name, crate.root]
        for name in ("std", *plan.of_kit[crate.name]):
            words += ["--extern", f"{name}={self.folder}/rlibs/{name}.rlib"]
        for name in crate.uses:
            words += ["--extern", f"{name}={libraries}/{name}.rlib"]
        words += ["-L", f"dependency={self.folder}/rlibs", "-L", f"dependency={libraries}"]
        words += ["--antt-project", f"{self.folder}/rattle/logic/antt-project.json"]
        return [*words, "--logic-built", f"{self.folder}/logic_built", "--links", f"{crate.name}=", "--jobs", str(jobs)]

    def compiled(self) -> list[str]:
        """The words that have a program compiled too."""
        return ["--toolchain", f"{self.folder}/toolchain", "--backend", "llvm"]

    def linked(self, program: pathlib.Path, made: pathlib.Path) -> list[str]:
        """The words that link a program."""
        words = [f"{self.folder}/bin/rattle-link", "--target", TARGET, "--toolchain", f"{self.folder}/toolchain"]
        return [*words, "-o", str(program), str(made), *(f"{self.folder}/c/{name}" for name in OF_SYSTEM)]
