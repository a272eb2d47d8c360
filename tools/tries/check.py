"""A check of a crate with edits in place, on a copy of its files."""

from __future__ import annotations

import pathlib
import shutil
import subprocess

from building.kit import Kit
from building.plan import PARTS, Crate, Plan
from upkeep.edits import Edit, applied

from .checks import KILLED, Checks
from .said import Said, heard

_ENDED_BY_KILL = (KILLED, 128 - KILLED)
MOST_SECONDS = 3600  # of one check, which takes ten minutes where all processors are taken


class Checker:
    """A copy of a crate, with what earlier checks of it proved, and the libraries that it stands on."""

    def __init__(
        self, plan: Plan, kit: Kit, crate: Crate, libraries: pathlib.Path, room: pathlib.Path, running: Checks
    ) -> None:
        self.crate, self.room, self.running, self.checks = crate, room, running, 0
        for part in PARTS:
            if (crate.folder / part).is_dir():
                shutil.copytree(crate.folder / part, room / part)
        (room / "kept").mkdir()
        words = kit.checked(plan, crate, libraries, 1)
        heads = [line.partition(":")[0].split() for line in plan.lines]
        kind = next(kind for name, *kind in heads if name == crate.name)
        self.words = [words[0], "check", *words[2:], *(["--crate-type", "staticlib"] if "staticlib" in kind else [])]
        self.words += ["--allow-holes", "--incremental", str(room / "kept")]

    def said(self, edits: list[Edit], functions: set[str]) -> Said:
        """What a check of these functions says, of all where there is none; once more where it is killed."""
        only = [word for path in sorted(functions) for word in ("--only", path.partition("::")[2])]
        texts: dict[pathlib.Path, str] = {}
        for edit in edits:
            texts = applied(edit, texts)
        for file, text in texts.items():
            self.inside(file).write_text(text, encoding="utf-8")
        try:
            ran = self.run(only)
            ran = self.run(only) if ran.returncode in _ENDED_BY_KILL and not self.running.have_ended else ran
        finally:
            for file in texts:
                shutil.copyfile(file, self.inside(file))
        return heard(self.crate.name, ran.returncode, ran.stdout + ran.stderr)

    def inside(self, file: pathlib.Path) -> pathlib.Path:
        """The copy of a file of the crate."""
        return self.room / file.relative_to(self.crate.folder)

    def run(self, only: list[str]) -> subprocess.CompletedProcess[str]:
        self.checks += 1
        return self.running.run([*self.words, *only], self.room, MOST_SECONDS)
