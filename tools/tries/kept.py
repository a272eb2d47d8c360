"""What earlier runs on this machine refused, by a sum of all that it was refused over. A run in any clone takes it."""

from __future__ import annotations

import contextlib
import hashlib
import json
import os
import pathlib
import tempfile
import time

MOST_DAYS = 60  # after which an entry that no run took goes


def folder() -> pathlib.Path:
    return pathlib.Path(os.environ.get("XDG_CACHE_HOME") or pathlib.Path.home() / ".cache") / "wisangub/wrong-bodies"


def sum_of(*parts: object) -> str:
    return hashlib.sha256(repr(parts).encode()).hexdigest()


class Kept:
    """Goals by the sum of what left them open. An entry that is damaged counts for nothing, and so does a folder."""

    def __init__(self, at: pathlib.Path, anew: bool = False) -> None:
        self.at, self.anew = at, anew

    def goals(self, name: str) -> list[str]:
        """What an earlier run found open under this sum, or nothing."""
        if self.anew:
            return []
        try:
            found = json.loads((self.at / name).read_text(encoding="utf-8"))
            goals = found["goals"]
            if found["sum"] != sum_of(name, goals) or not all(isinstance(goal, str) for goal in goals):
                return []
            os.utime(self.at / name)
            return list(goals)
        except (OSError, ValueError, KeyError, TypeError):
            return []

    def keep(self, name: str, goals: list[str]) -> None:
        """Keeps what refused an edit; written apart and then renamed, so that no other run meets half of it."""
        if not goals:
            return
        with contextlib.suppress(OSError):
            self.at.mkdir(parents=True, exist_ok=True)
            with tempfile.NamedTemporaryFile("w", dir=self.at, prefix="new-", delete=False, encoding="utf-8") as file:
                json.dump({"goals": goals, "sum": sum_of(name, goals)}, file)
            os.replace(file.name, self.at / name)

    def shrink(self) -> None:
        """Removes what no run took for long."""
        last = time.time() - 86_400 * MOST_DAYS
        for path in self.at.glob("*"):
            with contextlib.suppress(OSError):
                if path.stat().st_mtime < last:
                    path.unlink()
