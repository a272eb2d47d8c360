"""A lane of the short form, which runs of all tests those that no other lane has taken: with a folder that the lanes
share in LANES of the environment,

    python3 -m pytest -p tests.room.lanes ..

Each test is taken once, as its turn comes: those that take long first, so that at the end no lane waits for another.
"""

from __future__ import annotations

import hashlib
import os
import pathlib
from typing import TYPE_CHECKING

if TYPE_CHECKING:
    import pytest

FOLDER = "LANES"
# files with tests of more than ten seconds, the longest first: processes that begin, and times that have to pass
LONG = ("pasted", "waits", "plans", "postgresql", "demo", "beside", "carry", "service", "limits", "archive", "backup")


def in_turn(items: list[pytest.Item]) -> list[pytest.Item]:
    """All tests, those of long files first."""
    places = {f"test_{name}": at for at, name in enumerate(LONG)}
    return sorted(items, key=lambda item: places.get(item.path.stem, len(LONG)))


def take(folder: pathlib.Path, name: str) -> bool:
    """Whether a test is this lane's."""
    try:
        (folder / hashlib.sha256(name.encode()).hexdigest()).touch(exist_ok=False)
    except FileExistsError:
        return False
    return True


def _elsewhere(session: pytest.Session, item: pytest.Item) -> pytest.Item | None:
    """A test of another file. As the next one it has what stands for a file end, and what stands for all tests stay."""
    return next((one for one in session.items if one.path != item.path), None)


def pytest_runtestloop(session: pytest.Session) -> bool:
    """Runs the tests of this lane."""
    if session.testsfailed:
        raise session.Interrupted(f"{session.testsfailed} files cannot be read")
    folder = pathlib.Path(os.environ[FOLDER])
    for item in in_turn(session.items):
        if take(folder, item.nodeid):
            item.config.hook.pytest_runtest_protocol(item=item, nextitem=_elsewhere(session, item))
            if session.shouldstop:
                raise session.Interrupted(session.shouldstop)
    return True
