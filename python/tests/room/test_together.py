"""Signs that a worker drives at the same time: how their sessions begin and end, and how many there may be."""

import contextlib
import pathlib
import subprocess
import sys
from typing import Iterator, Sequence

import pytest

from trials.room.loopback import Fates, Loopback
from wisangub.endpoint.sockets import Waiting
from wisangub.process.coprocess import CoProcess
from wisangub.process.places import TOP, environment
from wisangub.room import fleet
from wisangub.room.store import database
from wisangub.room.store.database import Failed
from wisangub.room.store.lines import Lines, News
from wisangub.room.store.store import Store
from wisangub.room.worker.program import Worker

from .bench import ADDRESS, HELLO, PACE, PROGRAM, TEXT, TICK

NAMES = ("one", "two", "three")
BLANK = f"blank 1 65535 255 {ADDRESS}"


class Signs:
    """Some signs, and a worker of them."""

    def __init__(self, folder: pathlib.Path, where: str, loopback: Loopback) -> None:
        (folder / "a.sign").write_bytes(TEXT)
        tables = [
            f'[[sign]]\nname = "{sign.name}"\naddress = "127.0.0.1:{sign.port}"\ndescription = "a.sign"\n'
            for sign in loopback.signs
        ]
        (folder / "fleet.toml").write_text("".join(tables))
        self.store = Store(database.opened(where))
        signs = self.store.signs.enter(fleet.read(folder / "fleet.toml"))
        self.worker, self.rows = Worker(self.store, signs, PROGRAM, PACE, Waiting()), sorted(signs)

    def ask(self, line: str) -> list[int]:
        """A command of each sign."""
        return [self.store.commands.ask(sign, "me", line) for sign in self.rows]

    def carried_out(self, line: str) -> list[str | None]:
        """How a command of each sign ended, once all are let go."""
        commands, hows = self.ask(line), list[str | None]()
        while None in (hows := list(map(self.store.commands.how, commands))) or self.worker.sessions:
            self.worker.guarded_round()
        return hows


@contextlib.contextmanager
def driven(folder: pathlib.Path, where: str) -> Iterator[Signs]:
    loopback = Loopback(PROGRAM, dict.fromkeys(NAMES, TEXT), Fates(1, 0.0), TICK)
    loopback.start()
    try:
        yield Signs(folder, where, loopback)
    finally:
        loopback.end()


def test_sessions_begin_side_by_side_and_keep_what_came_of_their_lines_at_once(
    tmp_path: pathlib.Path, where: str, monkeypatch: pytest.MonkeyPatch
) -> None:
    steps, kept = list[str](), list[int]()
    asked, answered, keep = CoProcess.ask_first, CoProcess.answered_first, Lines.keep

    def ask_first(process: CoProcess, line: bytes, name: str) -> None:
        steps.append("asked")
        asked(process, line, name)

    def answered_first(process: CoProcess, name: str) -> None:
        steps.append("answered")
        answered(process, name)

    def watched(lines: Lines, news: Sequence[News]) -> None:
        kept.append(len(news))
        keep(lines, news)

    with driven(tmp_path, where) as at:
        assert at.carried_out(BLANK) == ["accepted"] * 3
        monkeypatch.setattr(CoProcess, "ask_first", ask_first)
        monkeypatch.setattr(CoProcess, "answered_first", answered_first)
        monkeypatch.setattr(Lines, "keep", watched)
        at.ask(BLANK)
        at.worker.lease()
        assert steps == ["asked"] * 3 + ["answered"] * 3
        assert kept == [3], "the ledger of each, in one transaction"


def test_sessions_of_which_nothing_could_be_kept_are_begun_again(
    tmp_path: pathlib.Path, where: str, monkeypatch: pytest.MonkeyPatch
) -> None:
    def refused(*_: object) -> None:
        raise Failed("the disk is full")

    with driven(tmp_path, where) as at:
        assert at.carried_out(BLANK) == ["accepted"] * 3
        at.ask(BLANK)
        with monkeypatch.context() as patched:
            patched.setattr(Lines, "keep", refused)
            with pytest.raises(Failed, match="the disk is full"):
                at.worker.lease()
        assert not at.worker.sessions and at.worker.to_release == set(at.rows)
        assert at.carried_out(HELLO) == ["accepted"] * 3
        assert at.store.database.run("SELECT DISTINCT outcome FROM commands") == [("accepted",)]


def test_co_processes_leave_without_being_waited_for(
    tmp_path: pathlib.Path, where: str, monkeypatch: pytest.MonkeyPatch
) -> None:
    with driven(tmp_path, where) as at:
        monkeypatch.setattr(CoProcess, "end", None)
        assert at.carried_out(BLANK) == ["accepted"] * 3
        monkeypatch.undo()
        while at.worker.leaving.processes:
            at.worker.guarded_round()


@pytest.mark.parametrize(
    ("soft", "hard", "wanted", "driven_at_once", "limit"),
    (
        (256, 4096, 1000, 1000, 3300),
        (256, 1024, 1000, 241, 1024),
        (4096, 4096, 1000, 1000, 4096),
        (64, 64, 1000, 1, 64),
    ),
)
def test_a_worker_drives_as_many_signs_as_it_may_have_files_for(
    soft: int, hard: int, wanted: int, driven_at_once: int, limit: int
) -> None:
    code = (
        f"import resource; resource.setrlimit(resource.RLIMIT_NOFILE, ({soft}, {hard}))\n"
        "from wisangub.room.worker.files import most_driven\n"
        f"print(most_driven({wanted}), resource.getrlimit(resource.RLIMIT_NOFILE)[0])"
    )
    done = subprocess.run(
        [sys.executable, "-c", code], cwd=TOP, env=environment(), stdin=subprocess.DEVNULL, stdout=subprocess.PIPE
    )
    assert done.stdout.split() == [str(driven_at_once).encode(), str(limit).encode()]
