"""A disk that is full, or can only be read, at a start and while a front end runs."""

import argparse
import contextlib
import errno
import fcntl
import os
import pathlib
import signal
import tempfile
from typing import Any, Iterator
from unittest import mock

from wisangub.endpoint.clock import Moment
from wisangub.endpoint.files import NotKept
from wisangub.endpoint.journal import Journal
from wisangub.endpoint.keeper import Keeper
from wisangub.endpoint.log import LEAST_LEFT, Log
from wisangub.endpoint.records import whole
from wisangub.output import LOG
from wisangub.refusal import Refusal

from . import with_centres, with_objects
from .form1 import older
from .test_journal import HEAD, LINES, NOW, kept, made

LATER = Moment("one", 1030, 40)


class Disk:
    """Refuses to write, while it is full, and to open files to be written while it can only be read."""

    def __init__(self, error: int) -> None:
        self.error, self.is_full = error, True
        self.write, self.open = os.write, os.open

    def writes(self, file: int, octets: bytes) -> int:
        if self.is_full:
            raise OSError(self.error, os.strerror(self.error))
        return self.write(file, octets)

    def opens(self, path: str, how: int, *words: Any, **more: Any) -> int:
        is_made = how & os.O_CREAT and not os.path.exists(path)
        if self.is_full and (is_made or self.error == errno.EROFS and how & (os.O_RDWR | os.O_WRONLY)):
            raise OSError(self.error, os.strerror(self.error), path)
        return self.open(path, how, *words, **more)

    def patches(self) -> Any:
        return mock.patch.multiple("os", write=self.writes, open=self.opens)


@contextlib.contextmanager
def ends_in_time(seconds: int = 5) -> Iterator[None]:
    """Raises TimeoutError where what is within goes on for longer."""

    def late(*_: Any) -> None:
        raise TimeoutError

    before = signal.signal(signal.SIGALRM, late)
    signal.alarm(seconds)
    try:
        yield
    finally:
        signal.alarm(0)
        signal.signal(signal.SIGALRM, before)


def lines_of(journal: Journal) -> list[bytes]:
    return [line for some in journal.lines() for line in some]


def test_a_sign_starts_from_what_is_there_and_writes_when_it_can() -> None:
    contents = {"whole": b"", "torn": b"datagram 30", "form 1": b"", "none": b""}
    for error in (errno.ENOSPC, errno.EROFS, errno.EDQUOT):
        for name, more in contents.items():
            with tempfile.TemporaryDirectory() as folder:
                path = pathlib.Path(folder, "journal")
                wanted = [] if name == "none" else LINES
                if name == "form 1":
                    path.write_bytes(older([HEAD.line(), NOW.start(), NOW.clock(), *LINES]))
                elif wanted:
                    path.write_bytes(made(str(path)) + more)
                before = path.read_bytes() if wanted else None
                disk = Disk(error)
                with disk.patches():
                    journal = Journal.opened(str(path), HEAD, is_patient=True)
                    keeper = Keeper(journal)
                    down = keeper.start(LATER, None, is_patient=True)
                    assert lines_of(journal) == wanted and down == ([b"ticks 30"] if wanted else [])
                    keeper.tick(50, 90.0)
                    assert not keeper.keep([b"datagram 31"]) and not keeper.end(91.0)
                    keeper.tick(30, 120.0)
                    keeper.heard(by_kept=False)
                    assert journal.refused and (before is None or path.read_bytes() == before)
                    disk.is_full = False
                    assert keeper.keep([b"datagram 32"]) and not journal.refused
                journal.close()
                assert whole(path.read_bytes()).size == path.stat().st_size
                assert kept(str(path)) == [*wanted, *down, b"ticks 80", b"heard", b"datagram 32"], (error, name)


def test_who_needs_the_journal_does_not_start() -> None:
    for error in (errno.ENOSPC, errno.EROFS):
        for is_there in (False, True):
            with tempfile.TemporaryDirectory() as folder:
                if is_there:
                    made(f"{folder}/journal")
                with Disk(error).patches():
                    try:
                        Keeper(Journal.opened(f"{folder}/journal", HEAD)).start(LATER, None)
                        found = ""
                    except NotKept as refused:
                        found = str(refused)
                assert os.strerror(error) in found


def test_a_file_that_another_hand_changed_meanwhile_is_not_written_to() -> None:
    with tempfile.TemporaryDirectory() as folder:
        path = pathlib.Path(folder, "journal")
        made(str(path))
        disk = Disk(errno.EROFS)
        with disk.patches():
            journal = Journal.opened(str(path), HEAD, is_patient=True)
            with open(path, "ab") as file:
                file.write(b"more")
            disk.is_full = False
            try:
                journal.keep([b"tick"])
                found = ""
            except Exception as refused:
                found = str(refused)
        journal.close()
        assert "another hand" in found


def test_a_torn_file_that_another_hand_changed_while_the_disk_was_full_is_not_cut() -> None:
    for changed in (b"", b"datagram 30 #5 5 00000000 and more"):
        with tempfile.TemporaryDirectory() as folder:
            path = pathlib.Path(folder, "journal")
            path.write_bytes(made(str(path)) + b"datagram 30")
            disk = Disk(errno.ENOSPC)
            with disk.patches():
                journal = Journal.opened(str(path), HEAD, is_patient=True)
                path.write_bytes(changed)  # as of who makes room on the disk
                disk.is_full = False
                try:
                    with ends_in_time():
                        journal.keep([b"tick"])
                    found = ""
                except Refusal as refused:
                    found = str(refused)
            journal.close()
            assert "another hand" in found and path.read_bytes() == changed


def test_each_minute_it_is_said_what_the_next_start_will_not_know() -> None:
    told: list[str] = []
    with tempfile.TemporaryDirectory() as folder:
        disk = Disk(errno.ENOSPC)
        made(f"{folder}/journal")
        with disk.patches(), mock.patch.object(LOG, "info", told.append):
            keeper = Keeper(Journal.opened(f"{folder}/journal", HEAD, is_patient=True))
            keeper.start(LATER, None, is_patient=True)
            for second in range(1, 200):
                keeper.tick(1, 40.0 + second)
                keeper.heard(by_kept=False)
            minutes = [words for words in told if "lost at the next start" in words]
            assert [words.rpartition(": ")[2].split(" ")[0] for words in minutes] == ["60", "120", "180"], told
            assert all(os.strerror(errno.ENOSPC) in words for words in minutes)
            disk.is_full = False
            keeper.tick(41, 281.0)
            assert told[-1].endswith("it is written again") and len(keeper.journal.owed.first) == 0
            keeper.tick(60, 341.0)
            assert told[-1].endswith("it is written again") and keeper.end(342.0)
        keeper.journal.close()
        assert sum(int(line[6:]) for line in kept(f"{folder}/journal") if line.startswith(b"ticks ")) == 30 + 199 + 101


def test_a_folder_that_takes_no_file_lets_a_torn_end_be() -> None:
    for contents in (b"torn", b"form 1"):
        with tempfile.TemporaryDirectory() as folder:
            path = pathlib.Path(folder, "journal")
            text = made(str(path)) + b"datagram 30"
            path.write_bytes(text if contents == b"torn" else older([HEAD.line(), NOW.start(), NOW.clock(), *LINES]))
            before, opened = path.read_bytes(), os.open

            def refusing(name: str, how: int, *words: Any, **more: Any) -> int:
                if how & os.O_CREAT and not os.path.exists(name):
                    raise OSError(errno.EACCES, os.strerror(errno.EACCES), name)
                return opened(name, how, *words, **more)

            with mock.patch("os.open", refusing):
                journal = Journal.opened(str(path), HEAD, is_patient=True)
                assert lines_of(journal) == LINES and "Permission denied" in journal.refused
                assert path.read_bytes() == before
            journal.keep([b"tick"])
            journal.close()
            assert kept(str(path)) == [*LINES, b"tick"]


def test_a_log_leaves_room_to_a_journal(tmp_path: pathlib.Path) -> None:
    told: list[str] = []
    path, left = tmp_path / "log", [LEAST_LEFT, LEAST_LEFT - 1, 0, LEAST_LEFT]

    def disk_of(_: int) -> argparse.Namespace:
        return argparse.Namespace(f_bavail=left.pop(0), f_frsize=1)

    with mock.patch("os.fstatvfs", disk_of), mock.patch.object(LOG, "info", told.append):
        log = Log(str(path), is_json=False)
        for event in ("one", "two", "three", "four"):
            log.event(event)
    assert [line.split(" ")[2] for line in path.read_text(encoding="utf-8").splitlines()] == ["one", "four"]
    assert told == [
        f"the log {path} is not written: its disk has less than 4 MB left",
        f"the log {path} is written again, without 2 events",
    ]


def test_a_log_that_is_no_file_of_a_disk_is_written() -> None:
    read, write = os.pipe()
    Log(f"/dev/fd/{write}", is_json=False).event("one")
    assert os.read(read, 100).endswith(b" - one\n")
    os.close(read)
    os.close(write)


def test_a_log_that_nobody_reads_is_not_waited_for(tmp_path: pathlib.Path) -> None:
    """A pipe with a name, which is taken where somebody reads it."""
    pipe = str(tmp_path / "pipe")
    os.mkfifo(pipe)
    for refused in (with_objects.refused, with_centres.refused):
        assert refused("--log", pipe) == (2, f"{pipe}: nobody reads it\n")
    read = os.open(pipe, os.O_RDONLY | os.O_NONBLOCK)
    log = Log(pipe, is_json=False)
    log.event("one")
    assert os.read(read, 100).endswith(b" - one\n")
    os.close(read)


def test_a_log_whose_reader_stands_still_leaves_events_out() -> None:
    told: list[str] = []
    read, write = os.pipe()
    name, most = f"/dev/fd/{write}", fcntl.fcntl(write, fcntl.F_GETPIPE_SZ)
    with mock.patch.object(LOG, "info", told.append):
        log = Log(name, is_json=False)
        for _ in range(most // 20):  # each has more octets
            log.event("one")
        before = os.read(read, most).splitlines()
        log.event("last")
        assert os.read(read, 100).endswith(b" - last\n")
        log.event(3 * most * "l")  # in parts, as far as they are taken
        part = os.read(read, most)
        log.event("one")
        assert part.endswith(b"lll") and os.read(read, 100).startswith(b"\n2")
    assert all(line.endswith(b" - one") for line in before)
    assert told == [
        f"the log {name} is not written: nobody takes its lines",
        f"the log {name} is written again, without {most // 20 - len(before)} events",
        f"the log {name} is not written: nobody takes its lines",
        f"the log {name} is written again, without 1 events",
    ]
    os.close(read)
    os.close(write)
