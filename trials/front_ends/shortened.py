"""A journal that is shortened every few datagrams, while the front end, its co-process or both are killed; and one of a
year, which stays short."""

import errno
import os
import pathlib
import signal
from unittest import mock

from model import text, wire
from model.saved import saved
from model.sign import Sign
from wisangub.endpoint.clock import Moment
from wisangub.endpoint.journal import Journal
from wisangub.endpoint.keeper import Keeper
from wisangub.endpoint.shortening import MOST, Shortening
from wisangub.endpoint.shortening import Trial as Looked
from wisangub.output import LOG
from wisangub.process.coprocess import CoProcess

from . import starts
from .bench import FrontEnd, Trial
from .faults import MOST_CALLS, Faults
from .follower import Follower, records_of
from .kills import Kills
from .manager import DMS
from .refusals import built, refusing

_KEEP = "2k"  # a state has some 1.2 kB
_FIRST, _END = b"state 1 sign", b"end"
_SHORT = 24 * 60  # minutes of the short form
_LONG = 365 * _SHORT
_REFUSED = [("rename", errno.EIO), ("link", errno.EACCES), ("open", errno.ENOSPC), ("write", errno.ENOSPC)]
_REFUSED += [("fsync", errno.EIO), ("open", errno.EACCES), ("write", errno.EIO)]
_CALLS = ("rename", "link", "fsync", "open", "write")  # at each of which it is killed
_MOST_EVER = 3e6  # octets of a journal, and of the one that is written beside it


def number(path: pathlib.Path) -> int:
    """The number of a file that was cut off."""
    return int(path.name.rpartition("-")[2])


def cutting(folder: pathlib.Path, keep: str) -> tuple[pathlib.Path, list[str]]:
    """A new folder that keeps what is cut off, and the options by which a journal is cut so at each such size."""
    kept = folder / "kept"
    kept.mkdir()
    return kept, ["--keep", keep, "--archive", str(kept)]


def goes_on(trial: Trial, end: str, state: list[str]) -> bool:
    """Whether the program goes on from a state of this end."""
    why = Looked(trial.program, None, end).fault([line.encode() for line in state])
    if why:
        trial.skip(f"journals of a {end} that are shortened", why)
    return not why


class _Follower(Follower):
    """The same over all files that a journal had: those that are kept, by their numbers, and the one in force. The
    state that one begins with is that in which the one before it left the model."""

    def __init__(self, path: pathlib.Path, kept: pathlib.Path) -> None:
        super().__init__(path)
        self.kept, self.done = kept, 0

    def catch_up(self, trial: Trial, name: str) -> None:
        """What is new, file by file. The one in force is opened first, since it may be shortened meanwhile: what was
        cut off behind it is for the next time."""
        with open(self.path, "rb") as journal:
            for path in sorted(self.kept.glob("journal.*-*"), key=number):
                if os.path.samestat(path.stat(), os.fstat(journal.fileno())):
                    break
                if number(path) > self.done:
                    self.read(trial, name, path.read_bytes())
                    self.done, self.seen, self.number = number(path), b"", 1
            self.read(trial, name, journal.read())
        for octets, is_answered in self.asked[self.at :]:
            trial.holds(f"{name}: what was answered is in the journal", not is_answered, octets.hex())
        self.at = len(self.asked)

    def read(self, trial: Trial, name: str, octets: bytes) -> None:
        """What a file has that was not looked at yet."""
        is_new = self.number == 1
        trial.holds(f"{name}: the journal begins as it did", octets.startswith(self.seen), self.done)
        new, end, self.number = records_of(octets, len(self.seen), self.number)
        self.seen = octets[:end]
        if is_new and new[1:2] == [_FIRST]:
            behind = new.index(_END) + 1
            wanted = [line.encode() for line in saved(self.sign.state)]
            trial.holds(f"{name}: the state is that of the lines before it", new[1:behind] == wanted, (new, wanted))
            new = new[behind:]
        elif is_new:
            trial.holds(f"{name}: a journal goes on from a state", self.done == 0, new[:3])
        self.follow(trial, name, new)


class _Faults(Faults):
    """A fault of the disk at each call of a front end that shortens its journal at its start and between SETs."""

    def __init__(self, trial: Trial, library: pathlib.Path) -> None:
        super().__init__(trial, library)
        kept, words = cutting(self.path.parent, _KEEP)
        self.words += words
        self.follower: _Follower = _Follower(self.path, kept)

    def may_end(self, call: str, has_ended: bool, is_cut: bool) -> bool:
        """A sync of the folder that fails ends it, where the new file has its name already; one of that file does
        not."""
        return call == "fsync" or super().may_end(call, has_ended, is_cut)

    def ask(self, front_end: FrontEnd) -> list[bool]:
        front_end.process.send_signal(signal.SIGHUP)
        return super().ask(front_end)

    def killed(self, call: str, at: int) -> bool:
        """A life that is killed at a call, and one after it: whether there was such a call."""
        environment = refusing(self.library, self.path, call, at, 0, kill=1)
        front_end = self.trial.sign(*self.words, "--no-ticks", environment=environment)
        if front_end.port:
            self.ask(front_end)
        self.forget(front_end, stops=True)
        self.after(f"{call} {at}, killed there")
        return front_end.process.returncode == -signal.SIGKILL


def _faults(trial: Trial) -> None:
    """Each call of each kind that shortening makes, in turn, as long as there is one more: it is refused, or the front
    end is killed there."""
    library = built(trial)
    if library is None:
        return
    faults = _Faults(trial, library)
    for call, error in _REFUSED:
        for at in range(1, 3 if trial.is_short else MOST_CALLS):
            if trial.is_late() or not faults.life(call, at, error):
                break
    for call in _CALLS:
        for at in range(1, 3 if trial.is_short else MOST_CALLS):
            if trial.is_late() or not faults.killed(call, at):
                break
    print(f"faults of the disk: {Faults.lives} so far, shortened {faults.follower.done} times between", flush=True)


class _Kills(Kills):
    """Lives over a journal that is shortened every few datagrams; what is cut off is kept."""

    def __init__(self, trial: Trial, folder: pathlib.Path) -> None:
        super().__init__(trial, folder)
        kept, words = cutting(folder, _KEEP)
        self.words = ["--journal", str(self.path), *words]
        self.follower: _Follower = _Follower(self.path, kept)


class _Model(CoProcess):
    """The model as a process that is asked for its state."""

    def __init__(self) -> None:
        self.sign = Sign(text.bench())

    def ask(self, line: bytes) -> list[bytes]:
        assert line == b"save"
        return [*(one.encode() for one in saved(self.sign.state)), b"ok"]


class _Any(Looked):
    """Another process that goes on from each state: how large the two files were at most."""

    def __init__(self, journal: Journal) -> None:
        super().__init__("", None)
        self.journal, self.most, self.count = journal, 0, 0

    def fault(self, state: list[bytes]) -> str:
        self.most, self.count = max(self.most, self.journal.size), self.count + 1
        return ""


def _year(trial: Trial) -> None:
    """Ten Gets each ten seconds and a SET a minute, through the keeper: the largest that its two files ever are."""
    minutes, path = _SHORT if trial.is_short else _LONG, trial.new_folder() / "journal"
    with mock.patch("os.fsync"), mock.patch("os.fdatasync"), mock.patch.object(LOG, "info"):
        keeper, model = Keeper(Journal.opened(str(path), trial.head())), _Model()
        keeper.start(Moment.now(), None)
        looked = _Any(keeper.journal)
        shortening, up, base = Shortening(MOST // (20 if trial.is_short else 1), looked, None, None), 0.0, 0
        for at in range(minutes):
            for poll in range(6):
                up += 10
                keeper.tick(10, up)
                if poll == 3:
                    bindings = [(DMS + (6, 10, 0), (wire.INTEGER, at % 65_536))]
                    octets = wire.written(wire.Message(wire.SET, b"admin", at, 0, 0, bindings))
                    keeper.keep([b"datagram " + octets.hex().encode()])
                    model.sign.receive(octets)
                keeper.heard(by_kept=False)
                shortening.turn(model, keeper)
                base = max(base, keeper.journal.base)
        keeper.journal.close()
    most = looked.most + base
    print(f"{minutes} minutes: shortened {looked.count} times, both files at most {most} octets", flush=True)
    trial.holds("a journal stays short for ever", most < _MOST_EVER and looked.count > 1, (most, looked.count))
    path.unlink()


def run(trial: Trial) -> None:
    """Kills, faults of the disk, starts, and a day or a year."""
    if not trial.has("--keep"):
        trial.skip("journals that are shortened", "the front end has no --keep")
        return
    if trial.other or goes_on(trial, "sign", saved(Sign(text.bench()).state)):
        kills = _Kills(trial, trial.new_folder())
        kills.run(12 if trial.is_short else 1000)
        print(f"shortened at least {kills.follower.done} times between them", flush=True)
        for part in (_faults, starts.run):
            if not trial.is_late():
                part(trial)
    if not trial.is_late() and trial.is_ours("a year through the keeper"):
        _year(trial)
