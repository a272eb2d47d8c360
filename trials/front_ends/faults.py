"""A fault of the disk at each write, fdatasync, fsync, ftruncate and open of a sign's journal and of its folder, in
turn, by trials/refuse_disk.c."""

import errno
import os
import pathlib

from model import wire

from .bench import FrontEnd, Trial, eventually
from .follower import Follower
from .manager import Manager
from .refusals import built, refusing
from .requests import Changes

_SETS = 6  # of a life
MOST_CALLS = 20  # of one kind in a life
LIVES: list[tuple[str, int, dict[str, int]]] = [
    ("write", errno.ENOSPC, {}),
    ("write", errno.EIO, {"short": 20}),
    ("write", errno.EROFS, {"more": 2}),
    ("write", errno.EIO, {"short": 20, "cut": 1}),
    ("fdatasync", errno.EIO, {}),
    ("fsync", errno.EIO, {}),
    ("ftruncate", errno.EIO, {}),
    ("open", errno.EACCES, {}),
    ("open", errno.EROFS, {}),
    ("open", errno.ENOSPC, {}),
]


def _is_ending(front_end: FrontEnd) -> bool:
    """Whether a front end has ended, or said that it does."""
    return front_end.process.poll() is not None or b"is not known" in front_end.errors


class Faults:
    """Lives over one journal: each with a fault, and then one without, which has SETs answered after it."""

    lives = 0

    def __init__(self, trial: Trial, library: pathlib.Path) -> None:
        self.trial, self.library = trial, library
        self.path = trial.new_folder() / "journal"
        self.words = ["--journal", str(self.path)]
        self.follower, self.changes = Follower(self.path), Changes(trial.chance)

    def life(self, call: str, at: int, error: int, **more: int) -> bool:
        """A life with a fault, and one after it: whether there was a call to refuse."""
        also = "".join(f", {word} {value}" for word, value in more.items())
        name = f"{call} {at} refused with {errno.errorcode[error]}{also}"
        environment = refusing(self.library, self.path, call, at, error, **more)
        front_end = self.trial.sign(*self.words, "--no-ticks", environment=environment)
        answered = self.ask(front_end) if front_end.port else []
        is_over = _is_ending(front_end) or answered[-1:] == [False] and eventually(lambda: _is_ending(front_end))
        status = front_end.ended() if is_over else None
        told = self.is_told(front_end, error, all(answered) and status is None)
        if status is not None:
            self.trial.holds(
                f"{name}: it ends and says why", status in (1, 2) and told, (status, front_end.errors.decode())
            )
            self.trial.holds(f"{name}: nothing is answered after it", not any(answered[sum(answered) :]), answered)
        elif told:
            self.trial.holds(
                f"{name}: all others are answered",
                answered.count(False) <= 1 + more.get("more", 0) and answered[-1],
                answered,
            )
        else:
            self.trial.holds(f"{name}: all are answered", all(answered), answered)
        self.trial.holds(
            f"{name}: it goes on where it can",
            not told or not front_end.port or self.may_end(call, status is not None, "cut" in more),
            (status, front_end.errors.decode()),
        )
        self.trial.holds(f"{name}: no traceback", b"Traceback" not in front_end.errors, front_end.errors.decode())
        if told and self.trial.chance.random() < 0.5:
            front_end.kill()
        self.forget(front_end, stops=True)
        told = os.strerror(error).encode() in front_end.errors
        self.after(name)
        return told

    def may_end(self, call: str, has_ended: bool, is_cut: bool) -> bool:
        """Whether this fault of a call lets a front end end, or go on: what it does."""
        return has_ended == (call == "fdatasync" or is_cut)

    def is_told(self, front_end: FrontEnd, error: int, is_well: bool) -> bool:
        """Whether the front end said why; where a datagram was not answered it has, and what it said is under way."""
        words = os.strerror(error).encode()
        return words in front_end.errors or not is_well and eventually(lambda: words in front_end.errors)

    def tear(self) -> None:
        """The journal has a record at its end that was not finished."""
        with open(self.path, "ab") as file:
            file.write(b"datagram 30")

    def fresh(self, call: str) -> None:
        """A fresh journal whose old one cannot be put aside: the old one stays, and goes on."""
        before = self.path.read_bytes()
        front_end = self.trial.sign(
            "--journal", str(self.path), "--fresh", environment=refusing(self.library, self.path, call, 1, errno.EIO)
        )
        is_well = (
            front_end.ended() == 2
            and b"Input/output error" in front_end.errors
            and b"Traceback" not in front_end.errors
        )
        self.trial.holds(f"--fresh, {call} refused: it ends and says why", is_well, front_end.errors.decode())
        self.trial.holds(f"--fresh, {call} refused: the old journal stays", self.path.read_bytes() == before)
        self.forget(front_end, stops=False)
        self.after(f"--fresh, {call} refused")

    def ask(self, front_end: FrontEnd) -> list[bool]:
        """Whether each of several SETs was answered."""
        manager = Manager(front_end.port)
        answered: list[bool] = []
        while len(answered) < _SETS or not answered[-1] and not _is_ending(front_end) and len(answered) < 2 * _SETS:
            octets = manager.request(wire.SET, self.changes.counter())
            answered.append(self.follower.surely(manager, octets, lambda: _is_ending(front_end)))
        manager.close()
        return answered

    def after(self, name: str) -> None:
        """A life without a fault: what it finds, and SETs that are answered."""
        Faults.lives += 1
        front_end = self.trial.sign(*self.words, "--no-ticks")
        if self.trial.holds(f"after {name}: it starts", front_end.port != 0, front_end.errors.decode()):
            manager = Manager(front_end.port)
            self.follower.catch_up(self.trial, f"after {name}")
            self.follower.compare(self.trial, f"after {name}", manager)
            manager.close()
            self.trial.holds(f"after {name}: SETs are answered", all(self.ask(front_end)), front_end.errors.decode())
        self.forget(front_end, stops=True)

    def forget(self, front_end: FrontEnd, stops: bool) -> None:
        """Ends a life."""
        if stops:
            front_end.stop()
        front_end.forget()
        self.trial.front_ends.remove(front_end)


def _each(trial: Trial, library: pathlib.Path, faults: Faults, most: int) -> None:
    """Each call of each kind in turn, as long as there is one more: over a journal that goes on, and over new ones."""
    for call, error, more in LIVES:
        for at in range(1, most):
            if call in ("ftruncate", "fsync"):
                faults.tear()
            if trial.is_late() or not faults.life(call, at, error, **more):
                break
    for call, error, more in LIVES:
        for at in range(1, most):
            if trial.is_late() or not Faults(trial, library).life(call, at, error, **more):
                break


def some(trial: Trial, faults: Faults) -> None:
    """The first calls of those that a life makes at each datagram, and others once."""
    for at in range(1, 4):
        for call, error, more in (LIVES[0], LIVES[1], LIVES[4]):
            if not trial.is_late():
                faults.life(call, at, error, **more)
    for call, error, more in (LIVES[3], LIVES[5], LIVES[7], LIVES[8]):
        if not trial.is_late():
            faults.life(call, 3 if call == "write" else 1, error, **more)


def run(trial: Trial) -> None:
    """Each call in turn."""
    library = built(trial)
    if library is None:
        return
    faults = Faults(trial, library)
    if trial.is_short:
        some(trial, faults)
    else:
        _each(trial, library, faults, MOST_CALLS)
    for call in ("link", "rename") if trial.is_ours("--fresh with a disk that refuses") else ():
        if not trial.is_late():
            faults.fresh(call)
    print(f"faults of the disk: {Faults.lives}", flush=True)
