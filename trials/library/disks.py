"""Disks of examples/signd.c that are full, can only be read, or take no larger file, and are written again."""

from __future__ import annotations

import pathlib
import resource
import signal
import time

from model import wire
from trials.front_ends.disks import Mounted

from . import records
from .front_ends import MOST_REPLY, FrontEnd
from .journals import MOMENT, head
from .strangers import SIGN, WAIT, request
from .trial import Trial

PAGE = 4096  # octets
_LEAST_START = 100  # of the records of a start
_MINUTE = 66  # seconds, and some
_CONTROL = (1, 3, 6, 1, 4, 1, 1206, 4, 2, 3, 6)
_TIME_COMM_LOSS = (*_CONTROL, 13, 0)
NAMES = [(*_CONTROL, number, 0) for number in (7, 5, 13, 17)]


def _sets(trial: Trial, name: str, front_end: FrontEnd, is_answered: bool) -> None:
    """A Get is answered, and a SET only where the disk takes it."""
    front_end.socket.settimeout(MOST_REPLY)
    trial.check(f"{name}: a Get is answered", bool(front_end.ask(request(wire.GET, SIGN.reader, 1).hex())))
    front_end.socket.settimeout(MOST_REPLY if is_answered else WAIT)
    found = [bool(front_end.ask(request(wire.SET, SIGN.writer, number).hex())) for number in range(2, 5)]
    trial.same(f"{name}: SETs are answered", found, [is_answered] * 3)


def refusing(trial: Trial, name: str, front_end: FrontEnd, why: str, is_kept: bool) -> None:
    """The disk refuses: Gets alone are answered, and what is lost is said."""
    if not trial.check(f"{name}: it starts", bool(front_end.said), front_end.end()[1] if not front_end.said else ""):
        return
    _sets(trial, name, front_end, False)
    if not is_kept:
        time.sleep(1.2)
        status, faults = front_end.end()
        trial.check(f"{name}: its status", status == 1, f"exit {status}: {faults}")
        trial.check(f"{name}: why is said", why in faults and "will be lost at the next start" in faults, faults)


def again(trial: Trial, name: str, front_end: FrontEnd, path: pathlib.Path) -> None:
    """The disk takes records again."""
    _sets(trial, name, front_end, True)
    status, faults = front_end.end()
    trial.check(f"{name}: it ends", status == 0 and "written again" in faults, f"exit {status}: {faults}")
    lines = records.lines_of(path.read_bytes())
    trial.check(f"{name}: it is recorded", sum(line.startswith(b"datagram ") for line in lines) >= 3, lines)


def _padded() -> bytes:
    """A journal whose last page has no room for a start."""
    lines = [head(), *MOMENT]
    while -len(octets := records.journal(lines)) % PAGE > _LEAST_START:
        lines.append(b"ticks 1")
    return octets


def _full(trial: Trial, mounted: Mounted, path: pathlib.Path) -> None:
    """A disk that is full at a start, of a new journal and of one that is there."""
    for name, octets in (("a new journal on a full disk", b""), ("a journal on a full disk", _padded())):
        path.write_bytes(octets)
        filler = mounted.fill()
        refusing(trial, name, FrontEnd(trial, "signd", path), "No space left on device", False)
        status, faults = FrontEnd(trial, "signd", path, "--need-journal").end()
        trial.check(f"{name}: needed", status == 1 and "No space left" in faults, f"exit {status}: {faults}")
        front_end = FrontEnd(trial, "signd", path)
        refusing(trial, f"{name}, for a while", front_end, "", True)
        filler.unlink()
        again(trial, f"{name}, with room again", front_end, path)


def _read_only(trial: Trial, mounted: Mounted, path: pathlib.Path) -> None:
    """A disk that can only be read at a start."""
    for place, name in ((path, "a disk to read"), (path.with_name("other"), "a disk to read, without a journal")):
        if not mounted.remount("ro"):
            trial.skip(name, "it cannot be mounted so")
            return
        refusing(trial, name, FrontEnd(trial, "signd", place), "Read-only file system", False)
        front_end = FrontEnd(trial, "signd", place)
        refusing(trial, f"{name}, for a while", front_end, "", True)
        mounted.remount("rw")
        again(trial, f"{name}, and written again", front_end, place)


def _limited(trial: Trial, path: pathlib.Path) -> None:
    """A limit on the size of files, as systemd has one, is a disk that refuses."""
    front_end = FrontEnd(trial, "signd", path)
    _sets(trial, "a limit on files: before it", front_end, True)
    size = path.stat().st_size
    for most, is_answered in ((size, False), (resource.RLIM_INFINITY, True)):
        resource.prlimit(front_end.process.pid, resource.RLIMIT_FSIZE, (most, resource.RLIM_INFINITY))
        _sets(trial, f"a limit on files, {most} octets", front_end, is_answered)
    status, faults = front_end.end()
    is_said = faults.count("File too large: what is not recorded is not answered") == 1 and "written again" in faults
    trial.check("a limit on files: it ends", status == 0 and is_said, f"exit {status}: {faults}")


def silent(trial: Trial, mounted: Mounted, path: pathlib.Path) -> None:
    """A silence on which the sign acts, and polls after it, while the disk takes no record: the next start has them."""
    if trial.is_short():
        trial.skip("a silence on a full disk", "it takes longer than a minute")
        return
    front_end = FrontEnd(trial, "signd", path)
    minute = wire.Message(wire.SET, SIGN.writer, 1, 0, 0, [(_TIME_COMM_LOSS, (wire.INTEGER, 1))])
    trial.check("a silence: its time is set", bool(front_end.ask(wire.written(minute).hex())))
    filler = mounted.fill()
    front_end.socket.settimeout(WAIT)
    while front_end.ask(request(wire.SET, SIGN.writer, 2).hex()):
        pass
    time.sleep(_MINUTE)
    for number in range(5):
        time.sleep(1)
        front_end.ask(request(wire.GET, SIGN.reader, number).hex())
    filler.unlink()
    _sets(trial, "a silence on a full disk", front_end, True)
    gets = [wire.written(wire.Message(wire.GET, SIGN.reader, 1, 0, 0, [(name, (wire.NULL, b""))])) for name in NAMES]
    before = [front_end.ask(octets.hex()) for octets in gets]
    trial.check("a silence on a full disk: the sign acted", before[0].endswith("02010c"), before)
    front_end.end(signal.SIGKILL)
    lines = records.lines_of(path.read_bytes())
    long = [line for line in lines if line.startswith(b"ticks ") and int(line[6:]) >= 60]
    trial.check("a silence is recorded", len(long) == 1, lines)
    front_end = FrontEnd(trial, "signd", path)
    trial.same("a silence on a full disk: what is read", [front_end.ask(octets.hex()) for octets in gets], before)
    front_end.end()


def run(trial: Trial) -> None:
    _limited(trial, trial.folder / "limited.journal")
    mounted = Mounted(trial.folder / "mounted")
    try:
        if not mounted.is_there:
            trial.skip("disks that refuse", "no file system can be mounted")
            return
        _full(trial, mounted, mounted.folder / "journal")
        _read_only(trial, mounted, mounted.folder / "journal")
        silent(trial, mounted, mounted.folder / "silent")
    finally:
        mounted.end()
