"""The log of examples/signd.c: a line an event; what a disk refuses is left out, and the sign goes on."""

from __future__ import annotations

import os
import pathlib
import re
import signal
import stat
import time

from model import codes, text, wire
from trials.front_ends.disks import Mounted

from .front_ends import MOST_REPLY, FrontEnd
from .strangers import WAIT, request
from .trial import TOP, Trial

_SIGN = text.bench()
_LINE = re.compile(r"\d{4}-\d\d-\d\dT\d\d:\d\d:\d\d\.\d{3}Z (-|127\.0\.0\.1:\d+|\[::1\]:\d+) ([a-z -]+?)( [0-9a-f]+)?")
_ACTIVATE = (1, 3, 6, 1, 4, 1, 1206, 4, 2, 3, 6, 3, 0)
_MOST_WAIT = 20.0  # seconds
_UNREAD = 1000  # datagrams whose lines are more than a pipe holds


def _events(path: pathlib.Path, trial: Trial) -> list[tuple[str, str]]:
    """What each line tells but for its time, and its octets or number."""
    found = []
    for line in path.read_text("ascii").splitlines():
        parts = _LINE.fullmatch(line)
        if trial.check("a line of the log", parts is not None, line) and parts:
            found.append((f"{'-' if parts[1] == '-' else 'peer'} {parts[2]}", (parts[3] or "").strip()))
    return found


def _awaited(path: pathlib.Path, words: str) -> None:
    """Waits until an event is there: a signal is heeded once the front end comes to it."""
    last = time.monotonic() + _MOST_WAIT
    while time.monotonic() < last and words not in path.read_text("ascii"):
        time.sleep(0.01)


def _told(trial: Trial) -> None:
    """Each event in its order."""
    path = trial.folder / "signd.log"
    words = ("--log", str(path), "--write-from", "192.0.2.1", "--no-ticks")
    front_end = FrontEnd(trial, "signd", None, *words)
    get, set_ = request(wire.GET, _SIGN.reader, 1).hex(), request(wire.SET, _SIGN.writer, 2).hex()
    reply = front_end.ask(get)
    front_end.socket.settimeout(WAIT)
    for octets in (set_, "00", "00" * 2000):
        front_end.ask(octets)
    front_end.socket.settimeout(MOST_REPLY)
    front_end.process.send_signal(signal.SIGUSR1)
    _awaited(path, "power-lost")
    front_end.process.send_signal(signal.SIGUSR2)
    _awaited(path, "power-back")
    trial.same("the log: signd ends", front_end.end()[0], 0)
    wanted = [("- start", ""), ("peer in", get), ("peer out", reply), ("peer not allowed", set_), ("peer in", "00")]
    wanted += [("peer dropped", ""), ("peer lost", ""), ("- power-lost", ""), ("- power-back", "0"), ("- end", "")]
    found = [("- power-back", "0") if name == "- power-back" else (name, value) for name, value in _events(path, trial)]
    trial.same("the log", found, wanted)
    trial.same("the log is its owner's", stat.S_IMODE(path.stat().st_mode), 0o600)


def _activation(number: int) -> str:
    """A SET that shows permanent row 1."""
    code = codes.Activation(65535, 255, codes.MessageId(2, 1, codes.checksum(b"B", 0, 0)), bytes(4))
    binding = (_ACTIVATE, (wire.OCTETS, code.octets(False)))
    return wire.written(wire.Message(wire.SET, _SIGN.writer, number, 0, 0, [binding])).hex()


def _pictures(trial: Trial) -> None:
    """A change of the picture is told; the same picture again is none."""
    path = trial.folder / "pictures.log"
    front_end = FrontEnd(trial, "signd", None, "--log", str(path), "--no-ticks")
    for number in range(3):
        trial.check("a picture is shown", bool(front_end.ask(_activation(number))))
    front_end.end()
    told = [event for event in _events(path, trial) if event[0].startswith("- picture")]
    trial.same("the log: pictures", told, [("- picture", "1")])


def _unwritten(trial: Trial) -> None:
    """A log that a disk refuses is told of once, and the sign goes on."""
    front_end = FrontEnd(trial, "signd", None, "--log", "/dev/full")
    for number in range(3):
        trial.check("no log: answered", bool(front_end.ask(request(wire.GET, _SIGN.reader, number).hex())))
    status, faults = front_end.end()
    trial.check("no log", status == 0 and faults.count("the log /dev/full is not written") == 1, faults)
    status, said = trial.ran(trial.called(trial.way, "signd", "--port", "0", "--log", str(trial.folder), "none.sign"))
    trial.check("a folder is no log", status == 1 and str(trial.folder) in said, said)


def _unread(trial: Trial) -> None:
    """A log that nobody takes, as of a pipe that is full, leaves events out, whole ones, and the sign goes on."""
    front_end = FrontEnd(trial, "signd", None, "--log", "-", "--no-ticks")
    asked = request(wire.GET, _SIGN.reader, 1).hex()
    answered = 0
    while answered < _UNREAD and front_end.ask(asked):
        answered += 1
    trial.same("a log that nobody takes: answered", answered, _UNREAD)
    assert front_end.process.stdout is not None
    found = front_end.more + (front_end.process.stdout.read() or b"")
    trial.check("and answered behind it", bool(front_end.ask(asked)))
    found += front_end.process.stdout.read() or b""
    lines = found.decode("ascii").splitlines()
    trial.check("its lines", all(map(_LINE.fullmatch, lines)) and len(lines) < 2 * _UNREAD, lines[-2:])
    status, faults = front_end.end()
    is_said = "the log - is not written: nobody takes its lines" in faults and "the log - is written again" in faults
    trial.check("it is said", status == 0 and is_said, faults)


def _waited_for(trial: Trial) -> None:
    """A pipe with a name is no log that a start waits for; one that somebody reads is taken."""
    path, sign = trial.folder / "log.pipe", str(TOP / "signs/bench.sign")
    os.mkfifo(path)
    words = trial.called(trial.way, "signd", "--port", "0", "--log", str(path), sign)
    trial.same("a log that nobody reads", trial.ran(words, seconds=_MOST_WAIT), (2, f"{path}: nobody reads it\n"))
    read = os.open(path, os.O_RDONLY | os.O_NONBLOCK)
    front_end = FrontEnd(trial, "signd", None, "--log", str(path), "--no-ticks")
    trial.same("a log that is read: signd ends", front_end.end()[0], 0)
    lines = os.read(read, 1000).decode("ascii").splitlines()
    trial.check("its lines", [line[25:] for line in lines] == ["- start", "- end"], lines)
    os.close(read)


def _as_it_stands(path: pathlib.Path) -> tuple[bytes, int] | None:
    """A file's octets and mode; None where there is none."""
    return (path.read_bytes(), path.stat().st_mode) if path.exists() else None


def _of_others(trial: Trial) -> None:
    """No log is a file that signd reads, a journal, which its lines would damage, or what takes a journal's place."""
    sign, journal, way = (trial.folder / name for name in ("log.sign", "log.journal", "log.way"))
    sign.write_bytes((TOP / "signs/bench.sign").read_bytes())
    way.symlink_to(trial.folder)
    for is_there in (False, True):
        for log, what in (
            (journal, "journal"),
            (way / journal.name, "journal"),
            (journal.with_name("log.journal.new"), "file beside the journal"),
            (trial.folder / "log.objects", "file of objects"),
            (sign, "description"),
        ):
            if is_there:
                log.touch(0o640)
            before = _as_it_stands(log)
            options = ("--journal", str(journal), "--objects", str(trial.folder / "log.objects"), "--log", str(log))
            found = trial.ran(trial.called(trial.way, "signd", "--port", "0", *options, str(sign)))
            trial.same(f"the log and the {what}", found, (2, f"{log} cannot be the log and the {what}\n"))
            trial.same(f"the {what} stays", _as_it_stands(log), before)


def _beside(trial: Trial) -> None:
    """Nothing that signd reads or writes is what takes a journal's place, or that of the file that a link leads to."""
    usual = TOP / "signs/bench.sign"
    (trial.folder / "one.link").symlink_to(trial.folder / "led.to")
    for journal, beside in (
        ("one.journal", "one.journal.new"),
        ("one.link", "led.to.new"),
        ("one.link", "one.link.new"),
    ):
        path = trial.folder / beside
        for what, option, sign in (
            ("log", "log", usual),
            ("file of objects", "objects", usual),
            ("description", "", path),
        ):
            path.write_bytes(usual.read_bytes())
            options = (f"--{option}", str(path)) if option else ()
            words = ("--port", "0", "--journal", str(trial.folder / journal), *options, str(sign))
            found = trial.ran(trial.called(trial.way, "signd", *words), seconds=_MOST_WAIT)
            said = f"{path} cannot be the {what} and the file beside the journal\n"
            trial.same(f"{beside} as the {what}", found, (2, said))
            trial.check(f"{beside} stays", path.read_bytes() == usual.read_bytes())


def _leaves_room(trial: Trial) -> None:
    """A log leaves what is left of a small disk to the journal."""
    mounted = Mounted(trial.folder / "mounted-log")
    try:
        if not mounted.is_there:
            trial.skip("a log on a small disk", "no file system can be mounted")
            return
        path = mounted.folder / "log"
        front_end = FrontEnd(trial, "signd", mounted.folder / "journal", "--log", str(path))
        for number in range(3):
            trial.check("a small disk: answered", bool(front_end.ask(request(wire.SET, _SIGN.writer, number).hex())))
        status, faults = front_end.end()
        is_said = faults.count(f"the log {path} is not written: its disk has less than 4 MB left") == 1
        trial.check("a log on a small disk", status == 0 and is_said and path.stat().st_size == 0, faults)
    finally:
        mounted.end()


def run(trial: Trial) -> None:
    _told(trial)
    _pictures(trial)
    _unwritten(trial)
    _unread(trial)
    _waited_for(trial)
    _of_others(trial)
    _beside(trial)
    _leaves_room(trial)
