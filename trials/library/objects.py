"""Objects beside a sign's in C: examples/dimming.c, and examples/signd.c with a file of objects, whose faults are those
that wisangub-sign tells."""

from __future__ import annotations

import os
import pathlib
import random
import signal
import time
from collections.abc import Callable

from model import text, wire
from trials.agents import Firmware
from wisangub.objects import listed
from wisangub.refusal import Refusal

from .front_ends import MOST_REPLY, FrontEnd
from .trial import TOP, Trial

_BENCH = str(TOP / "signs/bench.sign")
_SIGN = text.bench()
_DMS = (1, 3, 6, 1, 4, 1, 1206, 4, 2, 3)
_CONTROL, LEVEL, _CELL, _NOW = (*_DMS, 7, 1, 0), (*_DMS, 7, 6, 0), (*_DMS, 7, 3, 0), (*_DMS, 7, 5, 0)
_COLDEST, _WARMEST = (*_DMS, 9, 9, 1, 0), (*_DMS, 9, 9, 2, 0)
_DESCR, _UPTIME, _CLOCK = (1, 3, 6, 1, 2, 1, 1, 1, 0), (1, 3, 6, 1, 2, 1, 1, 3, 0), (1, 3, 7)
_FAULTS = (
    "objects",
    "object",
    "object 1",
    "object sysDescr.0 NULL",
    "object 1.40 NULL",
    "object 3.1 NULL",
    "object 2.4294967216 NULL",
    "object 1.3.4294967296 NULL",
    "object 1.3.01234567890 NULL",
    "object 1.3. NULL",
    f"object {'1.' * 128}1 NULL",
    "object 1.3",
    "object 1.3 OCTET",
    "object 1.3 INTEGER",
    "object 1.3 OCTET STRING",
    "object 1.3 INTEGER 4294967296",
    "object 1.3 INTEGER -2147483649",
    "object 1.3 INTEGER 1x",
    "object 1.3 INTEGER -",
    "object 1.3 INTEGER 00000000001",
    "object 1.3 Gauge -1",
    "object 1.3 Counter -0",
    "object 1.3 OCTET STRING 123",
    "object 1.3 Opaque -1",
    "object 1.3 IpAddress 1.2.3.256",
    "object 1.3 IpAddress 1.2.3",
    "object 1.3 IpAddress 1.2.3.4.5",
    "object 1.3 INTEGER 3 number 0",
    "object 1.3 INTEGER 3 number 0 9 9",
    "object 1.3 INTEGER 3 number 4 9",
    "object 1.3 INTEGER 3 octets 0 9",
    "object 1.3 NULL number 0 9",
    "object 1.3 OCTET STRING 00 octets 2 9",
    "object 1.3 OCTET STRING - octets 0 65536",
    "object 1.3 INTEGER 3 numbers 0 9",
    "object  1.3 NULL",
    " object 1.3 NULL",
    "object 1.3 NULL ",
    "object 1.3 OCTET STRING \xe4",
    f"object 1.3 OCTET STRING {'41' * 40_000}",
    "uptime 1.3.6.1",
    "object 1.3.6.1 NULL",
    "uptime",
    "clock 1.3 1.4",
    "fonts 1",
)


def _refusal(path: pathlib.Path) -> str | None:
    """Why the front end in Python refuses a file, None where it does not."""
    try:
        listed.read(str(path))
    except Refusal as refused:
        return str(refused)
    return None


def _faults(trial: Trial) -> None:
    """signd tells the first fault of a file as wisangub-sign does, and ends with status 2."""
    path, chance = trial.folder / "faulty.objects", random.Random(trial.chance.random())
    lines = [*_FAULTS, *Firmware(chance, False).published(150)]
    tried = 0
    for line in lines:
        path.write_bytes(f"# a file\r\n\nobject 1.3.6.1 INTEGER 3\n{line}\nobject\n".encode("latin-1"))
        wanted = _refusal(path)
        assert wanted is not None
        status, said = trial.ran(trial.called(trial.way, "signd", "--port", "0", "--objects", str(path), _BENCH))
        trial.same(f"objects: {line[:60]}", (status, said), (2, wanted + "\n"))
        tried += "line 4" in wanted
    trial.check("objects: lines at fault", tried > len(_FAULTS) - 2, tried)
    for octets, why in (
        (b"fonts\nfonts\n", "line 2: line 1 is the same"),
        (b"object 1.3.6.1.4.1.1206.4.2.3.3.1.0 NULL\nfonts\n", "line 1: the sign has an object of this name: "),
        (b"object 1.3.6.1.4.1.1206.4.2.3.2.3.0 NULL", "line 1: the sign has an object of this name: "),
        (b"#" * 1_048_577, "more than 1048576 octets"),
    ):
        path.write_bytes(octets)
        status, said = trial.ran(trial.called(trial.way, "signd", "--port", "0", "--objects", str(path), _BENCH))
        trial.check(f"objects: {why}", status == 2 and f"{path}: {why}" in said, (status, said))
    path.unlink()
    status, said = trial.ran(trial.called(trial.way, "signd", "--port", "0", "--objects", str(path), _BENCH))
    trial.same("objects: no file", (status, said), (2, f"{path}: No such file or directory\n"))


class Manager:
    """One who asks a front end."""

    def __init__(self, front_end: FrontEnd) -> None:
        self.front_end, self.number, self.output = front_end, 0, front_end.more

    def asked(self, kind: int, community: bytes, bindings: list[wire.Binding]) -> wire.Message | None:
        self.number += 1
        octets = wire.written(wire.Message(kind, community, self.number, 0, 0, bindings))
        return wire.spelled(bytes.fromhex(self.front_end.ask(octets.hex())))

    def value(self, name: wire.Name, kind: int = wire.GET) -> wire.Binding | None:
        """What a Get of a name, or a GetNext, answers; None where it is refused."""
        reply = self.asked(kind, _SIGN.reader, [(name, (wire.NULL, b""))])
        return reply.bindings[0] if reply is not None and reply.status == 0 else None

    def set(self, name: wire.Name, value: wire.Tagged, community: bytes = _SIGN.writer) -> int | None:
        """The error-status of a SET."""
        reply = self.asked(wire.SET, community, [(name, value)])
        return None if reply is None else reply.status

    def told(self, count: int) -> list[str]:
        """The lines that were printed behind the first one, once there are so many."""

        def read() -> bool:
            assert self.front_end.process.stdout is not None
            self.output += self.front_end.process.stdout.read() or b""
            return self.output.count(b"\n") >= count

        eventually(read)
        return self.output.decode().splitlines()


def eventually(is_so: Callable[[], bool]) -> bool:
    """Whether something holds within the time that a reply may take."""
    last = time.monotonic() + MOST_REPLY
    while not is_so() and time.monotonic() < last:
        time.sleep(0.02)
    return is_so()


def written_file(path: pathlib.Path, *lines: str) -> None:
    new = path.with_suffix(".new")
    new.write_text("".join(f"{line}\n" for line in lines), encoding="ascii")
    os.replace(new, path)


def _served(trial: Trial) -> None:
    """A file's objects are read, walked over and set beside the sign's, told, and exchanged at a SIGHUP."""
    path = trial.folder / "some.objects"
    level = "object 1.3.6.1.4.1.1206.4.2.3.7.6.0 INTEGER 3 number 0 15"
    descr = "object 1.3.6.1.2.1.1.1.0 OCTET STRING 41"
    contact = "object 1.3.6.1.2.1.1.4.0 OCTET STRING - octets 0 9"
    written_file(path, "# some", level, descr, contact, "uptime 1.3.6.1.2.1.1.3.0", "clock 1.3.7")
    front_end = FrontEnd(trial, "signd", None, "--objects", str(path))
    manager = Manager(front_end)
    trial.same("objects: a Get", manager.value(_DESCR), (_DESCR, (wire.OCTETS, b"A")))
    trial.same("objects: the walk begins", manager.value((1, 3), wire.GET_NEXT), (_DESCR, (wire.OCTETS, b"A")))
    before = manager.value(_UPTIME)
    clock = manager.value(_CLOCK)
    is_now = clock is not None and clock[1][0] == wire.COUNTER and abs(int(clock[1][1]) - time.time()) < 60
    trial.check("objects: the clock", is_now, clock)
    found = [manager.set(LEVEL, (wire.INTEGER, number)) for number in (16, 15, 9)]
    found += [manager.set(LEVEL, (wire.INTEGER, 4), _SIGN.reader), manager.set(_DESCR, (wire.OCTETS, b"B"))]
    found.append(manager.set((*_DESCR[:-2], 4, 0), (wire.OCTETS, b"\x00\xff")))
    trial.same("objects: SETs", found, [3, 0, 0, 2, 2, 0])
    lines = [f"set {'.'.join(map(str, LEVEL))} INTEGER {number}" for number in (15, 9)]
    lines.append("set 1.3.6.1.2.1.1.4.0 OCTET STRING 00ff")
    trial.same("objects: what was set is printed", manager.told(3), lines)
    written_file(
        path, level, "object 1.3.6.1.2.1.1.1.0 OCTET STRING 42", "object 1.3.8 Gauge 7", "uptime 1.3.6.1.2.1.1.3.0"
    )
    front_end.process.send_signal(signal.SIGHUP)
    is_another = eventually(lambda: manager.value(_DESCR) == (_DESCR, (wire.OCTETS, b"B")))
    trial.check("objects: a SIGHUP", is_another, manager.value(_DESCR))
    kept = (manager.value(LEVEL), manager.value(_CLOCK), manager.value((1, 3, 8)))
    trial.same("objects: what was exchanged", kept, ((LEVEL, (wire.INTEGER, 9)), None, ((1, 3, 8), (wire.GAUGE, 7))))
    after = manager.value(_UPTIME)
    is_later = eventually(lambda: (manager.value(_UPTIME) or before) != before)
    trial.check("objects: the time since the start", is_later, (before, after))
    written_file(path, "object 1.3.8 Gauge 8", "object")
    front_end.process.send_signal(signal.SIGHUP)
    time.sleep(0.3)
    trial.same("objects: a faulty file changes nothing", manager.value((1, 3, 8)), ((1, 3, 8), (wire.GAUGE, 7)))
    status, said = front_end.end()
    wanted = f"{path}: 3 objects are published, 2 are withdrawn\n"
    wanted += f"{path}: line 2: the line ends where a name is wanted: the objects stay as they were\n"
    trial.same("objects: signd ends", (status, said.removeprefix("nothing is kept: no --journal\n")), (0, wanted))


def _with_fonts(trial: Trial) -> None:
    """The objects of the sign's fonts are read where the file says so at the start."""
    path, count = trial.folder / "fonts.objects", (*_DMS, 3, 1, 0)
    written_file(path, "object 1.3.8 Gauge 7", "fonts")
    front_end = FrontEnd(trial, "signd", None, "--objects", str(path))
    manager = Manager(front_end)
    found = [manager.value(count), manager.value((*_DMS, 3), wire.GET_NEXT)]
    trial.same("objects: fonts", found, [(count, (wire.INTEGER, len(_SIGN.face.fonts)))] * 2)
    trial.same("objects: fonts are not set", manager.set(count, (wire.INTEGER, 1)), 2)
    written_file(path, "object 1.3.8 Gauge 8")
    front_end.process.send_signal(signal.SIGHUP)
    time.sleep(0.3)
    trial.same("objects: fonts are settled", manager.value((1, 3, 8)), ((1, 3, 8), (wire.GAUGE, 7)))
    status, said = front_end.end()
    wanted = f"{path}: line 2: whether fonts can be read is settled at a start: the objects stay as they were\n"
    trial.same("objects: fonts, the end", (status, said.removeprefix("nothing is kept: no --journal\n")), (0, wanted))


def _journalled(trial: Trial) -> None:
    """What managers set is there again after a start, and is told again."""
    path, journal = trial.folder / "more.objects", trial.folder / "objects.journal"
    written_file(path, "object 1.3.6.1.4.1.1206.4.2.3.7.6.0 INTEGER 3 number 0 15")
    for number in (7, 8):
        front_end = FrontEnd(trial, "signd", journal, "--objects", str(path))
        manager = Manager(front_end)
        if number > 7:
            trial.same("objects: told again", manager.told(1), [f"set {'.'.join(map(str, LEVEL))} INTEGER 7"])
            trial.same("objects: there again", manager.value(LEVEL), (LEVEL, (wire.INTEGER, 7)))
        trial.same("objects: a SET is recorded", manager.set(LEVEL, (wire.INTEGER, number)), 0)
        status, said = front_end.end(signal.SIGKILL)
        trial.check("objects: no fault", status == -signal.SIGKILL and "rror" not in said, (status, said))


def _dimmed(trial: Trial) -> None:
    """examples/dimming.c makes a dimming value of the level that a manager sets, and publishes what it measures."""
    both: list[wire.Binding] = [(_CONTROL, (wire.INTEGER, 4)), (LEVEL, (wire.INTEGER, 8))]
    null = (wire.NULL, b"")
    asked = [
        wire.Message(wire.SET, _SIGN.writer, 1, 0, 0, both),
        wire.Message(wire.GET, _SIGN.reader, 2, 0, 0, [(name, null) for name in (_CELL, _NOW, _COLDEST, _WARMEST)]),
        wire.Message(wire.SET, _SIGN.writer, 3, 0, 0, [(LEVEL, (wire.INTEGER, 16))]),
        wire.Message(wire.SET, _SIGN.reader, 4, 0, 0, [(LEVEL, (wire.INTEGER, 15))]),
    ]
    lines = ["", *(wire.written(one).hex() for one in asked), ""]
    status, said = trial.ran(trial.called(trial.way, "dimming", _BENCH), "".join(f"{line}\n" for line in lines))
    replies = [wire.spelled(bytes.fromhex(line)) for line in said.splitlines() if line[:2] == "30"]
    seconds = [line for line in said.splitlines() if line[:2] != "30"]
    shown = [(1, 100, 21, 1, 17)] + [(second, 100 * second, 20 + second, 8, 136) for second in range(2, 7)]
    wanted = [
        f"second {at} photocell {cell} cabinet 20 {warm} level {level} dimming {dimming}"
        for at, cell, warm, level, dimming in shown
    ]
    trial.same("dimming", (status, seconds), (0, wanted))
    answered = [reply and (reply.number, reply.status, reply.index) for reply in replies]
    trial.same("dimming: its replies", answered, [(1, 0, 0), (2, 0, 0), (3, 3, 1), (4, 2, 1)])
    values = [value for _, value in replies[1].bindings] if len(replies) > 1 and replies[1] else []
    trial.same("dimming: what is read", values, [(wire.INTEGER, number) for number in (300, 8, 20, 23)])


def run(trial: Trial) -> None:
    for part in (_dimmed, _served, _with_fonts, _journalled, _faults):
        if trial.left() > 0:
            part(trial)
        else:
            trial.skip(f"objects, {part.__name__}", "there was no time left for it")
