"""What a sign's front end does in the place of firmware: it publishes the objects of a file, keeps the times among
them, reads the file again where it is told to, and tells what managers set."""

from __future__ import annotations

import signal
import time
from collections.abc import Callable
from typing import Any

from wisangub.objects.lines import Object, dotted
from wisangub.objects.listed import Listed, at_line, read, refused_by
from wisangub.output import LOG
from wisangub.process.coprocess import CoProcess
from wisangub.refusal import Refusal
from wisangub.snmp import wire

from .clock import running
from .log import Log
from .printing import PRINTED
from .states import Sets, set_lines

_NO_LINE = "the program has no line `%s`, which --objects needs"
_SET = b"set "


class Firmware:
    """The objects of a file, of which the front end has a sign. `trial` begins another process of the sign, which is
    asked whether it takes the objects of a file that is read again. `sets` are the values that managers set last, which
    a journal keeps where it is shortened."""

    def __init__(self, path: str, trial: Callable[[], CoProcess], log: Log | None, is_quiet: bool) -> None:
        self.listed, self.trial, self.log, self.is_quiet = read(path), trial, log, is_quiet
        self.sets: Sets = {}
        self.begun = self.told = running()
        self.is_to_read = False
        again: Callable[..., None] = self.again
        signal.signal(signal.SIGHUP, again)

    def again(self, *_: Any) -> None:
        """A SIGHUP came: the file is read again between two steps."""
        self.is_to_read = True

    def moment(self) -> tuple[float, float]:
        """The seconds since the start, and since 1970."""
        return running() - self.begun, time.time()

    def publish(self, sign: CoProcess) -> None:
        """Hands all over to a new process; raises Refusal where it does not take it whole. What managers set before the
        journal was shortened is so again where an object takes it, and is told; what none takes now is kept."""
        _publish_all(sign, self.listed, self.listed.published(*self.moment()))
        lines = set_lines(self.sets)
        for answer in sign.hand(lines) if lines else ():
            if answer != b"ok" and not answer.startswith(b"refused "):
                raise Refusal(_NO_LINE % "set")

    def lines(self) -> list[bytes]:
        """The lines that publish all of it, each of which is answered `ok`."""
        fonts = [b"fonts"] if self.listed.fonts is not None else []
        return fonts + [one.line() for one in self.listed.published(*self.moment()).values()]

    def keep_time(self, sign: CoProcess) -> None:
        """The times are those of now, to a second: what is handed over next may ask for them."""
        if self.listed.times and running() >= self.told + 1:
            self.told = running()
            moment = self.moment()
            sign.hand([Object(name, one.value(*moment)).line() for name, one in self.listed.times.items()])

    def turn(self, sign: CoProcess) -> None:
        """Reads the file again, where that is asked for; where it is at fault all stays as it was."""
        if not self.is_to_read:
            return
        self.is_to_read = False
        try:
            self.exchange(sign, self.tried())
        except Refusal as refused:
            LOG.info(f"{refused}: the objects stay as they were")
            self.event("objects refused", {"why": str(refused)})

    def tried(self) -> Listed:
        """What the file has now, which another process of this sign took whole."""
        listed = read(self.listed.path)
        if (listed.fonts is None) != (self.listed.fonts is None):
            line = listed.fonts or self.listed.fonts or 0
            raise at_line(listed.path, line, "whether fonts can be read is settled at a start")
        other = self.trial()
        try:
            _publish_all(other, listed, listed.published(*self.moment()))
        finally:
            other.end()
        return listed

    def exchange(self, sign: CoProcess, listed: Listed) -> None:
        """Withdraws what the file has no more, and publishes what is new or other there. What is the same stays, with
        what managers set."""
        before, now = self.listed, listed.published(*self.moment())
        gone = [name for name in before.places if name not in now]
        some = [one for name, one in now.items() if name in listed.times or before.objects.get(name) != one]
        if gone:
            sign.hand([f"no-object {dotted(name)}".encode() for name in gone])
        self.listed = listed
        _publish(sign, listed, some)
        LOG.info(f"{listed.path}: {len(some)} objects are published, {len(gone)} are withdrawn")
        self.event("objects", {"published": len(some), "withdrawn": len(gone)})

    def tell(self, sign: CoProcess) -> None:
        """Tells what managers set since this was last asked; at first what they set since the journal began."""
        for answer in sign.ask(b"objects")[:-1]:
            name, _, value = answer.removeprefix(_SET).partition(b" ")
            self.sets[name] = value
            if not self.is_quiet:
                PRINTED.print(answer.decode())
            self.event("set", {"object": name.decode(), "value": value.decode()})

    def event(self, event: str, fields: dict[str, object]) -> None:
        """An event of the log."""
        if self.log:
            self.log.event(event, None, fields)


def _publish_all(sign: CoProcess, listed: Listed, objects: dict[wire.Name, Object]) -> None:
    """Fonts, where they are wanted, and all objects."""
    if sign.ask(b"objects") != [b"ok"]:
        raise Refusal(_NO_LINE % "object")
    if listed.fonts is not None and sign.ask(b"fonts") != [b"ok"]:
        raise at_line(listed.path, listed.fonts, _NO_LINE % "fonts")
    _publish(sign, listed, list(objects.values()))


def _publish(sign: CoProcess, listed: Listed, objects: list[Object]) -> None:
    """Publishes objects; raises Refusal for the first that the process refuses."""
    if not objects:
        return
    for one, answer in zip(objects, sign.hand([one.line() for one in objects])):
        if answer != b"ok":
            raise refused_by(listed, one.name, answer)
