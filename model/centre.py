"""The central system: commands, requests, replies, ticks and the ledger."""

from dataclasses import dataclass
from typing import Any

from . import wire
from .codes import BLANK, CHANGEABLE, VOLATILE, Activation, MessageId, checksum
from .objects import DMS

_BUSY, _NO_NUMBER, _BAD_COMMAND = "a job is not done yet", "no request number is left", "a value is out of its range: "
_ODD, _OTHER_CHECKSUM, _STILL_VALIDATING, _NO_REPLY, _RESTARTED = (
    "the reply does not answer what was asked",
    "the row has another checksum",
    "the row is still being validated",
    "no reply",
    "the central system was restarted",
)
_LAST_NUMBER = 2_147_483_647
POLLS, _SENDS, PATIENCE = 10, 3, 3
_Publication = tuple[int, int, bytes, bytes, int, int, int]  # memory, number, text, owner, beacon, pixel, priority


@dataclass
class Job:
    step: int
    code: Activation
    publication: _Publication | None = None
    polls: int = 0
    due: bool = False  # the step's request goes out at the next tick


@dataclass
class Waiting:
    """The request that waits for its reply."""

    number: int
    octets: bytes
    name: wire.Name  # of the first binding
    age: int = 0
    sends: int = 1


class Centre:
    """A central system of one sign: a job at a time, requests, and the ledger of activations."""

    def __init__(self, community: bytes, swapped: bool, first: int) -> None:
        self.community, self.swapped, self.next = community, swapped, first
        self.job: Job | None = None
        self.waiting: Waiting | None = None
        self.ledger: list[tuple[int, Activation, str]] = []  # number, code, outcome
        self.last: str | None = None  # how the last job ended, in words
        self.refusal: str | None = None  # why the last command was refused, in words

    def command(self, event: tuple[str, Any]) -> bytes | None:
        """What goes out for a command; a refused one changes nothing."""
        kind, held = event
        self.refusal = _BUSY if self.job is not None else _NO_NUMBER if self.next > _LAST_NUMBER else None
        if self.refusal is not None:
            return None
        if bad := _bad_value(kind, held):
            self.refusal = _BAD_COMMAND + bad
            return None
        self.job = job = asked(kind, held)
        return self.send(job)

    def send(self, job: Job) -> bytes | None:
        """The request of the job's step, under a new number."""
        if self.next > _LAST_NUMBER:
            return self.fail(job, _NO_NUMBER)
        kind, bindings = request(job, self.swapped)
        number, self.next = self.next, self.next + 1
        if job.step == 7:
            self.ledger.append((number, job.code, "waiting"))
        job.due = False
        octets = wire.written(wire.Message(kind, self.community, number, 0, 0, bindings))
        self.waiting = Waiting(number, octets, bindings[0][0])
        return octets

    def end(self, how: str) -> bytes | None:
        """Ends the job; nothing goes out."""
        self.last = how
        self.job = self.waiting = None
        return None

    def fail(self, job: Job, why: str, step: int | None = None) -> bytes | None:
        return self.end(f"failed at step {step or job.step}: {why}")

    def enter(self, number: int, outcome: str) -> None:
        self.ledger = [(at, code, outcome if at == number else before) for at, code, before in self.ledger]

    def receive(self, octets: bytes) -> bytes | None:
        """What goes out with a reply."""
        message = wire.spelled(octets)
        if self.job is None or self.waiting is None or message is None:
            return None
        waiting = self.waiting
        if (message.kind, message.community, message.number) != (wire.RESPONSE, self.community, waiting.number):
            return None
        self.waiting = None
        return self.replied(self.job, message, waiting)

    def replied(self, job: Job, message: wire.Message, waiting: Waiting) -> bytes | None:
        """What goes out with the reply that was waited for."""
        if job.step == 7:
            return self.decided(job, message)
        if message.status != wire.NO_ERROR:
            return self.fail(job, f"error-status {message.status}")
        if job.step in (1, 3, 4):
            job.step += 1
            return self.send(job)
        if len(message.bindings) != 1:
            return self.fail(job, _ODD)
        name, (tag, held) = message.bindings[0]
        if name != waiting.name or tag != wire.INTEGER:
            return self.fail(job, _ODD)
        if job.step == 8:
            return self.fail(job, f"the sign refused the activation for cause {held}", 7)
        if job.step == 2:
            if held != 2:
                return self.fail(job, f"the row has status {held}")
            job.step = 3
            return self.send(job)
        return self.polled(job, held) if job.step == 5 else self.summed(job, held)

    def decided(self, job: Job, message: wire.Message) -> bytes | None:
        """What goes out with the reply to an activation."""
        if message.status == wire.NO_ERROR:
            self.enter(message.number, "accepted")
            return self.end("accepted")
        self.enter(message.number, f"refused {message.status}")
        job.step = 8
        return self.send(job)

    def polled(self, job: Job, status: int) -> bytes | None:
        """What goes out with the status of a row that is being validated."""
        if status == 4:
            job.step = 6
            return self.send(job)
        job.polls += 1
        if status != 3:
            return self.fail(job, f"the row has status {status}")
        if job.polls == POLLS:
            return self.fail(job, _STILL_VALIDATING)
        job.due = True
        return None

    def summed(self, job: Job, held: int) -> bytes | None:
        """What goes out with a row's checksum."""
        crc = job.code.id.crc
        if self.swapped:
            crc = int.from_bytes(crc.to_bytes(2, "little"), "big")
        if held != crc:
            return self.fail(job, _OTHER_CHECKSUM)
        job.step, job.due = 7, True
        return None

    def tick(self) -> bytes | None:
        """What goes out at a tick."""
        job, waiting = self.job, self.waiting
        if job is None:
            return None
        if job.due:
            return self.send(job)
        assert waiting is not None
        if waiting.age + 1 < PATIENCE:
            waiting.age += 1
            return None
        if waiting.sends < _SENDS:
            waiting.age, waiting.sends = 0, waiting.sends + 1
            return waiting.octets
        if job.step == 7:
            self.enter(waiting.number, "noreply")
        return self.fail(job, _NO_REPLY)

    def restart(self) -> None:
        """The process is gone and there again: what waited is unknown, and a job is over."""
        if self.job is not None:
            if self.waiting is not None and self.job.step == 7:
                self.enter(self.waiting.number, "unknown")
            self.fail(self.job, _RESTARTED)


def _bad_value(kind: str, held: Any) -> str | None:
    """The first value of a command that is out of its range, by its word in the form of the line."""
    if kind == "publish":
        memory, number, text, owner, beacon, pixel, run, *_ = held
        good = {
            "MEMORY": memory in (CHANGEABLE, VOLATILE),
            "NUMBER": number > 0,
            "TEXT": len(text) <= 512,
            "OWNER": len(owner) <= 127,
            "BEACON": beacon <= 1,
            "PIXEL": pixel <= 1,
            "RUN": run > 0,
        }
        return next((name for name, is_good in good.items() if not is_good), None)
    return "NUMBER" if kind == "blank" and not 1 <= held[0] <= 255 else None


def asked(kind: str, held: Any) -> Job:
    """The job of a command whose values are in their ranges."""
    if kind == "publish":
        memory, number, text, owner, beacon, pixel, run, minutes, priority, address = held
        code = Activation(minutes, priority, MessageId(memory, number, checksum(text, beacon, pixel)), address)
        return Job(1, code, (memory, number, text, owner, beacon, pixel, run))
    if kind == "blank":
        number, minutes, priority, address = held
        return Job(7, Activation(minutes, priority, MessageId(BLANK, number, 0), address))
    return Job(7, held)


def request(job: Job, swapped: bool) -> tuple[int, list[wire.Binding]]:
    """The kind and the bindings of a step's request."""
    if job.step == 7:
        return wire.SET, [(DMS + (6, 3, 0), (wire.OCTETS, job.code.octets(swapped)))]
    if job.step == 8:
        return wire.GET, [(DMS + (6, 17, 0), (wire.NULL, b""))]
    assert job.publication is not None
    memory, number, text, owner, beacon, pixel, run = job.publication

    def cell(column: int) -> wire.Name:
        return DMS + (5, 8, 1, column, memory, number)

    if job.step in (1, 4):
        return wire.SET, [(cell(9), (wire.INTEGER, 6 if job.step == 1 else 7))]
    if job.step == 3:
        return wire.SET, [
            (cell(3), (wire.OCTETS, text)),
            (cell(4), (wire.OCTETS, owner)),
            (cell(6), (wire.INTEGER, beacon)),
            (cell(7), (wire.INTEGER, pixel)),
            (cell(8), (wire.INTEGER, run)),
        ]
    return wire.GET, [(cell(5 if job.step == 6 else 9), (wire.NULL, b""))]
