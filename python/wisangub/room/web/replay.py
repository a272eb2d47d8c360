"""What a sign's centre sent, from its lines: a centre is decided by them, and by the description of its sign, and the
program is handed them again."""

from dataclasses import dataclass

from wisangub.endpoint.records import Head
from wisangub.process import description
from wisangub.process.coprocess import CoProcess
from wisangub.room.fleet import Sign
from wisangub.room.store.history import Line

_SENT = b"send "


@dataclass(frozen=True)
class Handed:
    """A line that a centre was handed, and what it sent."""

    number: int
    line: str
    at: float
    sent: bytes | None


def head_of(sign: Sign, lines: list[Line]) -> Head | None:
    """Which centre the lines are of; None where the first does not say it, or it went by another description of the
    sign, or by other rules."""
    head = Head.of(lines[0][1].encode()) if lines else None
    return None if head is None or head != Head("centre", sign.digest, head.first) else head


def replayed(program: str, sign: Sign, lines: list[Line]) -> list[Handed]:
    """The lines of one centre, each with what went out for it, as far as it is known. Raises Refusal or OSError where
    the program does not answer."""
    head = head_of(sign, lines)
    if head is None or head.first is None:
        return [Handed(*line, None) for line in lines]
    answers = [b"", *_answered(program, sign, head.first, [line.encode() for _, line, _ in lines[1:]])]
    return [Handed(*line, _sent_of(answer)) for line, answer in zip(lines, answers)]


def _answered(program: str, sign: Sign, first: int, lines: list[bytes]) -> list[bytes]:
    """What a centre that begins with this number answers to lines."""
    if not lines:
        return []
    centre = CoProcess(program, ["centre"], description.with_first(sign.text, first))
    try:
        centre.begin(b"status last", sign.name)
        return centre.hand(lines)
    finally:
        centre.end()


def _sent_of(answer: bytes) -> bytes | None:
    """The octets that an answer says; none where nothing went out."""
    return bytes.fromhex(answer.removeprefix(_SENT).decode()) if answer.startswith(_SENT) else None
