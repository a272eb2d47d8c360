"""Where a command is: the eight steps of a publication."""

from dataclasses import dataclass

from wisangub.endpoint.endings import STEPS, cause, failed
from wisangub.room.store.queries import CommandView

from .words import asked

_ACTIVATION, _WHY = 7, 8


@dataclass(frozen=True)
class Step:
    """`state`: done, now, failed, left (not reached), or none (not needed)."""

    number: int
    word: str
    state: str


def states(command: CommandView) -> list[Step]:
    """The eight steps of a command."""
    first = 1 if asked(command.line).kind == "publish" else _ACTIVATION
    found = failed(command.how or "")
    at = found[0] if found else command.step if command.number is not None and command.how is None else None
    made = []
    for number, word in enumerate(STEPS, 1):
        if number < first:
            state = "none"
        elif command.how == "accepted":
            state = "done" if number <= _ACTIVATION else "none"
        elif at is None:
            state = "left" if number < _WHY else "none"
        elif found:
            state = _failed_state(number, at, found[1])
        else:
            state = "done" if number < at else "now" if number == at else "left" if number < _WHY else "none"
        made.append(Step(number, word, "failed" if state == "done" and at == _WHY and number == _ACTIVATION else state))
    return made


def because(command: CommandView) -> str:
    """What the sign said of a command that failed, or what may be the cause."""
    return command.why or cause(command.how or "", command.address)


def _failed_state(number: int, at: int, why: str) -> str:
    """A step's state where the command failed at a step."""
    if number == at:
        return "failed"
    if number == _WHY:
        return "done" if at == _ACTIVATION and "refused the activation" in why else "none"
    return "done" if number < at else "left"
