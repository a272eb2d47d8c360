"""A central system that goes on from the text of its state, or the first line for which it does not."""

import re

from . import wire
from .centre import Centre, Job, Waiting, asked, request
from .codes import CHANGEABLE, VOLATILE, Activation
from .state_text import Refused, StateText, address_of, code_of, number_of, octets_of

_LONG, _TIME, _OCTET, _LAST_NUMBER = 2**32 - 1, 65535, 255, 2**31 - 1
_MOST_TEXT, _MOST_OWNER, _CODE = 512, 127, 12
_MOST_SENDS, _MOST_TICKS, _MOST_POLLS = 3, 2, 9
_BY_TICKS, _SHOWING = (5, 7), (7, 8)  # steps whose request a tick sends, and those of a message that the sign has
_NUMBERED = ("error-status ", "the row has status ", "the sign refused the activation for cause ")
_REASONS = (
    "the row is still being validated",
    "the row has another checksum",
    "no reply",
    "no request number is left",
    "the reply does not answer what was asked",
    "the central system was restarted",
)
_OUTCOMES = ("accepted", "noreply", "unknown")


def _reported(word: str) -> str:
    """A number that a reply can report."""
    if not re.fullmatch(r"0|-?[1-9][0-9]{0,9}", word) or not -(2**31) <= int(word) <= _LONG:
        raise ValueError
    return word


def _last(words: list[bytes]) -> str | None:
    """How the last job ended."""
    text = b" ".join(words).decode("latin-1")
    if text in ("none", "accepted"):
        return None if text == "none" else text
    found = re.fullmatch(r"failed at step [1-8]: (.*)", text, re.DOTALL)
    if found is None:
        raise ValueError
    if found[1] not in _REASONS:
        begun = next((one for one in _NUMBERED if found[1].startswith(one)), None)
        if begun is None:
            raise ValueError
        _reported(found[1][len(begun) :])
    return text


def _publication(words: list[bytes]) -> Job:
    """The job of a message that is written first, as an operator commands it."""
    memory, number, text, owner, beacon, pixel, run, minutes, priority, address = words
    return asked(
        "publish",
        (
            number_of(memory, VOLATILE, CHANGEABLE),
            number_of(number, _TIME, 1),
            octets_of(text, _MOST_TEXT),
            octets_of(owner, _MOST_OWNER),
            number_of(beacon, 1),
            number_of(pixel, 1),
            number_of(run, _OCTET, 1),
            number_of(minutes, _TIME),
            number_of(priority, _OCTET),
            address_of(address),
        ),
    )


def _activation(word: bytes, swapped: bool) -> Activation:
    return Activation.of(code_of(word, _CODE), swapped)


def _phase(lines: StateText, number: int) -> str:
    """Whether a job is on; no request waits but under a number that it can have."""
    phases = ["idle", "awaits", "due"] if 0 <= number <= _LAST_NUMBER else ["idle", "due"]
    line = lines.lines[lines.at] if lines.at < len(lines.lines) else b""
    lines.at += 1
    for phase in phases:
        if line == phase.encode() + b"\n":
            return phase
    raise Refused(lines.at, f"{', '.join(phases[:-1])} or {phases[-1]} wanted")


def _waits(lines: StateText) -> tuple[int, int]:
    """How many times the request was sent, and the ticks since."""
    sends = lines.word("sends", f"a number from 1 to {_MOST_SENDS}", lambda word: number_of(word, _MOST_SENDS, 1))
    return sends, lines.number("ticks", _MOST_TICKS)


def _step(word: bytes, is_due: bool) -> int:
    step = number_of(word, 8, 1)
    if is_due and step not in _BY_TICKS:
        raise ValueError
    return step


def _job(lines: StateText, swapped: bool, is_due: bool) -> Job:
    """The job that is on."""
    wanted = "5 or 7" if is_due else "a number from 1 to 8"
    step = lines.word("step", wanted, lambda word: _step(word, is_due))
    polls = lines.number("polls", _MOST_POLLS)
    if step in _SHOWING and not lines.begins("publish"):
        job = asked("activate", lines.word("activate", "a code", lambda word: _activation(word, swapped)))
    else:
        job = lines.field("publish", "a command", _publication)
    job.step, job.polls, job.due = step, polls, is_due
    return job


def _outcome(words: list[bytes]) -> str:
    """What became of an activation that does not wait."""
    text = b" ".join(words).decode("latin-1")
    if text.startswith("refused "):
        _reported(text[8:])
    elif text not in _OUTCOMES:
        raise ValueError
    return text


def _ledger(lines: StateText, centre: Centre) -> None:
    """The entries, whose numbers rise and are below the next. That of an activation that waits is the last, and waits;
    no other does."""
    last = centre.next - 1
    job = centre.job if centre.waiting is not None and centre.job is not None and centre.job.step == 7 else None

    def entry(words: list[bytes]) -> tuple[int, Activation, str]:
        number, code = number_of(words[0], last, least), _activation(words[1], centre.swapped)
        if job is None or number < last:
            return number, code, _outcome(words[2:])
        if words[2:] != [b"waiting"] or code != job.code:
            raise ValueError
        return number, code, "waiting"

    least = 0
    while least <= last and (lines.begins("ledger") or job is not None):
        wanted = f"an entry of a number from {least} to {last}"
        centre.ledger.append(lines.field("ledger", wanted, entry))
        least = centre.ledger[-1][0] + 1


def restored(community: bytes, swapped: bool, text: bytes) -> Centre:
    """The central system whose state a text spells; raises Refused for the first line that is not as it must be."""
    lines = StateText(text)
    lines.line(b"state 1 centre", "state 1 centre")
    centre = Centre(community, swapped, lines.number("next", _LONG))
    centre.last = lines.field("last", "how a job ended", _last)
    phase = _phase(lines, centre.next - 1)
    sends, ticks = _waits(lines) if phase == "awaits" else (0, 0)
    if phase != "idle":
        centre.job = job = _job(lines, swapped, phase == "due")
        if phase == "awaits":
            kind, bindings = request(job, swapped)
            number = centre.next - 1
            octets = wire.written(wire.Message(kind, community, number, 0, 0, bindings))
            centre.waiting = Waiting(number, octets, bindings[0][0], ticks, sends)
    _ledger(lines, centre)
    lines.line(b"end", "end and nothing after it")
    if lines.at < len(lines.lines):
        raise Refused(lines.at, "end and nothing after it wanted")
    return centre
