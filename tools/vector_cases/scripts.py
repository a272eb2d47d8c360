"""Scripts of the bench sign and a centre: the report of each, or the line that is wrong."""

from collections.abc import Iterator

from model import text, wire

from .messages import GET_STATUS, Case, request, scalar

_Named = tuple[str, list[str]]
_PUBLISH = ["publish 3 1 41 - 0 0 200 65535 255 192.0.2.1"]
_PUBLISH += [f"{to} {number}" for number in range(4) for to in ("to-sign", "to-centre")]
PUBLISHED = _PUBLISH + ["sign-tick", "to-sign 4", "to-centre 4", "to-sign 5", "to-centre 5", "centre-tick"]
PUBLISHED += ["to-sign 6", "to-centre 6"]
_ACTIVATE = "activate ffffff020001750200000000"
_CODES = (
    ("0700020000", "blank message 2"),
    ("0200017502", "the permanent message"),
    ("0200017503", "another checksum"),
    ("0500010000", "what is shown"),
    ("0600010000", "no type of memory"),
)
_COMMANDS = (
    "publish 2 1 41 - 0 0 1 0 0 1.2.3.4",
    "publish 3 0 41 - 0 0 1 0 0 1.2.3.4",
    "publish 3 1 41 - 2 0 1 0 0 1.2.3.4",
    "publish 3 1 41 - 0 0 0 0 0 1.2.3.4",
    "blank 0 0 0 1.2.3.4",
    "blank 256 0 0 1.2.3.4",
    "publish 3 1 41 - 0 1 9 0 9 1.2.3.4",
    "publish 4 1 5b78785d - 1 0 9 0 9 1.2.3.4",
)
_WRONG = (
    "to-sign",
    "to-sign x",
    "to-sign 4294967296",
    "sign-tick 1",
    "sign tick",
    " sign-tick",
    "power-back -1",
    "publish 3 1",
    "blank 65536 0 0 1.2.3.4",
    "blank 1 0 256 1.2.3.4",
    "activate 00",
    "forge-sign 0",
    "blank 1 0 0 1.2.3",
    "blank 1 0 0 1.2.3.256",
    "SIGN-TICK",
)


def _forged(word: str, value: int | bytes, tag: int = wire.INTEGER) -> str:
    """A Set of one object, which no centre sends."""
    return "forge-sign " + request(wire.SET, [(scalar(word), (tag, value))]).hex()


def _publications() -> Iterator[_Named]:
    yield "nothing", []
    for size in range(1, len(PUBLISHED) + 1):
        yield f"the first {size} events of a publication", PUBLISHED[:size]
    for at, event in enumerate(PUBLISHED):
        if event.startswith("to-"):
            yield f"a publication with event {at + 1} lost", PUBLISHED[:at] + PUBLISHED[at + 1 :]
            yield f"a publication with event {at + 1} repeated", PUBLISHED[: at + 1] + PUBLISHED[at:]


def _activations() -> Iterator[_Named]:
    for ticks in (1, 2, 3, 6, 8, 9, 10):
        silent = [_ACTIVATE] + ["centre-tick"] * ticks
        yield f"an activation without an answer for {ticks} ticks", silent
        answered = silent + ["to-sign 0", "to-sign 1", "to-sign 2", "to-centre 0"]
        yield f"the third send of an activation, after {ticks} ticks", answered
    for code, word in (
        ("ffffff020001750200000000", "the permanent message"),
        ("ffffff020001750300000000", "another checksum"),
        ("ffffff0300019a6600000000", "a row that is not used"),
        ("ffffff0600019a6600000000", "no type of memory"),
        ("0001ff020001750200000000", "one minute"),
        ("ffffff050001000000000000", "what is shown"),
    ):
        yield f"activate {word}", [f"activate {code}", "to-sign 0", "to-centre 0", "to-sign 1", "to-centre 1"]
    for minutes in (0, 1, 2):
        for ticks in (1, 59, 60, 61, 120):
            events = [f"blank 7 {minutes} 255 192.0.2.1", "to-sign 0"] + ["sign-tick"] * ticks
            yield f"a blank message for {minutes} minutes, after {ticks} seconds", events


def _own_codes() -> Iterator[_Named]:
    for code, word in _CODES:
        octets = bytes.fromhex(code)
        lost = [_forged("dmsPowerLossMessage", octets, wire.OCTETS), "power-lost"]
        yield f"a loss of power that shows {word}", lost
        ended = [_forged("dmsEndDurationMessage", octets, wire.OCTETS), "blank 7 1 255 0.0.0.0", "to-sign 0"]
        yield f"the end of a duration that shows {word}", ended + ["sign-tick"] * 60
        for loss in (1, 60, 61):
            short = _forged("dmsShortPowerRecoveryMessage", octets, wire.OCTETS)
            back = [_forged("dmsShortPowerLossTime", 60), short, "power-lost", "sign-tick", "to-sign 0"]
            name = f"a return of power after {loss} seconds that shows {word}"
            yield name, PUBLISHED + back + [f"power-back {loss}"]
        silence = [_forged("dmsTimeCommLoss", 1), _forged("dmsCommunicationsLossMessage", octets, wire.OCTETS)]
        yield f"a silence that shows {word}", silence + ["sign-tick"] * 60


def _silences() -> Iterator[_Named]:
    begun = [_forged("dmsTimeCommLoss", 1)] + ["sign-tick"] * 59
    for ticks in (59, 60, 119):
        rest = ["sign-tick"] * ticks
        name = f"after 59 seconds of silence, then {ticks} seconds"
        yield f"an answered datagram {name}", begun + ["forge-sign " + GET_STATUS.hex()] + rest
        yield f"a dropped datagram {name}", begun + ["forge-sign 3000"] + rest
    for at in range(1, len(PUBLISHED), 2):
        restarted = PUBLISHED[:at] + ["centre-restart", "blank 1 65535 255 0.0.0.0"]
        yield f"a restart of the centre after {at} events of a publication", restarted
        lost = PUBLISHED[:at] + ["power-lost", "power-back 5"] + PUBLISHED[at:]
        yield f"a loss of power after {at} events of a publication", lost


def lines() -> Iterator[_Named]:
    for words in _COMMANDS:
        yield f"the command {words}", [words, "to-sign 0", "to-centre 0", "centre-tick"]
    for words in _WRONG:
        yield f"the wrong line {words!r}", ["sign-tick", "# a comment", "", words]
    other = [_forged("defaultFont", 2), _ACTIVATE, "to-sign 0", "to-centre 1", "to-sign 1", "to-centre 2"]
    yield "another default font for which the message has no picture", other
    accepted = "forge-centre " + request(wire.RESPONSE, []).hex()
    yield "a forged acceptance", ["activate ffffff0300019a6600000000", accepted]


def scripts() -> Iterator[_Named]:
    for some in (_publications, _activations, _own_codes, _silences, lines):
        yield from some()


def cases() -> Iterator[Case]:
    for name, events in scripts():
        made = "\n".join(["bench", *events]) + "\n"
        try:
            answer: Case = {"report": text.replayed(made.encode())}
        except text.Bad as bad:
            answer = {"line": bad.line}
        yield {"name": name, "script": made, **answer}
