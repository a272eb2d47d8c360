"""What strangers send does not fill the disk of examples/signd.c, and its owner's SETs do so only at a measure."""

from __future__ import annotations

import pathlib
import time

from model import text, wire

from . import records
from .front_ends import MOST_REPLY, FrontEnd
from .trial import Trial

_ROW = (1, 3, 6, 1, 4, 1, 1206, 4, 2, 3, 5, 8, 1, 9, 3, 1)
WAIT = 0.3  # seconds for a reply that does not come
SIGN = text.bench()
# where a sign is, from where it may be written, and whether it is then from the same machine
_ADDRESSES: tuple[tuple[str, tuple[str, ...], bool], ...] = (
    ("127.0.0.1", ("192.0.2.1",), False),
    ("127.0.0.1", ("192.0.2.1", "127.0.0.1"), True),
    ("127.0.0.1", ("::1",), False),
    ("::1", ("::1",), True),
    ("::1", ("127.0.0.1", "::2"), False),
)


def request(kind: int, community: bytes, number: int, status: int = 6) -> bytes:
    """A request of the status of row 3.1."""
    return wire.written(wire.Message(kind, community, number, 0, 0, [(_ROW, (wire.INTEGER, status))]))


def _datagrams_of(path: pathlib.Path) -> int:
    return sum(line.startswith(b"datagram ") for line in records.lines_of(path.read_bytes()))


def spelled(version: bytes, more: bytes) -> bytes:
    """A SET of the writing community with another version, or with more octets in its PDU."""
    binding = wire.binding((_ROW, (wire.INTEGER, 6)))
    pdu = wire.integer(1) + wire.integer(0) + wire.integer(0) + wire.element(wire.SEQUENCE, binding) + more
    parts = wire.element(wire.INTEGER, version) + wire.element(wire.OCTETS, SIGN.writer) + wire.element(wire.SET, pdu)
    return wire.element(wire.SEQUENCE, parts)


def _unheard() -> dict[str, bytes]:
    """Datagrams that no sign answers."""
    set_ = request(wire.SET, SIGN.writer, 1)
    assert spelled(b"\0", b"") == set_
    return {
        "a version of two octets": spelled(b"\0\x80", b""),
        "more in its PDU": spelled(b"\0", b"\5\0"),
        "zeros": bytes(1472),
        "nothing": b"",
        "cut": set_[:-1],
        "more": set_ + b"\0",
        "another version": set_.replace(b"\x02\x01\x00", b"\x02\x01\x01", 1),
        "a Response": request(wire.RESPONSE, SIGN.writer, 1),
        "a trap": set_.replace(b"\xa3", b"\xa4", 1),
        "another community": request(wire.SET, b"other", 1),
        "too long": set_ + bytes(2000),
    }


def _unrecorded(trial: Trial) -> None:
    """What no sign answers is not recorded, and a SET of the reading community as `heard`."""
    journal = trial.folder / "strangers.journal"
    front_end = FrontEnd(trial, "signd", journal, "--no-ticks")
    before = journal.read_bytes()
    front_end.socket.settimeout(WAIT)
    for name, octets in _unheard().items():
        trial.same(f"strangers, {name}: answered", front_end.ask(octets.hex()), "")
        trial.same(f"strangers, {name}: recorded", journal.read_bytes() == before, True)
    front_end.socket.settimeout(MOST_REPLY)
    trial.check("a SET of the reading community", bool(front_end.ask(request(wire.SET, SIGN.reader, 2).hex())))
    front_end.ask(request(wire.GET, SIGN.reader, 2).hex())  # the record is written once the reply is out
    trial.same("is recorded", records.lines_of(journal.read_bytes())[-1], b"heard")
    trial.check("a SET of the writing community", bool(front_end.ask(request(wire.SET, SIGN.writer, 3).hex())))
    trial.same("is recorded", _datagrams_of(journal), 1)
    trial.same("strangers: signd ends", front_end.end()[0], 0)


def _measured(trial: Trial) -> None:
    """At most 50 a second are recorded, 64 more wait, and the rest is dropped and counted."""
    journal = trial.folder / "measured.journal"
    front_end = FrontEnd(trial, "signd", journal)
    trial.check("at a measure: it begins", bool(front_end.ask(request(wire.GET, SIGN.reader, 1).hex())))
    begun = time.monotonic()
    for number in range(200):
        front_end.socket.send(request(wire.SET, SIGN.writer, number))
    recorded = _datagrams_of(journal)
    is_early = time.monotonic() < begun + 0.9
    answered = len(front_end.replies(2.0))
    trial.check("at a measure: in the first second", recorded <= 50 or not is_early, recorded)
    trial.check("at a measure: answered", 100 <= answered <= 200 and _datagrams_of(journal) == answered, answered)
    trial.check("at a measure: no faster", time.monotonic() - begun > (answered - 1) // 50, answered)
    _, faults = front_end.end()
    trial.check("at a measure: the rest is counted", f"{200 - answered} datagrams" in faults or answered == 200, faults)
    front_end = FrontEnd(trial, "signd", journal, "--most-recorded", "1000")
    for number in range(200):
        front_end.socket.send(request(wire.SET, SIGN.writer, number))
    found = len(front_end.replies(5.0))
    trial.check("at another measure", found == 200, found)
    front_end.end()


def _elsewhere(trial: Trial) -> None:
    """IPv6; and no journal."""
    front_end = FrontEnd(trial, "signd", None, host="::1")
    trial.check("IPv6", front_end.said.startswith("a sign at [::1]:"), front_end.said)
    if front_end.said:
        trial.check("IPv6: answered", bool(front_end.ask(request(wire.GET, SIGN.reader, 1).hex())))
    trial.same("no journal is told", front_end.end(), (0, "nothing is kept: no --journal\n"))


def _refused(trial: Trial) -> None:
    """With --write-from a SET from another address is neither answered nor recorded, and a Get is answered."""
    journal = trial.folder / "addresses.journal"
    for number, (host, allowed, is_heard) in enumerate(_ADDRESSES):
        words = [word for address in allowed for word in ("--write-from", address)]
        path = journal.with_suffix(f".{number}")
        front_end, name = FrontEnd(trial, "signd", path, *words, host=host), f"writing from {host}, {allowed}"
        trial.check(f"{name}: a Get", bool(front_end.ask(request(wire.GET, SIGN.writer, 1).hex())))
        front_end.socket.settimeout(MOST_REPLY if is_heard else WAIT)
        trial.same(f"{name}: a SET", bool(front_end.ask(request(wire.SET, SIGN.writer, 2).hex())), is_heard)
        trial.same(f"{name}: recorded", _datagrams_of(path), int(is_heard))
        trial.same(f"{name}: signd ends", front_end.end()[0], 0)
    for address in ("", "127.0.0", "localhost", "127.0.0.1/8"):
        status, said = trial.ran(trial.called(trial.way, "signd", "--write-from", address, "none.sign"))
        trial.check(f"writing from `{address}`", status == 2 and "--write-from is" in said, said)


def run(trial: Trial) -> None:
    _unrecorded(trial)
    _measured(trial)
    _elsewhere(trial)
    _refused(trial)
