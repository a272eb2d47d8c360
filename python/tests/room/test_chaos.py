"""Chaos: what its seed repeats, and that what does not hold after a run is found."""

import pathlib
import random
from typing import Any, Callable

import pytest

from trials.room import chaos, chaos_brightness, chaos_checks
from trials.room.chaos import Asked, Run
from trials.room.chaos_checks import Outcome
from trials.room.loopback import Fates, LoopbackSign
from wisangub.room.device import ASKED, BY_HAND, CONTROL, LEVEL
from wisangub.room.store import brightness
from wisangub.room.store.brightness import Wish
from wisangub.room.store.devices import DeviceSaid
from wisangub.snmp import wire

from .bench import HELLO, Bench, bench
from .people import person
from .test_database import two_stores

NOTHING: Any = None
ROWS: dict[int, Any] = {row: None for row in range(200)}


def run_of(seed: int) -> Run:
    """What a seed decides before anything has begun."""
    asked = Asked(200, 500, 4, 300.0, seed, 1.0, 8.0, None, "sqlite", "")
    return Run(asked, ROWS, NOTHING, NOTHING, NOTHING, NOTHING, NOTHING)


def test_a_seed_repeats_what_is_asked_for_and_when_trouble_is_due() -> None:
    first, second, other = run_of(39), run_of(39), run_of(40)
    assert (first.to_ask, first.due, first.crash_at) == (second.to_ask, second.due, second.crash_at)
    assert first.chance.getstate() == second.chance.getstate() and first.to_ask != other.to_ask
    assert len({row for row, _ in first.to_ask}) > 100 and len(first.to_ask) == 500


def test_a_seed_repeats_the_fate_of_each_datagram() -> None:
    sent = [(f"sign {number % 7}", random.Random(number).randbytes(40), number % 3) for number in range(5000)]
    fates = [Fates(39).of(*one) for one in sent]
    assert fates == [Fates(39).of(*one) for one in sent] and fates != [Fates(40).of(*one) for one in sent]
    in_trouble = [fate for fate in fates if fate != [0.0]]
    assert 0.08 < len(in_trouble) / len(sent) < 0.12, "one in ten"
    assert [] in in_trouble and [0.0, 0.0] in in_trouble and any(len(fate) == 1 for fate in in_trouble)


def datagram(number: int, octets: bytes) -> bytes:
    """A request with a text, under a number."""
    name = (1, 3, 6, 1, 4, 1, 1206, 4, 2, 3, 5, 8, 1, 3, 3, 1)
    written: bytes = wire.written(wire.Message(wire.SET, b"admin", number, 0, 0, [(name, (wire.OCTETS, octets))]))
    return written


@pytest.mark.parametrize("number", (7, -7))
def test_a_number_that_is_used_twice_is_found(number: int) -> None:
    def failed(*requests: bytes) -> list[str]:
        found = Outcome()
        chaos_checks.look_at_datagrams(found, LoopbackSign("one", NOTHING, NOTHING, list(requests)))
        return [name.removeprefix("one: ") for name in found.failed]

    one, other = datagram(number, b"A"), datagram(number, b"B")
    assert failed(one, one, one) == []
    assert failed(one, other) == [f"number {number} has the same octets each time"]
    assert failed(one, one, one, one) == [f"number {number} goes out three times at most"]
    assert failed(one[:-1]) == ["a datagram is a message"]


BREAKS: dict[str, Callable[[Bench], object]] = {
    "the sign accepted": lambda at: at.live.accepted.clear(),
    "each acceptance of the sign stands in the ledger": lambda at: at.live.accepted.append((999, "ff")),
    "each activation that went out stands in the ledger": lambda at: at.store.database.run("DELETE FROM ledger"),
    "each command that ended accepted has its activation": lambda at: at.ended(
        at.worker(), at.store.commands.ask(at.sign_id, "me", "restart")
    )
    and at.store.database.run("UPDATE commands SET outcome = 'accepted'"),
    "the ledger is the model's, handed the lines": lambda at: at.store.database.run(
        "UPDATE ledger SET outcome = 'noreply'"
    ),
    "each command stands in the audit": lambda at: at.store.database.run("DELETE FROM audit"),
    "no line is missing": lambda at: at.store.database.run("DELETE FROM lines WHERE number = 3"),
}


@pytest.mark.parametrize("what", BREAKS)
def test_what_does_not_hold_is_found(tmp_path: pathlib.Path, what: str) -> None:
    with bench(tmp_path, str(tmp_path / "database")) as at:
        assert at.ended(at.worker(), at.ask(HELLO)) == "accepted"
        for is_broken in (False, True):
            if is_broken:
                BREAKS[what](at)
            found = Outcome()
            chaos_checks.look_at(found, at.store, at.sign_id, at.signs(at.store)[at.sign_id], at.live)
            assert any(name.startswith(f"one: {what}") for name in found.failed) is is_broken, found.failed
            assert is_broken or not found.failed


def test_commands_are_of_each_kind() -> None:
    chance = random.Random(1)
    lines = [chaos.command(chance).split(" ") for _ in range(500)]
    assert {line[0] for line in lines} == {"blank", "publish"} and {
        line[1] for line in lines if line[0] == "publish"
    } == {"3", "4"}


@pytest.mark.parametrize(
    "what",
    ["", "brightness -7 went out once", "brightness -7 is what was asked for", "brightness -7 was sent", "ended"],
)
def test_what_does_not_hold_of_brightness_is_found(
    tmp_path: pathlib.Path, monkeypatch: pytest.MonkeyPatch, what: str
) -> None:
    store, _, sign = two_stores(str(tmp_path / "database"))
    person(store.database, "ann")
    store.devices.keep([DeviceSaid(sign, -1, {CONTROL: 4, LEVEL: 8}, {}, 0, frozenset(), True)])
    wish = Wish(BY_HAND[0], 3)
    asked = brightness.ask(store.database, sign, "ann", wish, "a word")
    assert store.brightness.begin(asked, -7)
    if what != "ended":
        store.brightness.end(asked, "accepted")
    values = [3 if "asked for" not in what else 4]
    bindings = [(ASKED[CONTROL], (wire.INTEGER, 4)), (ASKED[LEVEL], (wire.INTEGER, values[0]))]
    octets = wire.written(wire.Message(wire.SET, b"administrator", -7, bindings=bindings))
    sent = [octets] * (2 if "once" in what else 0 if "was sent" in what else 1)
    found = Outcome()
    if what == "ended":
        monkeypatch.setattr(store.brightness, "to_send", list)
    chaos_brightness.look_at_brightness(found, store, sign, LoopbackSign("one", NOTHING, NOTHING, sent))
    assert len(found.failed) == (1 if what else 0) and all(name.endswith(what) for name in found.failed), found.failed
