"""Brightness of chaos: signs whose brightness is set now and then; each Set goes out once, as it was asked for."""

import contextlib
import random
import secrets

from model import wire
from wisangub.process.places import TOP
from wisangub.refusal import Refusal
from wisangub.room.device import ASKED, BY_HAND, CONTROL, CONTROLS, LEVEL, SET
from wisangub.room.store import brightness
from wisangub.room.store.brightness import KEPT, Asked, Wish
from wisangub.room.store.devices import DeviceSaid
from wisangub.room.store.store import Store

from .beside import NAME
from .chaos_checks import Outcome
from .loopback import LoopbackSign

OBJECTS = TOP / "signs/roadside.objects"
OFTEN = 0.3  # of the looks
MOST_LEVEL = 9  # one more than the signs take
_NAMES = [ASKED[name] for name in SET]
_LONG = 3600.0  # seconds after which nothing is waited for


def objects() -> list[bytes]:
    """The lines by which a sign has a brightness."""
    names = [".".join(map(str, name)).encode() for name in _NAMES]
    return [line for line in OBJECTS.read_bytes().splitlines() if line[:7] == b"object " and line.split()[1] in names]


class Dimming:
    """The brightness of a run's signs. `store` is handed in anew, as each look has a connection of its own."""

    def __init__(self, rows: list[int], chance: random.Random) -> None:
        self.rows, self.chance = rows, chance
        self.asked = dict.fromkeys(rows, 0)

    def enter(self, store: Store) -> None:
        """What the signs say of themselves, as somebody read it before."""
        said: dict[str, int | str] = {CONTROL: BY_HAND[0], LEVEL: MOST_LEVEL - 1}
        store.devices.keep([DeviceSaid(row, 0, said, {}, 0, frozenset(), False) for row in self.rows])

    def step(self, store: Store) -> None:
        """Somebody asks for the brightness of a sign; it is refused where that is too soon."""
        row = self.chance.choice(self.rows)
        wish = self.chance.choice((Wish(CONTROLS[0], None), Wish(BY_HAND[0], self.chance.randint(0, MOST_LEVEL))))
        if self.chance.random() < OFTEN and self.asked[row] < KEPT:
            with contextlib.suppress(Refusal):
                brightness.ask(store.database, row, NAME, wish, secrets.token_hex(16))
                self.asked[row] += 1


def sets_of(live: LoopbackSign) -> dict[int, list[dict[str, object]]]:
    """The Sets of brightness that came to a sign, by their numbers: what each writes."""
    found: dict[int, list[dict[str, object]]] = {}
    for message in filter(None, map(wire.spelled, live.requests)):
        if message.kind == wire.SET and {name for name, _ in message.bindings} & set(_NAMES):
            words = {SET[_NAMES.index(name)]: value[1] for name, value in message.bindings if name in _NAMES}
            found.setdefault(message.number, []).append(words if len(words) == len(message.bindings) else {})
    return found


def look_at_brightness(found: Outcome, store: Store, row: int, live: LoopbackSign) -> int:
    """What holds of a sign's brightness: how often it was set."""
    store.database.run("UPDATE brightness SET asked_at = asked_at - ?, sent_at = sent_at - ?", _LONG, _LONG)
    found.holds(f"{live.name}: no brightness waits for ever", store.brightness.to_send() == [])
    asked: dict[int, Asked] = {}
    for one in brightness.listed(store.database, row):
        found.holds(f"{live.name}: brightness {one.id} ended", one.how is not None)
        for (number,) in store.database.run("SELECT number FROM brightness WHERE id = ?", one.id):
            is_sent = isinstance(number, int)
            found.holds(
                f"{live.name}: brightness {one.id} has a number where it was sent", is_sent or not _is_sent(one)
            )
            if isinstance(number, int):
                asked[number] = one
    sets = sets_of(live)
    for number, written in sets.items():
        found.holds(f"{live.name}: brightness {number} went out once", len(written) == 1)
        is_asked = number in asked and dict(asked[number].wish.values) == written[0]
        found.holds(f"{live.name}: brightness {number} is what was asked for", is_asked)
    for number, one in asked.items():
        found.holds(f"{live.name}: brightness {number} was sent", one.how != "accepted" or number in sets)
    return len(sets)


def _is_sent(one: Asked) -> bool:
    return one.how is not None and one.how.split(":")[0] in ("accepted", "refused", "no answer", "unknown")
