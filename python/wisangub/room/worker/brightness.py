"""The brightness that operators ask for: a Set of the device's objects goes out once; the sign is read afterwards."""

import time
from functools import partial

from wisangub.endpoint.asking import Refused, Values
from wisangub.room.device import ASKED, SET
from wisangub.room.fleet import Sign
from wisangub.room.store.brightness import Asked
from wisangub.room.store.store import Store
from wisangub.snmp.names import status_word

from .gets import NO_REPLY, Gets

_LOOK = 1.0  # seconds from one look for what was asked to the next


def outcome(asked: Asked, values: Values | str) -> str:
    """How a Set ended, in words: accepted, refused with the error and the object that it is of, or not known."""
    if isinstance(values, list):
        return "accepted"
    if isinstance(values, Refused):
        names = list(asked.wish.values)
        of = f" for {names[values.place - 1]}" if 0 < values.place <= len(names) else ""
        return f"refused: {status_word(values.status)}{of}"
    return "no answer: whether the sign took it is not known" if values == NO_REPLY else f"failed: {values}"


class Brightness:
    """The Sets that wait for an answer, and the Gets after them."""

    def __init__(self, store: Store, signs: dict[int, Sign], gets: Gets) -> None:
        self.store, self.signs, self.gets = store, signs, gets
        self.ended: list[tuple[Asked, str]] = []
        self.to_read: list[Asked] = []
        self.said: list[tuple[Asked, Values]] = []
        self.next_look = 0.0

    def begin(self) -> None:
        """Sends what was asked for since the last look, each once, and reads the signs whose Set ended."""
        now = time.monotonic()
        if now >= self.next_look:
            self.next_look = now + _LOOK
            self._send([one for one in self.store.brightness.to_send() if one.sign in self.signs])
        to_read, self.to_read = {one.sign: one for one in self.to_read}, []
        for sign_id, number in self.store.readings.numbers([*to_read]).items():
            if (sign := self.signs.get(sign_id)) is not None:
                self.gets.begin(sign, number, [ASKED[name] for name in SET], partial(self.read, to_read[sign_id]))

    def _send(self, wanted: list[Asked]) -> None:
        """The number of each Set is its own, and on the disk, before it goes out."""
        numbers = self.store.readings.numbers([one.sign for one in wanted])
        for one in wanted:
            sign = self.signs.get(one.sign)
            if sign is not None and one.sign in numbers and self.store.brightness.begin(one.id, numbers[one.sign]):
                self.gets.set(sign, numbers[one.sign], one.wish.values, partial(self.end, one))

    def end(self, asked: Asked, values: Values | str) -> None:
        """What came of a Set."""
        self.ended.append((asked, outcome(asked, values)))

    def read(self, asked: Asked, values: Values | str) -> None:
        """What the sign read afterwards, where it said it."""
        if isinstance(values, list):
            self.said.append((asked, values))

    def keep(self) -> None:
        """Puts what came of it since the last time into the database."""
        ended, self.ended = self.ended, []
        for asked, how in ended:
            self.store.brightness.end(asked.id, how)
            self.to_read.append(asked)
        said, self.said = self.said, []
        for asked, values in said:
            self.store.brightness.keep(asked.id, dict(zip(SET, values)))
