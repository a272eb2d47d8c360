"""Readings of a sign that take several Gets, one after the other, of some signs at a time."""

import time
from typing import Generic, Iterable, Mapping, TypeVar

from wisangub.room.fleet import Sign
from wisangub.room.store.store import Store

from .gets import Gets

_LOOK = 1.0  # seconds from one look for signs that are due to the next
_MOST = 20  # signs that are read at a time


class Pass:
    """One reading of one sign."""

    def __init__(self, sign_id: int, sign: Sign) -> None:
        self.sign_id, self.sign = sign_id, sign

    @property
    def is_done(self) -> bool:
        raise NotImplementedError

    def go_on(self, number: int) -> None:
        """The next Get, under this number."""
        raise NotImplementedError


_Pass = TypeVar("_Pass", bound=Pass)


class Passes(Generic[_Pass]):
    """The readings of one kind that are under way. One that hears something puts itself into `ready`; one whose sign
    does not answer is let go, and its sign asked again at the next time."""

    def __init__(self, store: Store, signs: dict[int, Sign], gets: Gets) -> None:
        self.store, self.signs, self.gets = store, signs, gets
        self.going: set[int] = set()
        self.ready: list[_Pass] = []
        self.next_look = 0.0

    def to_read(self) -> list[int]:
        """The signs that are due."""
        raise NotImplementedError

    def due(self, signs: Mapping[int, Sign]) -> Iterable[_Pass]:
        """The readings to begin: of those of the signs that no other worker has begun meanwhile."""
        raise NotImplementedError

    def ended(self, one: _Pass) -> None:
        """A reading has all that it asked for."""

    def begin(self) -> None:
        """Begins those that are due, and has those go on that heard something."""
        now = time.monotonic()
        room = _MOST - len(self.going)
        if now >= self.next_look and room > 0:
            self.next_look = now + _LOOK
            signs = dict(self.signs)  # the worker may change them meanwhile
            due = [one for one in self.to_read() if one in signs and one not in self.going]
            for begun in self.due({one: signs[one] for one in due[:room]}):
                self.going.add(begun.sign_id)
                self.ready.append(begun)
        self.go_on()

    def go_on(self) -> None:
        """The next Get of each that heard something; a reading that ended or cannot go on is let go."""
        ready, self.ready = self.ready, []
        for one in ready:
            self.going.discard(one.sign_id)
            if one.is_done:
                self.ended(one)
        more = [one for one in ready if not one.is_done and self.signs.get(one.sign_id) is one.sign]
        numbers = self.store.readings.numbers([one.sign_id for one in more])
        for one in more:
            if one.sign_id in numbers:
                self.going.add(one.sign_id)
                one.go_on(numbers[one.sign_id])
