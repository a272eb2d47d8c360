"""Requests that change a sign: numbers, fields of rows, publications."""

import random

from model import wire
from model.codes import Activation, MessageId, checksum

from .manager import DMS, Manager, Name

Bindings = list[tuple[Name, tuple[int, object]]]
_ROWS = ((3, 1), (3, 2), (4, 1))
_TEXTS = (b"A", b"B", b"AB", b"1", b"A[nl]B", b"")


class Changes:
    """Random SETs in the writer's name, most of which are taken. `counter` is set to a new number by each of its own,
    so that what was set last can be read back."""

    COUNTER: Name = DMS + (6, 10, 0)

    def __init__(self, chance: random.Random) -> None:
        self.chance, self.count = chance, 0

    def next(self, manager: Manager) -> bytes:
        """A SET of any kind."""
        return manager.request(
            wire.SET,
            self.chance.choice([self.counter, self.number, self.status, self.field, self.activation, self.both])(),
        )

    def counter(self) -> Bindings:
        self.count += 1
        return [(self.COUNTER, (wire.INTEGER, self.count % 65_536))]

    def number(self) -> Bindings:
        place, most = self.chance.choice([(3, 255), (4, 255), (8, 255), (9, 255), (2, 9), (1, 10)])
        return [(DMS + (4, place, 0), (wire.INTEGER, self.chance.randint(0, most)))]

    def both(self) -> Bindings:
        return self.counter() + self.number()

    def status(self) -> Bindings:
        return [
            (DMS + (5, 8, 1, 9) + self.chance.choice(_ROWS), (wire.INTEGER, self.chance.choice([6, 6, 6, 7, 7, 8])))
        ]

    def field(self) -> Bindings:
        row = self.chance.choice(_ROWS)
        return [
            (DMS + (5, 8, 1, 3) + row, (wire.OCTETS, self.chance.choice(_TEXTS))),
            (DMS + (5, 8, 1, 8) + row, (wire.INTEGER, self.chance.randint(1, 9))),
        ]

    def activation(self) -> Bindings:
        named = self.chance.choice(
            [
                MessageId(7, self.chance.randint(1, 255), 0),
                MessageId(2, 1, checksum(b"B", 0, 0)),
                *(MessageId(*self.chance.choice(_ROWS), checksum(text, 0, 0)) for text in _TEXTS),
            ]
        )
        code = Activation(self.chance.choice([1, 5, 65_535]), 255, named, b"\x7f\0\0\1")
        return [(DMS + (6, 3, 0), (wire.OCTETS, code.octets(False)))]
