"""Random requests: valid, nearly valid and hostile, in sequences from the known state."""

from typing import Iterator

from wisangub.snmp import wire
from wisangub.snmp.names import RowStatus, scalar
from wisangub.tester.context import Context
from wisangub.tester.requests.objects import NULL, Binding, integer, octets
from wisangub.tester.requests.steps import Ask, Raw, Step, Wait

from .block import Block, Chapter, look
from .random_values import Values

_LENGTH = 60  # requests of a sequence
_MOST_OCTETS = 4096  # of a hostile datagram


class Requests:
    """Random requests about few rows, of names and values that know what was last written."""

    def __init__(self, values: Values) -> None:
        self.values, self.chance, self.rows = values, values.chance, values.rows

    def read(self) -> Ask:
        names = [self.values.name() for _ in range(self.chance.choice([1, 1, 1, 2, 3, 10]))]
        kind = self.chance.choice([wire.GET, wire.GET, wire.GET_NEXT])
        return Ask(kind, tuple((name, NULL) for name in names), self.chance.random() < 0.7)

    def write(self) -> Ask:
        bindings: list[Binding] = []
        for _ in range(self.chance.choice([1, 1, 1, 2, 3])):
            bindings.append(self.binding())
        return Ask(wire.SET, tuple(bindings), self.chance.random() < 0.96)

    def binding(self) -> Binding:
        draw = self.chance.random()
        if draw < 0.35 and self.rows:
            return self.values.field(self.chance.choice(self.rows))
        if draw < 0.65 and self.rows:
            return self.chance.choice(self.rows).status(
                self.chance.choice([6, 6, 6, 7, 7, 8, self.chance.choice([5, 9])])
            )
        if draw < 0.80:
            return scalar("dmsActivateMessage"), octets(self.values.code())
        if draw < 0.84:
            return scalar("dmsMessageTimeRemaining"), integer(self.chance.choice([0, 1, 2, 65535, 65536]))
        if draw < 0.97:
            return self.values.setting()
        return self.values.name(), self.values.wild()

    def hostile(self) -> Raw:
        """Octets of python/wisangub/tester/requests/hostile_datagrams.py, with a request number of this run."""
        state, maker = self.chance.randrange(2**32), self.values.maker

        def make(number: int, _communities: tuple[bytes, bytes]) -> bytes:
            made: bytes
            maker.random.seed(state)
            maker.rate = maker.one([0.0, 0.005, 0.02, 0.1])
            made = maker.message(maker.one([wire.GET, wire.GET, wire.GET_NEXT, wire.SET]), number)
            for _ in range(maker.one([0, 0, 1, 1, 2])):
                made = maker.changed(made)
            return made[:_MOST_OCTETS]

        return Raw(make)

    def step(self) -> Step:
        draw = self.chance.random()
        if draw < 0.40:
            return self.write()
        if draw < 0.75:
            return self.read()
        if draw < 0.99:
            return self.hostile()
        return Wait(1)

    def publication(self) -> list[Step]:
        """A message that is written, validated and activated."""
        if not self.rows:
            return []
        row, text = self.chance.choice(self.rows), self.chance.choice(self.values.texts)
        beacon, priority = self.chance.choice([0, 0, 1]), self.chance.choice([1, 100, 255])
        self.values.held[row] = (text, beacon, 0)
        code = self.values.context.code(
            row,
            self.values.context.crc(text, beacon, 0),
            self.chance.choice([255, 100]),
            self.chance.choice([65535, 0, 1]),
        )
        return [
            Ask(wire.SET, (row.status(RowStatus.MODIFY_REQ),)),
            Ask(wire.SET, (row.text(text), row.beacon(beacon), row.priority(priority))),
            Ask(wire.SET, (row.status(RowStatus.VALIDATE_REQ),)),
            Wait(1),
            Ask(wire.SET, ((scalar("dmsActivateMessage"), octets(code)),)),
        ]

    def sequence(self, length: int) -> list[Step]:
        steps: list[Step] = []
        while len(steps) < length:
            steps += self.publication() if self.chance.random() < 0.015 else [self.step()]
            if self.chance.random() < 0.08:
                steps += [self.chance.choice(look(*self.rows))]
        return [*steps[:length], *look(*self.rows)]


def _blocks(context: Context) -> Iterator[Block]:
    done, number = 0, 0
    while done < context.requests:
        requests = Requests(Values(context, context.seed * 1_000_003 + number))
        steps = requests.sequence(min(_LENGTH, context.requests - done))
        done += sum(not isinstance(step, Wait) for step in steps)
        number += 1
        yield Block(f"random requests, sequence {number}", "", steps, True)


CHAPTER = Chapter("random", "Random requests", _blocks, is_never_empty=True)
