"""What is looked at after chaos: all datagrams, what the signs accepted, the lines, the ledger and the commands."""

from collections import Counter

from model import text, wire
from model.centre import Centre
from wisangub.endpoint.records import Head
from wisangub.process import description
from wisangub.room import fleet
from wisangub.room.store.store import Store

from .loopback import LoopbackSign


class Outcome:
    """What was looked at, and what does not hold."""

    def __init__(self) -> None:
        self.passed = 0
        self.failed: list[str] = []

    def holds(self, name: str, is_so: bool) -> None:
        self.passed, self.failed = self.passed + is_so, self.failed + [name] * (not is_so)


def foretold(store: Store, row: int, sign: fleet.Sign) -> list[str]:
    """The ledger that the model has after the sign's lines, one centre after the other."""
    ledger: list[str] = []
    centre: Centre | None = None
    for (line,) in [*store.database.run("SELECT line FROM lines WHERE sign = ? ORDER BY number", row), ("journal",)]:
        words = str(line).encode().split(b" ")
        if words[0] == b"journal":
            if centre is not None:
                swapped = centre.swapped
                ledger += [f"ledger {at} {code.octets(swapped).hex()} {how}" for at, code, how in centre.ledger]
            head = Head.of(str(line).encode())
            if head is not None and head.first is not None:
                described = description.with_first(sign.text, head.first)
                assert described is not None
                centre = text.World(text.described(described)).centre
        elif centre is not None and words[0] == b"datagram":
            centre.receive(text.octets(words[1]))
        elif centre is not None and words[0] == b"tick":
            centre.tick()
        elif centre is not None:
            centre.command(text.event(words, centre.swapped))
    return ledger


def command_lines(store: Store, row: int) -> Counter[str]:
    """How often each command was asked for of a sign."""
    return Counter(str(line[0]) for line in store.database.run("SELECT line FROM commands WHERE sign = ?", row))


def look_at_datagrams(found: Outcome, live: LoopbackSign) -> set[int]:
    """No request number twice with other octets, none more than three times: the numbers of the activations."""
    sent: dict[int, list[bytes]] = {}
    activations: set[int] = set()
    for octets in live.requests:
        message = wire.spelled(octets)
        found.holds(f"{live.name}: a datagram is a message", message is not None)
        if message is not None:
            sent.setdefault(message.number, []).append(octets)
            if message.kind == wire.SET and message.bindings[0][0][-3:] == (6, 3, 0):
                activations.add(message.number)
    for number, datagrams in sent.items():
        found.holds(f"{live.name}: number {number} has the same octets each time", len(set(datagrams)) == 1)
        found.holds(f"{live.name}: number {number} goes out three times at most", len(datagrams) <= 3)
    return activations


def look_at(found: Outcome, store: Store, row: int, sign: fleet.Sign, live: LoopbackSign) -> None:
    """What holds of a sign."""
    activations = look_at_datagrams(found, live)
    ledger = {int(line.split(" ")[1]): line.split(" ", 3)[2:] for line in store.lines.ledger(row)}
    found.holds(f"{live.name}: each activation that went out stands in the ledger", activations <= set(ledger))
    found.holds(
        f"{live.name}: each acceptance of the sign stands in the ledger",
        all(number in ledger and ledger[number][0] == code for number, code in live.accepted),
    )
    for number, (code, how) in ledger.items():
        if how == "accepted":
            found.holds(f"{live.name}: the sign accepted {number}", (number, code) in live.accepted)
    accepted = store.database.run("SELECT count(*) FROM commands WHERE sign = ? AND outcome = 'accepted'", row)[0][0]
    found.holds(
        f"{live.name}: each command that ended accepted has its activation",
        accepted == sum(how == "accepted" for _, how in ledger.values()),
    )
    noted = Counter(str(what[0]) for what in store.database.run("SELECT what FROM audit"))
    found.holds(
        f"{live.name}: each command stands in the audit",
        all(noted[f"{live.name}: {line}"] == count for line, count in command_lines(store, row).items()),
    )
    is_foretold = store.lines.ledger(row) == foretold(store, row, sign)
    found.holds(f"{live.name}: the ledger is the model's, handed the lines", is_foretold)
    numbers = [line[0] for line in store.database.run("SELECT number FROM lines WHERE sign = ? ORDER BY number", row)]
    found.holds(f"{live.name}: no line is missing", numbers == list(range(1, len(numbers) + 1)))
