"""The table of addresses. A sign is told by its name, and an address is one sign's alone: two signs under one address
would send whatever stands there the same numbers with other octets."""

from .connection import Database
from .lines import Lines
from .values import LEAST_NUMBER, places, whole

MARGIN = 100_000  # numbers that are left out beside those that are known to be used
_Wanted = dict[int, tuple[frozenset[str], str]]  # by signs: all spellings of their addresses, or why there are none


class Addresses:
    """Which sign has which address, and which it had."""

    def __init__(self, database: Database, lines: Lines) -> None:
        self.database, self._lines = database, lines
        self._run = database.run

    def placed(self, wanted: _Wanted) -> dict[int, str]:
        """Each of the signs takes the addresses that it has now, or says why they are not known: by the signs that
        stand still from now on, why they do. A transaction that is alone."""
        with self.database.transaction(is_alone=True):
            return self._placed(wanted)

    def _placed(self, wanted: _Wanted) -> dict[int, str]:
        held: dict[int, set[str]] = {}
        for address, sign in self._run("SELECT address, sign FROM addresses WHERE now = 1"):
            held.setdefault(whole(sign), set()).add(str(address))
        still: dict[int, str] = {}
        for sign, (addresses, fault) in sorted(wanted.items()):
            if fault:
                still[sign] = f"its address is not known, so it waits: {fault}"
            elif held.get(sign) != set(addresses) and (other := self.take(sign, set(addresses))) is not None:
                still[sign] = f"its address is that of {other}"
        self.database.run_all(
            "UPDATE signs SET still = ? WHERE id = ? AND COALESCE(still, '') <> ?",
            [(still.get(sign), sign, still.get(sign, "")) for sign in sorted(wanted)],
        )
        return still

    def know(self, addresses: dict[int, frozenset[str]]) -> None:
        """Addresses that signs have, unless they are another one's."""
        self.database.run_all(
            "INSERT INTO addresses (address, sign, now) VALUES (?, ?, 1) ON CONFLICT (address) DO NOTHING",
            [(address, sign) for sign, every in sorted(addresses.items()) for address in sorted(every)],
        )

    def take(self, sign: int, addresses: set[str]) -> str | None:
        """The sign has these addresses from now on, and no other ones; within a transaction that is alone. Where
        another one has one of them it takes none: that one's name. Where another one had one before, its numbers go on
        above all of that one's."""
        rows = self._run(
            f"SELECT addresses.now, addresses.sign, signs.name FROM addresses JOIN signs"
            f" ON signs.id = addresses.sign WHERE addresses.sign <> ? AND addresses.address IN"
            f" ({places(sorted(addresses))}) ORDER BY addresses.now DESC, addresses.sign",
            sign,
            *sorted(addresses),
        )
        self._run("UPDATE addresses SET now = 0 WHERE sign = ?", sign)
        if rows and rows[0][0]:
            return str(rows[0][2])
        for other in {whole(row[1]) for row in rows}:
            self._go_above(sign, other)
        self.database.run_all(
            "INSERT INTO addresses (address, sign, now) VALUES (?, ?, 1) ON CONFLICT (address)"
            " DO UPDATE SET sign = excluded.sign, now = 1",
            [(address, sign) for address in sorted(addresses)],
        )
        return None

    def _go_above(self, sign: int, other: int) -> None:
        """The sign's numbers go on above all that the other one's centres used, and below those of its readings, by a
        margin: a worker that does not know of it yet may drive the other one there for a while."""
        if self._lines.used(sign) < (least := self._lines.used(other) + MARGIN):
            self._run("UPDATE signs SET first_number = ? WHERE id = ?", least, sign)
        reading = whole(self._run("SELECT reading_number FROM signs WHERE id = ?", other)[0][0]) - MARGIN
        self._run(
            "UPDATE signs SET reading_number = ? WHERE id = ? AND reading_number > ?",
            max(LEAST_NUMBER, reading),
            sign,
            reading,
        )
        self._run("UPDATE hearings SET number = floor WHERE sign = ?", sign)

    def part(self) -> None:
        """Of signs that were once entered under one address, the one that has it goes on above the others."""
        rows = self._run(
            "SELECT addresses.sign, signs.id FROM addresses JOIN signs ON signs.address = addresses.address"
            " WHERE addresses.sign <> signs.id AND addresses.now = 1 ORDER BY signs.id"
        )
        if rows:
            with self.database.transaction(is_alone=True):
                for sign, other in rows:
                    self._go_above(whole(sign), whole(other))
