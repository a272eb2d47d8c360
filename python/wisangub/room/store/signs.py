"""The table of signs: the fleet as rows. A sign is told by its name."""

from wisangub.process.places import called
from wisangub.refusal import Refusal
from wisangub.room.addresses import of_places
from wisangub.room.fleet import NAMES, Sign, is_name

from .addresses import Addresses
from .audit import note
from .connection import Database, Taken
from .values import whole


class Signs:
    """Signs of all fleets."""

    def __init__(self, database: Database, addresses: Addresses) -> None:
        self.database, self._addresses = database, addresses
        self._run = database.run

    def enter(self, signs: list[Sign]) -> dict[int, Sign]:
        """The fleet as rows: each sign by the number of its row. Refused where a sign is to have an address that
        another one has."""
        self._addresses.part()
        said = {sign.name: (sign.place, sign.address, sign.poll, sign.kind) for sign in signs}
        held = {str(row[0]): row[1:] for row in self._run("SELECT name, place, address, poll, kind, id FROM signs")}
        new = [(name, *said[name]) for name in sorted(said) if name not in held or held[name][:4] != said[name]]
        if new:
            every = {sign.name: sign.every | {sign.address} for sign in signs}
            moved = {name for name, _, address, _, _ in new if name not in held or held[name][1] != address}
            known = (
                _others({name: str(row[1]) for name, row in held.items() if name not in said} if moved else {}) | every
            )
            with self.database.transaction(is_alone=True):
                self.database.run_all(
                    "INSERT INTO signs (name, place, address, poll, kind) VALUES (?, ?, ?, ?, ?)"
                    " ON CONFLICT (name) DO UPDATE SET place = excluded.place,"
                    " address = excluded.address, poll = excluded.poll, kind = excluded.kind",
                    new,
                )
                if moved:
                    self._addresses.know(
                        {whole(row[4]): known[name] for name, row in held.items() if name not in moved}
                    )
                for name in sorted(moved):
                    self._move(name, said[name][1], every[name], name not in held)
        rows = {str(name): whole(row) for name, row in self._run("SELECT name, id FROM signs")}
        return {rows[sign.name]: sign for sign in signs}

    def _move(self, name: str, address: str, every: frozenset[str], is_new: bool) -> None:
        """The sign has this address, in all its spellings, or all comes to nothing."""
        row = whole(self._run("SELECT id FROM signs WHERE name = ?", name)[0][0])
        if (other := self._addresses.take(row, set(every))) is not None:
            raise _refusal_of(name, address, other, is_new)

    def all(self) -> list[tuple[str, str]]:
        """The name and the address of each, in the order in which they were entered."""
        return [(str(row[0]), str(row[1])) for row in self._run("SELECT name, address FROM signs ORDER BY id")]

    def row_of(self, name: str) -> int:
        """The number of the sign's row; refused where there is none."""
        rows = self._run("SELECT id FROM signs WHERE name = ?", name)
        if not rows:
            raise Refusal(f"there is no sign {name!r}: a worker enters those of its fleet")
        return whole(rows[0][0])

    def rename(self, old: str, new: str, who: str) -> None:
        """The sign has another name, which stands in the audit; refused where that is no name, or another one's."""
        if not is_name(new):
            raise Refusal(NAMES)
        try:
            with self.database.transaction():
                if not self._run("UPDATE signs SET name = ? WHERE name = ? RETURNING id", new, old):
                    raise Refusal(f"there is no sign {old!r}")
                note(self.database, who, f"sign {old}: its name is {new}")
        except Taken:
            raise Refusal(f"there is a sign {new!r} already") from None


def _others(addresses: dict[str, str]) -> dict[str, frozenset[str]]:
    """All spellings of the addresses of signs of no fleet, by their names."""
    place = {
        name: (host, int(port))
        for name, (host, _, port) in ((name, address.rpartition(":")) for name, address in addresses.items())
    }
    found = of_places(place.values())
    return {name: found[place[name]].every | {address} for name, address in addresses.items()}


def _refusal_of(name: str, address: str, other: str, is_new: bool) -> Refusal:
    """Why a sign does not get an address, and what to do."""
    words = (
        f"{name!r}: {address} is the address of {other!r} in the database, whose numbers what stands there has seen."
    )
    if is_new:
        return Refusal(
            f"{words} Where it is that sign under another name, {called('wisangub-control signs')} --database .. rename"
            f" {other!r} {name!r} keeps its numbers, lines and ledger"
        )
    return Refusal(f"{words} Where it is that sign, its name is {other!r}")
