"""Where each sign of a worker is now: what its address resolves to, and that it is this sign's alone. A sign without an
address, or with one that another sign has, stands still: it is neither driven nor read, and the wall says why."""

import dataclasses
import time

from wisangub.room.addresses import Addresses, Found
from wisangub.room.fleet import Sign
from wisangub.room.output import LOG
from wisangub.room.store.store import Store


class Where:
    """`signs` are those that do not stand still, each with the address that it is spoken to at."""

    def __init__(self, store: Store, fleet: dict[int, Sign], again: float) -> None:
        self.store, self.fleet, self.again = store, fleet, again
        self.addresses = Addresses([(sign.host, sign.port) for sign in fleet.values()], again).wait()
        self.signs: dict[int, Sign] = {}
        self.known: dict[int, Found] = {}
        self.still: dict[int, str] = {}
        self.next_look = 0.0
        self.changes = -1  # of the addresses that were looked at

    def look(self) -> set[int]:
        """Takes addresses that resolved anew, and those that another sign had, once it has them no more: the signs that
        stand still from now on, or are elsewhere."""
        now, changes = time.monotonic(), self.addresses.changes
        is_due = now >= self.next_look
        if changes == self.changes and not (is_due and self.still):
            return set()
        found = {sign_id: self.addresses.of((sign.host, sign.port)) for sign_id, sign in self.fleet.items()}
        to_take = [
            sign_id
            for sign_id in found
            if found[sign_id] != self.known.get(sign_id) or is_due and sign_id in self.still
        ]
        if not to_take:
            self.changes = changes
            return set()
        self.next_look = now + self.again
        still = self.store.addresses.placed(
            {
                sign_id: (found[sign_id].every | {self.fleet[sign_id].address}, found[sign_id].fault)
                for sign_id in to_take
            }
        )
        moved = {sign_id for sign_id in to_take if self._is_moved(sign_id, found[sign_id], still.get(sign_id, ""))}
        self.changes = changes
        return moved

    def _is_moved(self, sign_id: int, found: Found, why: str) -> bool:
        """Whether the sign is no more where it was."""
        self.known[sign_id] = found
        before = self.signs.pop(sign_id, None)
        if why and why != self.still.get(sign_id):
            LOG.warning(f"{self.fleet[sign_id].name}: it stands still: {why}")
        if why:
            self.still[sign_id] = why
        else:
            if self.still.pop(sign_id, ""):
                LOG.info(f"{self.fleet[sign_id].name}: it goes on, at {found.host}")
            self.signs[sign_id] = dataclasses.replace(self.fleet[sign_id], host=found.host)
        return before is not None and before != self.signs.get(sign_id)

    def close(self) -> None:
        self.addresses.close()
