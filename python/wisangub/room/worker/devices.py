"""What signs say of themselves: each is asked once a minute, and once a day for what it has not."""

from functools import partial
from typing import Iterable, Mapping

from wisangub.endpoint.asking import Refused, Values
from wisangub.room.device import ASKED, ERRORS, LASTING, MEASURED
from wisangub.room.fleet import Sign
from wisangub.room.store.devices import DeviceSaid
from wisangub.room.store.store import Store
from wisangub.snmp import wire

from .gets import Gets
from .passes import Pass, Passes

_Held = dict[str, int | str]


class DevicePass(Pass):
    """One reading of what a sign says of itself, a Get after the other: in SNMPv1 a name that the sign has not fails
    the whole Get, so it is asked again without that one."""

    def __init__(self, devices: "Devices", sign_id: int, sign: Sign, lacking: frozenset[str] | None) -> None:
        super().__init__(sign_id, sign)
        self.devices = devices
        self.is_of_all, self.lacking = lacking is None, set(lacking or ())
        names = [name for name in ASKED if name not in self.lacking]
        self.to_ask = [names] if names else []  # those of each Get
        self.values: _Held = {}
        self.number = 0  # of the last request

    @property
    def is_done(self) -> bool:
        return not self.to_ask

    def go_on(self, number: int) -> None:
        names, self.number = self.to_ask.pop(0), number
        asked = [ASKED[name] for name in names]
        self.devices.gets.begin(self.sign, number, asked, partial(self.end, names))

    def end(self, names: list[str], values: Values | str) -> None:
        """What came of it; a sign that does not answer is asked again at the next time."""
        if isinstance(values, Refused):
            self.to_ask[:0] = self.without(names, values)
        elif isinstance(values, str):
            self.devices.going.discard(self.sign_id)
            return
        else:
            self.values.update(zip(names, values))
        self.devices.ready.append(self)

    def without(self, names: list[str], refused: Refused) -> list[list[str]]:
        """What is to be asked in place of a Get that was refused: the names but for the one at fault, or where that is
        not said or the reply was too big, each half. One that is refused alone the sign has not."""
        at = refused.place - 1
        if len(names) > 1 and (refused.status == wire.TOO_BIG or not 0 <= at < len(names)):
            middle = len(names) // 2
            return [names[:middle], names[middle:]]
        at = at if 0 <= at < len(names) else 0
        self.lacking.add(names[at])
        rest = names[:at] + names[at + 1 :]
        return [rest] if rest else []

    def said(self) -> DeviceSaid:
        """What it said."""
        errors = self.values.get(ERRORS)
        return DeviceSaid(
            self.sign_id,
            self.number,
            self._of(LASTING),
            self._of(MEASURED),
            errors if isinstance(errors, int) else 0,
            frozenset(self.lacking),
            self.is_of_all,
        )

    def _of(self, names: Iterable[str]) -> _Held:
        return {name: self.values[name] for name in names if name in self.values}


class Devices(Passes[DevicePass]):
    """The readings that are under way."""

    def __init__(self, store: Store, signs: dict[int, Sign], gets: Gets) -> None:
        super().__init__(store, signs, gets)
        self.said: list[DeviceSaid] = []

    def to_read(self) -> list[int]:
        return self.store.devices.to_read()

    def due(self, signs: Mapping[int, Sign]) -> Iterable[DevicePass]:
        found = self.store.devices.due([*signs])
        return [DevicePass(self, sign_id, signs[sign_id], lacking) for sign_id, lacking in found.items()]

    def ended(self, one: DevicePass) -> None:
        if one.number:
            self.said.append(one.said())

    def keep(self) -> None:
        """Puts what was said since the last time into the database."""
        said, self.said = self.said, []
        self.store.devices.keep(said)
