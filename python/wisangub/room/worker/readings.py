"""What the signs show: each sign is asked whenever its time has come."""

import json
from functools import partial

from wisangub.endpoint.asking import Name, Values
from wisangub.room.fleet import Sign
from wisangub.room.store.readings import Said
from wisangub.room.store.store import Store
from wisangub.snmp.names import Memory, cell, scalar

from .gets import Gets

_MINUTES = "minutes"
_SHOWN = (Memory.CURRENT, 1)  # the row of what is shown
ASKED: dict[str, Name] = {
    "source": scalar("dmsMsgTableSource"),
    "mode": scalar("dmsMsgSourceMode"),
    "requester": scalar("dmsMsgRequesterID"),
    _MINUTES: scalar("dmsMessageTimeRemaining"),
    "text": cell("dmsMessageMultiString", *_SHOWN),
    "owner": cell("dmsMessageOwner", *_SHOWN),
    "beacon": cell("dmsMessageBeacon", *_SHOWN),
    "pixel": cell("dmsMessagePixelService", *_SHOWN),
    "priority": cell("dmsMessageRunTimePriority", *_SHOWN),
}  # the objects of a reading, in the order in which its Get names them


class Readings:
    """The Gets for what is shown; at most `most` Gets of all kinds wait at a time."""

    def __init__(self, store: Store, signs: dict[int, Sign], gets: Gets, most: int) -> None:
        self.store, self.signs, self.gets, self.most = store, signs, gets, most
        self.said: list[Said] = []

    def begin(self) -> None:
        """Sends a Get to each sign whose reading is due; a sign of another fleet is let be."""
        room = max(0, self.most - len(self.gets.waiting))
        due = [sign_id for sign_id in self.store.readings.to_read() if sign_id in self.signs][:room]
        for sign_id, number in self.store.readings.due(due):
            if (sign := self.signs.get(sign_id)) is not None:  # the worker may have found it to stand still meanwhile
                self.gets.begin(sign, number, list(ASKED.values()), partial(self.end, sign_id, number))

    def end(self, sign_id: int, number: int, values: Values | str) -> None:
        """What came of it: the minutes that are left and what is shown, or why there is none of it."""
        if isinstance(values, str):
            self.said.append(Said(sign_id, number, fault=values))
            return
        held = dict(zip(ASKED, values))
        minutes = held.pop(_MINUTES)
        self.said.append(Said(sign_id, number, minutes if isinstance(minutes, int) else None, json.dumps(held)))

    def keep(self) -> None:
        """Puts what was said since the last time into the database."""
        said, self.said = self.said, []
        self.store.readings.keep(said)
