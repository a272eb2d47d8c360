"""The last datagrams at the sign's front end with their replies, and what is said of them."""

import collections
import threading
from typing import NamedTuple

from wisangub.endpoint.sign_front_end import Heard
from wisangub.endpoint.sockets import named
from wisangub.snmp.datagrams import fields_of
from wisangub.snmp.mib import Mib

MOST = 50
Said = dict[str, object]


class Exchange(NamedTuple):
    """A datagram, the digits of the reply that the sign made or nothing, and what became of both in words."""

    number: int
    time: float
    heard: Heard
    reply: bytes
    fate: str


class Exchanges:
    """The last fifty. The front end adds them, and a page's thread has them said; what was said is kept as long as they
    are."""

    def __init__(self, reader: bytes, writer: bytes) -> None:
        self.who = {reader.decode("latin-1"): "reader", writer.decode("latin-1"): "writer"}
        self.mib = Mib.read()
        self.held: collections.deque[Exchange] = collections.deque(maxlen=MOST)
        self.count = 0
        self.lock, self.said = threading.Lock(), dict[int, Said]()

    def add(self, time: float, heard: Heard, reply: bytes, fate: str) -> None:
        """One more, in the front end's thread."""
        self.count += 1
        self.held.append(Exchange(self.count, time, heard, reply, fate))

    def listed(self) -> list[Said]:
        """What is said of them, the newest first."""
        with self.lock:
            held = self.snapshot()
            self.said = {one.number: self.said.get(one.number) or self.say(one) for one in held}
            return [self.said[one.number] for one in reversed(held)]

    def snapshot(self) -> list[Exchange]:
        """Those that are there now, though the front end adds more meanwhile."""
        while True:
            try:
                return list(self.held)
            except RuntimeError:
                continue

    def say(self, one: Exchange) -> Said:
        """What is said of one of them."""
        octets, sender = one.heard
        return {
            "number": one.number,
            "time": one.time,
            "peer": named(sender),
            "octets": len(octets),
            "fate": one.fate,
            "request": self.fields(octets),
            "reply": self.fields(bytes.fromhex(one.reply.decode("ascii"))) if one.reply else None,
        }

    def fields(self, octets: bytes) -> Said:
        """A datagram field by field. Of a community it says whose it is, and not the word: whoever knows that may
        write."""
        found = fields_of(self.mib, octets)
        if "community" in found:
            found["community"] = self.who.get(str(found["community"]), "another")
        return found
