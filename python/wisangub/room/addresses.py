"""What the addresses of signs resolve to, spelled in one way: 127.0.0.1, 127.1 and localhost are one address.

Names are looked up in threads of their own, since a lookup may take long, and again and again, since what a name stands
for may change.
"""

import ipaddress
import socket
import threading
import time
from dataclasses import dataclass, field
from socket import getaddrinfo
from typing import Any, Iterable

from wisangub.endpoint.sockets import interface

AGAIN = 60.0  # seconds from one lookup of a name to the next
PATIENCE = 5.0  # seconds in which the names of a fleet are looked up at the start
_THREADS = 8
_Place = tuple[str, int]  # a host as the fleet says it, and a port


@dataclass(frozen=True)
class Found:
    """What a host stands for: the one to speak to, and every address of it with the port; or why there is none."""

    host: str = ""
    every: frozenset[str] = frozenset()
    fault: str = ""


def _spelled(address: tuple[Any, ...]) -> str:
    """An address with its port in the one way that it is compared by. The address of no machine is this machine's, and
    one of IPv4 within IPv6 is that of IPv4."""
    ip: ipaddress.IPv4Address | ipaddress.IPv6Address = ipaddress.ip_address(str(address[0]).partition("%")[0])
    if isinstance(ip, ipaddress.IPv6Address) and ip.ipv4_mapped is not None:
        ip = ip.ipv4_mapped
    if ip.is_unspecified:
        ip = ipaddress.ip_address("127.0.0.1" if ip.version == 4 else "::1")
    if ip.version == 4:
        return f"{ip}:{address[1]}"
    of = f"%{interface(address[3])}" if len(address) == 4 and address[3] else ""
    return f"[{ip}{of}]:{address[1]}"


def looked_up(place: _Place, flags: int = 0) -> Found:
    """What a host stands for now. Of many addresses the first by IPv4 and by its digits is spoken to, in whatever order
    they come."""
    try:
        found = getaddrinfo(*place, type=socket.SOCK_DGRAM, flags=flags)
    except (OSError, UnicodeError) as fault:
        return Found(fault=f"{place[0]}: {getattr(fault, 'strerror', None) or 'no such host'}")
    ordered = sorted((one[0] != socket.AF_INET, str(one[4][0])) for one in found)
    return Found(ordered[0][1], frozenset(_spelled(one[4]) for one in found))


def is_this_machine(host: str) -> bool:
    """Whether only this machine reaches what listens there: all that the host stands for is of the loopback."""
    try:
        found = socket.getaddrinfo(host, None)
    except (OSError, UnicodeError):
        return False
    return all(ipaddress.ip_address(str(one[4][0]).partition("%")[0]).is_loopback for one in found)


@dataclass
class Addresses:
    """Hosts and what they stand for, as far as it is known. A name that stood for something and is not found any more
    stands for what it stood for."""

    places: Iterable[_Place]
    again: float = AGAIN
    found: dict[_Place, Found] = field(default_factory=dict)
    changes: int = 0  # how often a host came to stand for something else
    is_done: bool = False

    def __post_init__(self) -> None:
        self.turn = threading.Lock()
        names = []
        for place in dict.fromkeys(self.places):
            found = looked_up(place, socket.AI_NUMERICHOST)
            if found.fault:
                names.append(place)
            else:
                self.found[place] = found
        slices = [names[at::_THREADS] for at in range(_THREADS) if names[at::_THREADS]]
        self.first = [threading.Event() for _ in slices]
        for places, first in zip(slices, self.first):
            threading.Thread(target=self.look, args=(places, first), name="addresses", daemon=True).start()

    def look(self, places: list[_Place], first: threading.Event) -> None:
        """A thread's names, again and again."""
        while not self.is_done:
            for place in places:
                if self.is_done:
                    break
                self._take(place, looked_up(place))
            first.set()
            time.sleep(self.again)

    def _take(self, place: _Place, found: Found) -> None:
        """What a host stands for now."""
        before = self.found.get(place)
        if found != before and (not found.fault or before is None or before.fault):
            self.found[place] = found
            with self.turn:
                self.changes += 1

    def of(self, place: _Place) -> Found:
        return self.found.get(place) or Found(fault=f"{place[0]}: it is being looked up")

    def wait(self, seconds: float = PATIENCE) -> "Addresses":
        """Waits until each name was looked up once, but not for longer."""
        ends = time.monotonic() + seconds
        for first in self.first:
            first.wait(max(0.0, ends - time.monotonic()))
        return self

    def close(self) -> None:
        """No name is looked up again."""
        self.is_done = True


def of_places(places: Iterable[_Place]) -> dict[_Place, Found]:
    """What hosts stand for now, as far as it is found in time."""
    held = Addresses(list(places)).wait()
    held.close()
    return {place: held.of(place) for place in held.places}
