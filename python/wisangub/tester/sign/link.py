"""The way to the sign under test: datagrams out, datagrams in."""

import contextlib
import errno
import select
import socket
from typing import Iterator, Protocol

from wisangub.refusal import Refusal

from .clock import Clock
from .held import hold

_MOST_RECEIVED = 65_535
_MOST_BEHIND = 10_000  # datagrams that lay there already when the time was over; more than a socket has room for
# of a datagram that nobody hears, or of one before it: no port, no way there, no network, a firewall, no room, too long
_UNHEARD = frozenset(
    (
        errno.ECONNREFUSED,
        errno.EHOSTUNREACH,
        errno.EHOSTDOWN,
        errno.ENETUNREACH,
        errno.ENETDOWN,
        errno.EPERM,
        errno.EACCES,
        errno.ENOBUFS,
        errno.EMSGSIZE,
    )
)


class Link(Protocol):
    """What conform asks of a socket."""

    def send(self, octets: bytes) -> None:
        ...

    def receive(self, until: float) -> bytes | None:
        """The next datagram, or None where the clock comes to this moment first."""

    def close(self) -> None:
        ...


@contextlib.contextmanager
def unheard() -> Iterator[None]:
    """Passes over the faults of a datagram that nobody hears. Raises OSError for others."""
    try:
        yield
    except OSError as fault:
        if fault.errno not in _UNHEARD:
            raise


def resolved(host: str, port: int) -> tuple[socket.AddressFamily, tuple[str | int, ...]]:
    """The family and the address of a host, of IPv4 where a name has both. Raises Refusal where there is no such
    host."""
    try:
        found = socket.getaddrinfo(host, port, type=socket.SOCK_DGRAM)
    except (OSError, UnicodeError) as fault:
        raise Refusal(f"{host}: {getattr(fault, 'strerror', None) or 'no such host'}") from None
    family, _, _, _, address = min(found, key=lambda one: one[0] != socket.AF_INET)
    return family, address


class UdpLink:
    """A UDP socket that hears one address alone. Raises Refusal where there is no such host, or where another process
    of this user tests the sign there."""

    def __init__(self, host: str, port: int, clock: Clock) -> None:
        family, address = resolved(host, port)
        self.socket = socket.socket(family, socket.SOCK_DGRAM)
        self.socket.connect(address)
        self.clock, self._behind = clock, 0
        try:
            self._held = hold(self.socket.getpeername())
        except Refusal:
            self.socket.close()
            raise

    def addresses(self) -> tuple[tuple[str, int], tuple[str, int]]:
        """Where datagrams go out, and where they go to."""
        (here, port, *_), (there, other, *_) = self.socket.getsockname(), self.socket.getpeername()
        return (str(here), int(port)), (str(there), int(other))

    def send(self, octets: bytes) -> None:
        """What nobody hears has no answer, and is no fault of the test."""
        with unheard():
            self.socket.send(octets)

    def receive(self, until: float) -> bytes | None:
        while True:
            left = max(0.0, until - self.clock.now())
            self._behind = 0 if left else self._behind + 1
            if self._behind > _MOST_BEHIND or not select.select([self.socket], [], [], left)[0]:
                self._behind = 0
                return None
            with unheard():
                return self.socket.recv(_MOST_RECEIVED)

    def close(self) -> None:
        self.socket.close()
        if self._held is not None:
            self._held.close()
