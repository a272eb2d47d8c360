"""UDP addresses of either family, and sockets over them."""

import contextlib
import re
import select
import signal
import socket
import struct
from typing import Any, Callable, Iterable

from wisangub.refusal import Refusal
from wisangub.snmp.gets import MOST_DATAGRAM

MOST_FAULTS = 100  # of earlier datagrams, that are passed over at once
_MOST_STRAYS = 16  # datagrams from elsewhere that are read at once, and senders that are told
_MOST_WAIT = 86_400.0  # seconds that are waited for at once
_MOST_SIGNALS = 4096  # that are forgotten at once
Address = tuple[Any, ...]


def named(address: Address) -> str:
    """HOST:PORT, an IPv6 host in brackets, with its interface where it is of one alone."""
    host, port = address[:2]
    if len(address) == 4 and address[3] and "%" not in host:
        host += f"%{interface(address[3])}"
    return f"[{host}]:{port}" if ":" in host else f"{host}:{port}"


def interface(number: int) -> str:
    """The name of an interface, its number where it has none any more."""
    try:
        return socket.if_indextoname(number)
    except OSError:
        return str(number)


def host_and_port(words: str) -> tuple[str, int]:
    """Of `HOST:PORT` or `[ADDRESS]:PORT`."""
    found = re.fullmatch(r"\[([^\[\]]+)\]:([0-9]{1,5})|([^:\[\]]+):([0-9]{1,5})", words)
    port = int(found[2] or found[4]) if found else 0
    if not found or not 1 <= port <= 65535:
        raise Refusal(f"{words!r} is no HOST:PORT (an IPv6 address stands in brackets, and a port is 1 to 65535)")
    return found[1] or found[3], port


def _resolved(host: str, port: int) -> tuple[int, Address]:
    """The family and the address of a host's name or address, of IPv4 where a name has both."""
    try:
        found = min(socket.getaddrinfo(host, port, type=socket.SOCK_DGRAM), key=lambda one: one[0] != socket.AF_INET)
    except (OSError, UnicodeError) as fault:
        raise Refusal(f"{host}: {getattr(fault, 'strerror', None) or 'no such host'}") from fault
    return found[0], found[4]


def bound(host: str, port: int) -> socket.socket:
    """A socket at this address."""
    if not 0 <= port <= 65535:
        raise Refusal(f"{port} is no port: 0 to 65535")
    family, address = _resolved(host, port)
    made = socket.socket(family, socket.SOCK_DGRAM)
    try:
        made.bind(address)
    except OSError as fault:
        raise Refusal(f"{named(address)}: {fault.strerror}") from fault
    return made


def connected(host: str, port: int) -> socket.socket:
    """A socket that sends to this address, and takes datagrams from it alone."""
    family, address = _resolved(host, port)
    made = socket.socket(family, socket.SOCK_DGRAM)
    try:
        made.connect(address)
    except OSError as fault:
        raise Refusal(f"{named(address)}: {fault.strerror}") from fault
    return made


class Strays:
    """What comes to a connected socket's port from elsewhere, which that socket does not take. Of each sender it is
    known once that a reply came from there."""

    def __init__(self, udp_socket: socket.socket) -> None:
        self._known: set[Address] = set()
        self.socket = socket.socket(udp_socket.family, socket.SOCK_DGRAM)
        for one in (udp_socket, self.socket):  # for this moment alone: nobody else may take the port
            one.setsockopt(socket.SOL_SOCKET, socket.SO_REUSEADDR, 1)
        with contextlib.suppress(OSError):  # a system that has no such socket tells of no stray
            self.socket.bind(udp_socket.getsockname())
        for one in (udp_socket, self.socket):
            one.setsockopt(socket.SOL_SOCKET, socket.SO_REUSEADDR, 0)

    def senders(self) -> list[Address]:
        """Where replies came from since the last call, at most a few at once, each sender once."""
        from wisangub.snmp.wire import RESPONSE, spelled

        found: list[Address] = []
        for _ in range(_MOST_STRAYS):
            one = received(self.socket)
            if one is None:
                break
            message = spelled(one[0])
            is_reply = message is not None and message.kind == RESPONSE
            if is_reply and one[1] not in self._known and len(self._known) < _MOST_STRAYS:
                self._known.add(one[1])
                found.append(one[1])
        return found


def wait_at_most(udp_socket: socket.socket, seconds: float) -> None:
    """A call that waits for a datagram at this socket does so for so long."""
    microseconds = round(1_000_000 * seconds)
    udp_socket.setsockopt(socket.SOL_SOCKET, socket.SO_RCVTIMEO, struct.pack("@ll", *divmod(microseconds, 1_000_000)))


def received(udp_socket: socket.socket, how: int = socket.MSG_DONTWAIT) -> tuple[bytes, Address] | None:
    """A datagram that waits, with its sender; None where none does. What an earlier datagram met on its way, such as a
    machine that is off, is no datagram."""
    for _ in range(MOST_FAULTS):
        try:
            return udp_socket.recvfrom(MOST_DATAGRAM + 1, how)
        except (BlockingIOError, TimeoutError):
            return None
        except OSError:
            continue
    return None


def readable(udp_sockets: Iterable[socket.socket]) -> set[int]:
    """The files of those sockets at which something waits now."""
    ready = select.poll()
    for udp_socket in udp_sockets:
        ready.register(udp_socket, select.POLLIN)
    return {file for file, _ in ready.poll(0)}


def sent(udp_socket: socket.socket, octets: bytes) -> OSError | None:
    """Sends a datagram to the socket's peer: why it is lost, or None. What an earlier datagram met on its way is told
    by the first call after it, and is no fault of this one."""
    fault: OSError | None = None
    for _ in range(2):
        try:
            udp_socket.send(octets)
            return None
        except OSError as found:
            fault = found
    return fault


class Waiting:
    """Waits for a file or a socket, and for an interrupt or a SIGTERM, which is seen between two steps and never within
    one. The next one ends the process at once, as a kill does."""

    def __init__(self) -> None:
        self.is_stopped = False
        self.files: list[int] = []  # that were waited for last, by this poll
        self.woken, self.waker = socket.socketpair()
        self.signals = self.woken.fileno()
        for one in (self.woken, self.waker):
            one.setblocking(False)
        self.ready = self.poll_of([])
        signal.set_wakeup_fd(self.waker.fileno(), warn_on_full_buffer=False)
        stop: Callable[..., None] = self.stop
        for number in (signal.SIGINT, signal.SIGTERM):
            signal.signal(number, stop)

    def stop(self, *_: Any) -> None:
        """An interrupt or a SIGTERM came: the next one ends the process at once."""
        self.is_stopped = True
        for number in (signal.SIGINT, signal.SIGTERM):
            signal.signal(number, signal.SIG_DFL)

    def poll_of(self, files: list[int]) -> "select.poll":
        """What waits for these files, and for a signal."""
        ready = select.poll()
        for file in (*files, self.signals):
            ready.register(file, select.POLLIN)
        return ready

    def until(self, files: list[int], seconds: float | None) -> list[int]:
        """Which of these files can be read, after at most so many seconds."""
        if files != self.files:
            self.files, self.ready = list(files), self.poll_of(files)
        ready = self.ready.poll(None if seconds is None else 1000 * min(max(0.0, seconds), _MOST_WAIT))
        found = [file for file, _ in ready]
        if self.signals in found:
            found.remove(self.signals)
            if not self.is_stopped:
                self.forget()
        return [] if self.is_stopped else found

    def forget(self) -> None:
        """Another signal than those that stop it came, which is waited for no more."""
        with contextlib.suppress(BlockingIOError):
            self.woken.recv(_MOST_SIGNALS)
