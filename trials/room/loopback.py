"""Signs on loopback for tests: the proved sign behind sockets that lose, delay and double datagrams."""

import heapq
import random
import select
import socket
import threading
import time
from dataclasses import dataclass, field

from model import wire
from wisangub.endpoint.sockets import Address, received
from wisangub.process.coprocess import CoProcess

TROUBLE = 0.1  # of the datagrams are lost, late or doubled
LATE = 8  # ticks that a late one takes at most


@dataclass(frozen=True)
class Fates:
    """What becomes of a datagram: decided by the seed and its octets, and by nothing that a machine's speed changes."""

    seed: int
    trouble: float = TROUBLE

    def of(self, sign: str, octets: bytes, count: int) -> list[float]:
        """After how many ticks it arrives, each time that it does; `count` tells how often it was sent before."""
        chance = random.Random(f"{self.seed} {sign} {octets.hex()} {count}")
        if chance.random() >= self.trouble:
            return [0.0]
        late = chance.uniform(0.2, LATE)
        return chance.choice([[], [late], [0.0, 0.0], [0.0, late]])


@dataclass
class LoopbackSign:
    """A sign, its socket, the datagrams that came there, each from where, and what the sign accepted: request's number
    and code."""

    name: str
    process: CoProcess
    udp_socket: socket.socket
    requests: list[bytes] = field(default_factory=list)
    peers: list[Address] = field(default_factory=list)
    accepted: list[tuple[int, str]] = field(default_factory=list)
    sent: dict[bytes, int] = field(default_factory=dict)

    @property
    def port(self) -> int:
        return int(self.udp_socket.getsockname()[1])


class Loopback(threading.Thread):
    """All signs in one thread: datagrams by their fates, and ticks."""

    def __init__(self, program: str, texts: dict[str, bytes], fates: Fates, tick: float) -> None:
        super().__init__(daemon=True)
        self.fates, self.every = fates, tick
        self.is_done = False
        self.late: list[tuple[float, int, LoopbackSign, bytes, Address, bool]] = []
        self.count = 0
        self.signs = [self.made(program, name, text) for name, text in texts.items()]
        self.udp_sockets = {sign.udp_socket.fileno(): sign for sign in self.signs}

    @staticmethod
    def made(program: str, name: str, text: bytes) -> LoopbackSign:
        """A sign on a port that the system chooses."""
        process = CoProcess(program, ["sign"], text)
        process.begin(b"state", name)
        udp_socket = socket.socket(socket.AF_INET, socket.SOCK_DGRAM)
        udp_socket.bind(("127.0.0.1", 0))
        return LoopbackSign(name, process, udp_socket)

    def run(self) -> None:
        """Until it is done."""
        due = time.monotonic() + self.every
        ready = select.poll()
        for file in self.udp_sockets:
            ready.register(file, select.POLLIN)
        while not self.is_done:
            until = min(due, self.late[0][0] if self.late else due, time.monotonic() + 0.1)
            for file, _ in ready.poll(max(0.0, 1000 * (until - time.monotonic()))):
                self.heard(self.udp_sockets[file])
            now = time.monotonic()
            while self.late and self.late[0][0] <= now:
                _, _, sign, octets, peer, is_request = heapq.heappop(self.late)
                self.arrives(sign, octets, peer, is_request)
            if now >= due:
                self.tick()
                due = max(due + self.every, now)

    def tick(self) -> None:
        """A second of every sign, all at the same time."""
        for sign in self.signs:
            sign.process.write(b"tick\n")
        for sign in self.signs:
            sign.process.lines(1)

    def heard(self, sign: LoopbackSign) -> None:
        """What waits at a sign's socket was on the wire."""
        while (heard := received(sign.udp_socket)) is not None:
            sign.peers.append(heard[1])
            sign.requests.append(heard[0])
            self.under_way(sign, heard[0], heard[1], is_request=True)

    def under_way(self, sign: LoopbackSign, octets: bytes, peer: Address, is_request: bool) -> None:
        """A datagram meets its fate."""
        count = sign.sent[octets] = sign.sent.get(octets, -1) + 1
        for delay in self.fates.of(sign.name, octets, count):
            if delay:
                self.count += 1
                due = time.monotonic() + delay * self.every
                heapq.heappush(self.late, (due, self.count, sign, octets, peer, is_request))
            else:
                self.arrives(sign, octets, peer, is_request)

    def arrives(self, sign: LoopbackSign, octets: bytes, peer: Address, is_request: bool) -> None:
        """A request at the sign, or a reply at the centre."""
        if not is_request:
            sign.udp_socket.sendto(octets, peer)
            return
        word, *rest = sign.process.hand([b"datagram " + octets.hex().encode()])[0].split(b" ")
        if word == b"accepted":
            message = wire.spelled(octets)
            assert message is not None
            sign.accepted.append((message.number, rest[0].decode()))
        if word in (b"reply", b"accepted"):
            self.under_way(sign, bytes.fromhex(rest[-1].decode()), peer, is_request=False)

    def end(self) -> None:
        """Ends the signs; what went over the sockets stays to be looked at."""
        self.is_done = True
        self.join()
        for sign in self.signs:
            sign.process.end()
            sign.udp_socket.close()
