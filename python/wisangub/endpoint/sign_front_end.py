"""A sign behind a UDP port: what waits is recorded, handed over and answered, many datagrams at a time."""

from __future__ import annotations

import socket
from binascii import hexlify, unhexlify
from typing import TYPE_CHECKING

from wisangub.output import LOG
from wisangub.process.coprocess import CoProcess
from wisangub.refusal import Refusal, reason
from wisangub.snmp.gets import MOST_DATAGRAM

from .clock import running
from .keeper import Keeper
from .limit import Limit
from .near import Near
from .printing import PRINTED
from .shortening import Shortening
from .sockets import Address, Waiting, received, wait_at_most
from .sorts import CHANGING, HEARD, UNANSWERED, Sort, sort_of
from .watching import Watcher

if TYPE_CHECKING:
    from .firmware import Firmware
    from .log import Log

AT_ONCE = 16  # datagrams that are recorded with one sync, and handed over together
AT_ONCE_TICKS = 1000  # seconds that are handed over together
SHORT = 0.05  # seconds that a call waits which receives a datagram
_ALONE = 16  # datagrams that come one at a time between two looks for more that wait
Heard = tuple[bytes, Address]
Sorted = tuple[Heard, Sort]
Communities = tuple[bytes, bytes]  # the reader's and the writer's


def line_of(octets: bytes) -> bytes:
    """The line that hands a datagram over."""
    return b"datagram " + (hexlify(octets) or b"-")


class SignFrontEnd:
    """`lose`: every so many datagrams one is lost, 0 for none. Without a keeper nothing is kept. `up` is the moment up
    to which the sign was told the time. With a keeper the communities are known, and a limit. A watcher is told what
    passes. With firmware there are objects beside the sign's. A journal is shortened where there is a keeper of it."""

    def __init__(
        self,
        sign: CoProcess,
        udp_socket: socket.socket,
        keeper: Keeper | None,
        log: Log | None,
        up: float,
        lose: int = 0,
        is_quiet: bool = False,
        communities: Communities = (b"", b""),
        limit: Limit[Heard] | None = None,
        watcher: Watcher | None = None,
        firmware: Firmware | None = None,
        shortening: Shortening | None = None,
    ) -> None:
        self.sign, self.udp_socket, self.keeper, self.log = sign, udp_socket, keeper, log
        self.communities, self.limit = communities, limit or Limit()
        self.up, self.lose, self.is_quiet, self.count = up, lose, is_quiet, 0
        self.watcher, self.firmware, self.shortening = watcher or Watcher(), firmware, shortening
        self.alone = _ALONE  # datagrams in a row behind which none waited

    def serve(self, waiting: Waiting, has_ticks: bool) -> bool:
        """Until it is stopped. Seconds that have passed go before datagrams that wait. Whether all is recorded that
        should be."""
        files, near = [self.udp_socket.fileno(), *self.watcher.files()], Near(self.sign.process.pid)
        wait_at_most(self.udp_socket, SHORT)
        while not waiting.is_stopped:
            if self.firmware:
                self.firmware.turn(self.sign)
            if self.shortening and self.keeper:
                self.shortening.turn(self.sign, self.keeper)
            if near.allowed and len(files) == 1 and not self.limit.waiting:
                heard = self.waiting_datagrams(0)  # one comes soon, and is waited for by the call that receives it
            elif waiting.until(files, self.pause(running(), has_ticks)):
                heard = self.waiting_datagrams()
            else:
                heard = []
            now = running()
            near.turn(now)
            if has_ticks and now >= self.up + 1:
                self.tick()
            if heard or self.limit.wait(now) == 0.0:
                self.answer(heard)
            self.watcher.turn(self)
            PRINTED.turn()
        if has_ticks:
            self.tick()
        return self.keeper is None or self.keeper.end(self.up if has_ticks else running())

    def pause(self, now: float, has_ticks: bool) -> float | None:
        """The seconds until something is to be done though no datagram comes; None where nothing is."""
        left = self.up + 1 - now if has_ticks else None
        for wait in (self.limit.wait(now), self.watcher.wait(now), PRINTED.pause):
            if wait is not None and (left is None or wait < left):
                left = wait
        return left

    def tick(self) -> None:
        """Hands over the seconds that have passed."""
        while (seconds := min(int(running() - self.up), AT_ONCE_TICKS)) > 0:
            self.watcher.before_seconds()
            self.sign.hand([b"tick"] * seconds)
            self.up += seconds
            if self.keeper:
                self.keeper.tick(seconds, self.up)
            self.watcher.after_seconds()

    def waiting_datagrams(self, how: int = socket.MSG_DONTWAIT) -> list[Heard]:
        """What waits, at most so many at once; one that is longer than this profile's counts as lost. Where datagrams
        come one at a time the next one is mostly not looked for, which takes as long as to receive it."""
        found: list[Heard] = []
        most = AT_ONCE if self.alone >= _ALONE else 1
        while len(found) < most and (one := received(self.udp_socket, how)) is not None:
            how = socket.MSG_DONTWAIT
            self.count += 1
            if self.lose and self.count % self.lose == 0 or len(one[0]) > MOST_DATAGRAM or self.watcher.loses():
                if self.log:
                    self.log.event("lost", one[1], {"octets": len(one[0])})
                self.watcher.left_out(one, "lost")
                continue
            found.append(one)
        self.alone = self.alone + 1 if most == 1 else _ALONE if len(found) > 1 else 0
        return found

    def answer(self, heard: list[Heard]) -> None:
        """Records what may change the sign, hands all over, and sends the replies in order. What the disk refuses is
        not handed over."""
        some = self.sorted(heard)
        if self.keeper:
            some = self.recorded(self.keeper, some)
        if not some:
            return
        if self.log:
            for (octets, sender), _ in some:
                self.log.datagram("in", sender, octets)
        if self.firmware:
            self.firmware.keep_time(self.sign)
        answers = self.sign.hand([line_of(one[0]) for one, _ in some])
        answered = [one[1] for one, answer in zip(some, answers) if self.is_answered(one, answer)]
        if self.keeper and answered:
            self.keeper.heard(by_kept=CHANGING in answered)
        if self.firmware and any(sort_of(octets, *self.communities) is CHANGING for (octets, _), _ in some):
            self.firmware.tell(self.sign)

    def sorted(self, heard: list[Heard]) -> list[Sorted]:
        """What is handed over now: what waited for its second, and what is heard, but for what has to wait or is
        dropped. Without a keeper it is all the same."""
        if self.keeper is None:
            return [(one, CHANGING) for one in heard]
        now = running()
        some = [(one, CHANGING) for one in self.limit.due(now, AT_ONCE)]
        for one in heard:
            sort, dropped = sort_of(one[0], *self.communities), self.limit.dropped
            if sort is not CHANGING or self.limit.lets(one, now):
                some.append((one, sort))
            elif self.limit.dropped > dropped:
                if self.log:
                    self.log.event("too many", one[1], {"octets": len(one[0]), "dropped": self.limit.dropped})
                self.watcher.left_out(one, "too many in a second")
        return some

    def recorded(self, keeper: Keeper, some: list[Sorted]) -> list[Sorted]:
        """What may be handed over, once what changes the sign is recorded."""
        changing = [line_of(one[0]) for one, sort in some if sort is CHANGING]
        if not changing:
            return some
        self.alone = _ALONE  # a sync takes longer than to look for more
        return some if keeper.keep(changing) else self.without(some)

    def without(self, some: list[Sorted]) -> list[Sorted]:
        """What need not be recorded, since the rest cannot be."""
        for one, sort in some:
            if sort is CHANGING:
                if self.log:
                    self.log.event("not recorded", one[1], {"octets": len(one[0])})
                self.watcher.left_out(one, "the disk does not take it")
        return [one for one in some if one[1] is not CHANGING]

    def is_answered(self, one: Sorted, answer: bytes) -> bool:
        """Sends a reply, where there is one. A change that is not recorded would not be there after a start: its reply
        is not sent, and the front end ends."""
        heard, sort = one
        if sort is UNANSWERED and answer != b"dropped" or sort is HEARD and answer.startswith(b"accepted"):
            raise Refusal("the program answered what no sign answers: it is not recorded", 1)
        return self.reply(answer, heard[1], self.watcher.answered(heard, answer))

    def reply(self, answer: bytes, sender: Address, is_lost: bool) -> bool:
        """Sends a reply, where there is one and it is not to be lost, and says what was accepted."""
        word, _, rest = answer.partition(b" ")
        if word not in (b"reply", b"accepted"):
            if self.log:
                self.log.event(answer.decode("latin-1"), sender)
            return False
        if word == b"accepted":
            code, _, rest = rest.partition(b" ")
            self.accepted(code.decode(), sender)
        octets = unhexlify(rest)
        if is_lost:
            if self.log:
                self.log.event("reply lost", sender, {"octets": len(octets)})
            return True
        try:
            self.udp_socket.sendto(octets, sender)
        except OSError as fault:
            LOG.info(f"a reply is lost: {reason(fault)}")
        if self.log:
            self.log.datagram("out", sender, octets)
        return True

    def accepted(self, code: str, sender: Address) -> None:
        """Tells of an activation."""
        if not self.is_quiet:
            PRINTED.print(f"accepted {code}")
        if self.log:
            self.log.event("accepted", sender, {"code": code})
