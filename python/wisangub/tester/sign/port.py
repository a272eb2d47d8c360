"""Requests to the sign under test, and which of the datagrams that come in are their replies."""

import math
from dataclasses import dataclass, field
from typing import Callable, Iterator

from wisangub.snmp import wire
from wisangub.tester.requests.messages import spelled
from wisangub.tester.requests.objects import Name
from wisangub.tester.requests.steps import FIRST_NUMBER, LAST_NUMBER

from .clock import Clock
from .link import Link
from .way import Oddity, Way

_TRIES, _LOSSY_TRIES = 3, 8
_PAUSE, _AT_ONCE = 0.05, 0.001  # seconds in which nobody looked, and within which a reply was there already
_MOST_KEPT = 8  # datagrams of one request number that are remembered
_LEAST_WAIT = 0.05  # seconds that a request waits at least until it is late beside others
_LEAST_LOOK = 0.05  # seconds that a look waits at least
_URGENT, _BETWEEN = 1.0, 0.3  # seconds of silence after which a read is sent again and again, and between two of these


@dataclass
class Heard:
    """What came of a request: the reply or None, how often it was sent, and when it was sent last and answered."""

    reply: bytes | None
    tries: int
    begun: float
    ended: float


@dataclass
class _Awaited:
    """A SET whose reply may come while others are waited for."""

    number: int
    octets: bytes
    reply: bytes | None = None


@dataclass
class Port:
    """The sign under test. Replies to earlier requests, late or doubled, are passed over and counted."""

    link: Link
    clock: Clock
    wait: float = 1.0
    number: int = FIRST_NUMBER
    odd: dict[int, list[bytes]] = field(default_factory=dict)  # what was sent under numbers that are not our newest
    sent: int = 0
    passed_over: int = 0
    asked_again: int = 0
    given_up: set[int] = field(default_factory=set)  # numbers of looks whose replies were not waited for
    strays: list[int] = field(default_factory=list)  # numbers of SETs whose replies came late, or once more
    settings: frozenset[Name] = frozenset()  # objects of which all that is ever written is kept:
    written: set[wire.Binding] = field(default_factory=set)
    _awaited: _Awaited | None = None
    _looked: float = 0.0  # when it was last looked whether something had come
    _is_timed: bool = True  # whether it is known when the last reply came
    patience: int | None = None  # requests in a row without a reply after which the test ends

    def __post_init__(self) -> None:
        self.way = Way(self.clock, self.wait, self.patience)

    def new_number(self) -> int:
        """A request number that was not used for long."""
        self.number = self.number + 1 if self.number < LAST_NUMBER else FIRST_NUMBER
        return self.number

    def note(self, number: int, octets: bytes) -> None:
        """A request number that is not the newest of our row is used, perhaps not for the first time."""
        sent = self.odd.setdefault(number, [])
        if octets in sent:
            sent.remove(octets)
        self.odd[number] = [*sent, octets][-_MOST_KEPT:]

    def send(self, octets: bytes) -> None:
        """Sends octets, and counts them."""
        self.sent += 1
        message = spelled(octets)
        if message is not None and message.kind == wire.SET:
            self.written.update(bound for bound in message.bindings if bound[0] in self.settings)
        self.link.send(octets)

    def is_earlier(self, number: int, waited_for: int) -> bool:
        """Whether a reply with this number belongs to another request that was sent."""
        return number != waited_for and (FIRST_NUMBER < number <= self.number or number in self.odd)

    def is_of_another(self, reply: wire.Message, number: int, octets: bytes) -> bool:
        """Whether a reply is none to these octets, by its number or as it answers earlier ones with this number."""
        if reply.number != number:
            return self.is_earlier(reply.number, number)
        if _may_answer(reply, octets):
            return False
        return any(_may_answer(reply, earlier) for earlier in self.odd.get(number, []) if earlier != octets)

    def _receive(self, until: float) -> bytes | None:
        """What comes in until this moment, and whether it is known how late it is: not of what lay there already when
        nobody had looked for a while."""
        begun = self.clock.now()
        is_paused = begun - self._looked > _PAUSE
        reply = self.link.receive(until)
        now = self.clock.now()
        if now - max(begun, until) > _PAUSE:
            self.way.stood_still(now - max(begun, until))
        self._is_timed = not is_paused or now - begun > _AT_ONCE
        self._looked = now if not is_paused or self._is_timed or reply is None else self._looked
        return reply

    def listen(self, seconds: float) -> None:
        """Waits so long, and passes over the replies that come."""
        until = self.clock.now() + seconds
        while (reply := self._receive(until)) is not None:
            message = spelled(reply)
            if message is not None and self.is_earlier(message.number, 0):
                self._pass_over(reply, message, 0)
            else:
                self.note_beside(reply, message)

    def await_reply(self, number: int, octets: bytes, expected: bytes | None, until: float) -> bytes | None:
        """The reply to these octets with this number, or one that belongs to no request at all."""
        while True:
            reply = self._receive(until)
            if reply is None or reply == expected:
                return reply
            message = spelled(reply)
            if message is None or not self.is_of_another(message, number, octets):
                self._note_odd(reply, message, number)
                return reply
            self._pass_over(reply, message, number)

    def note_beside(self, reply: bytes, message: wire.Message | None) -> None:
        """What came beside the replies that are waited for: one that is late or doubled is nothing odd."""
        number = None if message is None else message.number
        if number is None:
            self.way.note(Oddity.GARBAGE, reply)
        elif number not in self.odd and not FIRST_NUMBER < number <= self.number:
            self.way.note(Oddity.NUMBER, reply)

    def _note_odd(self, reply: bytes, message: wire.Message | None, number: int) -> None:
        if message is None:
            self.way.note(Oddity.GARBAGE, reply)
        elif message.number != number:
            self.way.note(Oddity.NUMBER, reply)

    def _pass_over(self, reply: bytes, message: wire.Message, number: int) -> None:
        """A reply to an earlier request, or one that has only that request's number."""
        asked = (
            self.way.earlier(message.number) if message.number != number and message.number not in self.odd else None
        )
        if asked is not None and not _may_answer(message, asked):
            self.way.note(Oddity.ANOTHER, reply)
            return
        if self._is_kept(reply, message):
            return
        if message.number in self.given_up:
            self.way.looked(message.number)
            return
        self.passed_over += 1
        self.way.passed_over(message.number, self._is_timed)
        self._note_stray(message.number)

    def _is_kept(self, reply: bytes, message: wire.Message) -> bool:
        """Whether it is the reply to the SET that is waited for besides, which is kept."""
        awaited = self._awaited
        if awaited is None or awaited.reply is not None or message.number != awaited.number:
            return False
        if not _may_answer(message, awaited.octets):
            return False
        awaited.reply = reply
        return True

    def _note_stray(self, number: int) -> None:
        """A reply came late or once more: so may the request have, which changes a sign where it is a SET."""
        asked = spelled(self.way.earlier(number) or b"")
        if asked is not None and asked.kind == wire.SET:
            self.strays.append(number)

    def ask_once(
        self,
        octets: bytes,
        number: int,
        expected: bytes | None = None,
        wait: float | None = None,
        is_answered: bool = True,
        is_again: bool = False,
        is_counted: bool = True,
    ) -> Heard:
        """A request that is sent once. The octets of the reply that is expected need not be looked into. What is to
        have no answer is not `is_answered`, and what is not waited for as ever is not counted as lost."""
        begun = self._begin(octets, number, is_answered, is_again)
        reply = self.await_reply(number, octets, expected, begun + (self.wait if wait is None else wait))
        return self._ended(reply, number, begun, is_answered, is_counted)

    def _begin(self, octets: bytes, number: int, is_answered: bool = True, is_again: bool = False) -> float:
        """A request is sent, at this moment."""
        earlier = self.way.earlier(number)
        if earlier is not None and earlier != octets:
            self.note(number, earlier)
        if number != self.number:
            self.note(number, octets)
        if is_answered:
            self.way.send(number, octets, is_again)
        begun = self.clock.now()
        self.send(octets)
        return begun

    def _ended(
        self, reply: bytes | None, number: int, begun: float, is_answered: bool = True, is_counted: bool = True
    ) -> Heard:
        """What came of a request that was sent at this moment."""
        if reply is not None:
            self.way.answered(number, is_answered and is_counted)
        elif is_answered:
            self.way.silent(number, is_counted)
        return Heard(reply, 1, begun, self.clock.now())

    def ask_watched(
        self, octets: bytes, number: int, expected: bytes, is_seen: Callable[[], bool], is_again: bool
    ) -> Heard:
        """A SET that is sent once. Where its reply is late beside others it is looked whether it is seen to be taken;
        then its reply is not waited for."""
        begun = self._begin(octets, number, is_again=is_again)
        reply = self.await_reply(number, octets, expected, begun + self.soon())
        if reply is None and self.clock.now() < begun + self.wait:
            awaited = self._awaited = _Awaited(number, octets)
            try:
                is_taken = is_seen()
            finally:
                self._awaited = None
            reply = awaited.reply
            if reply is None and not is_taken:
                reply = self.await_reply(number, octets, expected, begun + self.wait)
        return self._ended(reply, number, begun)

    def look(self, octets: bytes, number: int) -> Heard:
        """A read whose reply counts only where it comes about as fast as replies do."""
        wait = min(self.wait, max(_LEAST_LOOK, 4 * self.way.usual()))
        heard = self.ask_once(octets, number, wait=wait, is_counted=False)
        if heard.reply is None:
            self.given_up.add(number)
        return heard

    def soon(self) -> float:
        """Seconds after which a reply is late beside others, on a way that loses some."""
        return min(self.wait, max(_LEAST_WAIT, 4 * self.way.usual())) if self.is_lossy() else self.wait

    def waits(self) -> Iterator[float]:
        """Seconds that a read waits each time that it is sent: on a way that loses some it is sent more often, until
        that is no reason for no reply, and soon at first. Where nothing has come for a second there, it is sent so
        often that what is lost by chance makes no long silence."""
        is_lossy = self.is_lossy()
        for at in range(_LOSSY_TRIES if is_lossy else _TRIES):
            wait = min(self.wait, self.soon() * 2 ** (at // 2))
            times = math.ceil(wait / _BETWEEN) if is_lossy and self.way.silence() >= _URGENT else 1
            yield from [wait / times] * times

    def ask(self, octets: bytes, number: int, expected: bytes | None = None) -> Heard:
        """A request that may be asked again, three times in all, and more on a way that loses some."""
        for tries, wait in enumerate(self.waits(), 1):
            heard = self.ask_once(octets, number, expected, wait, is_again=tries > 1)
            heard.tries = tries
            if heard.reply is not None:
                break
        self.asked_again += tries - 1 if heard.reply is not None else 0
        return heard

    def is_lossy(self) -> bool:
        """Whether replies were seen to be lost, late or doubled."""
        return self.passed_over + self.asked_again > 0

    def drop(self, octets: bytes, number: int, sentinel: bytes, sentinel_number: int) -> tuple[bytes | None, bool]:
        """Octets that are to have no answer, and a Get after them: their answer, and whether the Get was answered."""
        self.send(octets)
        answer: bytes | None = None
        for tries, wait in enumerate(self.waits()):
            self.way.send(sentinel_number, sentinel, is_again=tries > 0)
            until = self.clock.now() + wait
            self.send(sentinel)
            while (reply := self._receive(until)) is not None:
                message = spelled(reply)
                if message is not None and message.number == sentinel_number:
                    self.way.answered(sentinel_number)
                    return answer, True
                if message is None or not self.is_of_another(message, number, octets):
                    answer = reply
                else:
                    self._pass_over(reply, message, number)
            self.way.silent(sentinel_number)
        return answer, False


def _may_answer(reply: wire.Message, octets: bytes) -> bool:
    """Whether a reply may be one to these octets, by its community and names, and its values where it repeats them."""
    request = spelled(octets)
    if request is None or request.community != reply.community or len(request.bindings) != len(reply.bindings):
        return False
    if reply.status or request.kind == wire.SET:
        return reply.bindings == request.bindings
    pairs = [(name, answered) for (name, _), (answered, _) in zip(request.bindings, reply.bindings)]
    if request.kind == wire.GET_NEXT:
        return all(answered > name for name, answered in pairs)
    return all(answered == name for name, answered in pairs)
