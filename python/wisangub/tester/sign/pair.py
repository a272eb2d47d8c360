"""Both signs side by side: the sign under test and ours, in the same words and with the same seconds."""

from dataclasses import dataclass, field

from wisangub.snmp import wire
from wisangub.snmp.names import scalar
from wisangub.tester.findings.compare import Kind, Mismatch, mismatch
from wisangub.tester.requests.messages import spelled
from wisangub.tester.requests.objects import Name, Row, is_validation, object_of, row_of
from wisangub.tester.requests.steps import Ask, Raw, Step, Wait, get
from wisangub.tester.state.unanswered import Fate, fate, is_command, is_refused, is_seen_taken, is_settled

from .besides import Besides
from .claimed_device import DeviceOracle
from .clock import Clock
from .oracle import Oracle
from .port import Heard, Port
from .ticks import Ticks

_OF_NAMES = (Kind.STATUS, Kind.BINDINGS, Kind.VALUE)  # differences that other objects may explain
_MOST_DOUBTS = 2  # sequences in a row that end since a tick may have come late
_SAMPLES = 3  # how often a Get whose answer is in doubt is asked anew
MOST_SENT = 3  # how often a SET is sent that is known to be lost


Likeness = tuple[object, ...]


class Inconclusive(Exception):
    """It cannot be told what the sign under test did: the sequence ends, and that is no difference."""


@dataclass
class Exchange:
    """A request and both replies."""

    step: Step
    octets: bytes
    ours: bytes | None
    theirs: bytes | None
    mismatch: Mismatch | None = None
    is_lost: bool = False  # a SET whose reply did not come, though it is known by reading what it did
    is_set: bool = False
    is_slip: bool = False  # a read that was wrong, and right when it was asked again at once
    cause: int | None = None  # for which one of the two alone refused an activation
    tries: int = 1  # how often a SET was sent


@dataclass
class Pair:
    """The sign under test behind its port, and ours behind the oracle."""

    port: Port
    oracle: Oracle
    clock: Clock
    ticks: Ticks
    communities: tuple[bytes, bytes]
    masked: set[Name] = field(default_factory=set)
    besides: Besides = field(default_factory=Besides)  # what the sign under test has that ours has not
    device: DeviceOracle | None = None  # ours, where it may have what the sign claims besides
    touched: set[Row] = field(default_factory=set)
    log: list[bytes | None] = field(default_factory=list)  # what ours was handed since it began; None is a tick
    numbers: dict[int, int] = field(default_factory=dict)
    since: int = 0  # the number of the last request before the known state was left
    answered: set[Likeness] = field(default_factory=set)  # what SETs were answered, by their likes
    requests: int = 0
    spellings: int = 0  # replies that spelled the same in other octets
    is_spelling_told: bool = False
    doubts: int = 0
    is_dirty: bool = True  # whether something was sent since the known state that may have changed a sign

    # --- ours ------------------------------------------------------------------------------------------------

    def restart_ours(self) -> None:
        """Ours is as it is made, and has had no ticks."""
        self.ticks.take_passed()
        self.oracle.restart()
        self.log.clear()

    def hand(self, octets: bytes) -> bytes | None:
        """Our reply. Of reads without a tick between them the last alone is kept in the log."""
        reply = self.oracle.datagram(octets)
        if reply is not None:
            if self.log and self.log[-1] is not None and _is_read(self.log[-1]) and _is_read(octets):
                self.log.pop()
            self.log.append(octets)
        return reply

    def become(self, log: list[bytes | None]) -> None:
        """Ours is made anew by what this log says."""
        self.oracle.restart()
        self.log = list(log)
        for entry in log:
            if entry is None:
                self.oracle.tick()
            else:
                self.oracle.datagram(entry)

    def pass_ticks(self) -> None:
        """Waits where a tick is near; ours gets the ticks that have passed."""
        self.ticks.keep_clear()
        for _ in range(self.ticks.take_passed()):
            self.oracle.tick()
            self.log.append(None)

    # --- both ------------------------------------------------------------------------------------------------

    def begin(self) -> None:
        """A sequence begins: groups of equal datagrams get numbers of their own."""
        self.numbers.clear()

    def number_of(self, step: Ask | Raw) -> int:
        """The request number of a step in this run."""
        if step.group is None:
            return self.port.new_number()
        return self.numbers.setdefault(step.group, self.port.new_number())

    def do(self, step: Step) -> Exchange | None:
        """A step at both; None for one that waits."""
        if isinstance(step, Wait):
            self.ticks.wait(step.ticks or self.ticks.is_soon())
            self.pass_ticks()
            return None
        self.requests += 1
        for samples in range(_SAMPLES):
            self.pass_ticks()
            number = self.number_of(step)
            octets = step.octets(number, self.communities)
            exchange, is_sure = self.exchange(step, octets, number)
            if exchange.mismatch is None or is_sure:
                break
            self.clock.sleep_until(self.ticks.after_doubt())
        if samples and exchange.mismatch is None:
            self.ticks.was_late()
        return self.told(exchange)

    def told(self, exchange: Exchange) -> Exchange:
        """Another spelling is told once, and counted afterwards."""
        if exchange.mismatch is not None and exchange.mismatch.kind is Kind.SPELLING:
            self.spellings += 1
            if self.is_spelling_told:
                exchange.mismatch = None
        return exchange

    def note_rows(self, message: wire.Message | None) -> None:
        """The rows that a SET may have changed."""
        if message is not None and message.kind == wire.SET:
            rows = (row_of(name) for name, _ in message.bindings)
            self.touched.update(Row(*row) for row in rows if row is not None)

    def exchange(self, step: Ask | Raw, octets: bytes, number: int) -> tuple[Exchange, bool]:
        """The replies, and whether a difference between them is sure."""
        ours = self.hand(octets)
        self.is_dirty |= ours is None or not _is_read(octets)
        message = spelled(octets)
        self.note_rows(message)
        if ours is None:
            return self.dropped(step, octets, number), True
        assert message is not None
        if message.kind == wire.SET:
            return self.set(step, octets, message, ours), True
        heard = self.port.ask(octets, message.number, ours)
        if heard.tries > 1:
            self.pass_ticks()
            ours = self.hand(octets)
        differs = self._mismatch(message, ours, heard.reply)
        is_sure = heard.tries == 1 and not self.ticks.is_in_doubt(heard.begun, heard.ended) or step.group is not None
        return Exchange(step, octets, ours, heard.reply, differs), is_sure

    def _mismatch(self, request: wire.Message, ours: bytes | None, theirs: bytes | None) -> Mismatch | None:
        """How the replies differ, but for what the sign under test has besides."""
        masked = frozenset(self.masked)
        differs = mismatch(ours, theirs, masked)
        reply = spelled(theirs or b"")
        if differs is None or reply is None or not self.besides.names or differs.kind not in _OF_NAMES:
            return differs
        return self.besides.judged(request, reply, differs, masked, self._ours_of)

    def _ours_of(self, request: wire.Message) -> wire.Message | None:
        """Our reply to a part of a read that ours was handed: it changes nothing."""
        reply = self.oracle.datagram(wire.written(request))
        return None if reply is None else spelled(reply)

    def set(self, step: Ask | Raw, octets: bytes, message: wire.Message, ours: bytes) -> Exchange:
        """A SET at both. Raises Inconclusive where it cannot be told what it did."""
        is_void = self.port.is_lossy() and is_refused(message, ours)
        heard = self._ask_void(octets, message, ours) if is_void else self._ask_set(octets, message, ours)
        if heard.reply is None:
            return Exchange(step, octets, ours, None, Mismatch(Kind.NO_ANSWER), True, True, tries=heard.tries)
        if _hangs_on_ticks(message) and self.ticks.may_have_come(heard.ended):
            raise Inconclusive("a tick may have come before the sign took what hangs on ticks")
        differs = self._mismatch(message, ours, heard.reply)
        if differs is not None and self.ticks.is_in_doubt(heard.begun, heard.ended) and self.doubts < _MOST_DOUBTS:
            self.doubts += 1
            self.ticks.was_late()
            raise Inconclusive("a tick of the sign came while it answered")
        return Exchange(step, octets, ours, heard.reply, differs, is_set=True)

    def _ask_void(self, octets: bytes, message: wire.Message, ours: bytes) -> Heard:
        """A SET that ours refuses, at the sign under test: on a way that loses some it is asked again as a read is."""
        for sent, wait in enumerate(self.port.waits()):
            if sent and self._again(octets) != ours:
                raise Inconclusive("a SET that was to be refused is lost, and would be refused no more")
            heard = self.port.ask_once(octets, message.number, ours, wait, is_again=sent > 0)
            heard.tries = sent + 1
            if heard.reply is not None:
                return heard
        self._settle_lost(octets, message, ours)
        return heard

    def _ask_set(self, octets: bytes, message: wire.Message, ours: bytes) -> Heard:
        """What came of a SET at the sign under test. On a way that loses some, what is known to be lost is sent once
        more, to both, and so is what was taken at a moment that is not known: seconds count anew from then. Raises
        Inconclusive where it cannot be told what it did."""
        is_usual = likeness(message, ours) <= self.answered

        def is_seen() -> bool:
            return is_usual and is_seen_taken(self, octets, message)

        for sent in range(MOST_SENT):
            if sent and self._again(octets) != ours:
                raise Inconclusive("a SET that is sent once more would be answered otherwise")
            heard = self.port.ask_watched(octets, message.number, ours, is_seen, is_again=sent > 0)
            heard.tries = sent + 1
            if heard.reply is not None:
                break
            is_last = sent == MOST_SENT - 1 or not self.port.is_lossy()
            if self._settle_lost(octets, message, ours, is_last) is Fate.TAKEN or is_last:
                break
        return heard

    def _again(self, octets: bytes) -> bytes | None:
        """Our reply to what is sent once more."""
        self.pass_ticks()
        return self.hand(octets)

    def _settle_lost(self, octets: bytes, message: wire.Message, ours: bytes, is_last: bool = True) -> Fate:
        """A SET has no reply: afterwards ours is handed it or not, as it is known of the sign under test."""
        found = fate(self, octets, message, ours)
        if found is Fate.UNKNOWN or found is Fate.TIMED and is_last:
            raise Inconclusive("no reply to a SET, and reading does not tell what it did")
        return found

    def settle_strays(self) -> None:
        """Where replies to SETs came late or twice, so may the SETs have: then ours is handed them too. Raises
        Inconclusive where reading does not tell."""
        if not self.port.is_lossy():
            return
        self.port.listen(0)
        while self.port.strays:
            number = self.port.strays.pop()
            octets = self.port.way.earlier(number) or b""
            message = spelled(octets)
            if message is not None and not is_settled(self, octets, message, number > self.since):
                self.port.strays.clear()
                raise Inconclusive("a SET came late or twice, and reading does not tell what it did")

    def dropped(self, step: Ask | Raw, octets: bytes, number: int) -> Exchange:
        """Octets that ours does not answer."""
        message = spelled(octets)
        if message is not None:
            self.port.note(message.number, octets)
            number = message.number
        if isinstance(step, Raw) and step.is_quiet:
            answer = self.port.ask_once(octets, number, is_answered=False).reply
            return Exchange(step, octets, None, answer, mismatch(None, answer))
        sentinel_number = self.port.new_number()
        sentinel = get(scalar("vmsSignHeightPixels")).octets(sentinel_number, self.communities)
        answer, is_heard = self.port.drop(octets, number, sentinel, sentinel_number)
        self.hand(sentinel)
        differs = mismatch(None, answer) or (None if is_heard else Mismatch(Kind.NO_ANSWER))
        return Exchange(step, octets, None, answer, differs)


def likeness(message: wire.Message, ours: bytes) -> set[Likeness]:
    """What a sign answers alike: for each object that a request names, the request's kind and our reply's status."""
    reply = spelled(ours)
    places = {object_of(name) for name, _ in message.bindings}
    return set() if reply is None else {(message.kind, message.community, place, reply.status) for place in places}


def _hangs_on_ticks(message: wire.Message) -> bool:
    """Whether seconds count from when a sign takes this SET: a row is asked to validate, or something is shown."""
    return is_command(message) or any(is_validation(*bound) for bound in message.bindings)


def _is_read(octets: bytes) -> bool:
    """Whether it is a Get or a GetNext."""
    message = spelled(octets)
    return message is not None and message.kind in (wire.GET, wire.GET_NEXT)
