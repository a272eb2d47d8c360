"""The known state: what both signs are brought to before a sequence, over SNMP alone."""

from dataclasses import dataclass, field

from wisangub.snmp import wire
from wisangub.snmp.names import RowStatus, scalar
from wisangub.tester.context import Context, activate
from wisangub.tester.findings.compare import Kind, Mismatch, value_words
from wisangub.tester.requests.messages import spelled
from wisangub.tester.requests.objects import Column, Name, Row, SourceMode, Value, integer, spoken
from wisangub.tester.requests.steps import Ask, get, looks, put
from wisangub.tester.sign.pair import Exchange, Pair

from .known_state import VERDICTS, KnownState, Unreachable, Unreached
from .unanswered import ours_reads
from .unwritten import unwritten
from .validation_ticks import ValidationTicks

_ROUNDS, _LOSSY_ROUNDS = 4, 12  # times that the sign is read and repaired; more where requests are lost
_MORE = 3  # times that all of this is done once more there, each after what was late
_MOST_KEPT = 400  # datagrams after which ours is begun anew
_MOST_UNLIKE = 20  # names that are read again
_MOST_LOOKED = 8  # times that ticks are looked for once more
_Read = dict[Name, Value | None]


@dataclass
class Reset:
    """Brings both signs to the known state. `last` has the last request for an object and its reply."""

    pair: Pair
    context: Context
    last: dict[Name, tuple[Ask, bytes | None]] = field(default_factory=dict)
    is_begun: bool = False  # whether the sign was in the known state before
    is_entered: bool = False  # whether anything was written to bring it there
    is_together: bool = False  # whether ours is handed what brings the sign under test there
    # reads that were not as ours on the way there, asked again, and in words what the first of them read
    unlike: list[tuple[Exchange, str]] = field(default_factory=list)
    is_sure: bool = True  # whether each SET on the way there had its reply
    looked: int = 0  # how often ticks were looked for once more

    def __post_init__(self) -> None:
        self.objects = KnownState(self.context)
        self.pair.port.settings = frozenset(self.objects.settings())
        self.validation = ValidationTicks(self.pair)

    def wanted(self) -> dict[Name, Value]:
        """What is to be read. Of a validation's verdict that stays which both have, where they go there together. Where
        requests may come late or twice, one may have come to any row."""
        left_out = self.pair.masked | set(VERDICTS if self.is_together else ())
        wanted = self.objects.all(self.touched()) | (self.objects.unused() if self.pair.port.is_lossy() else {})
        return {name: value for name, value in wanted.items() if name not in left_out}

    def touched(self) -> list[Row]:
        """The rows that may have been changed since the known state, in order."""
        rows = (row for row in self.pair.touched if row in self.context.rows)
        return sorted(rows, key=lambda row: (row.memory, row.number))

    # --- the sign under test ---------------------------------------------------------------------------------

    def ask(self, request: Ask) -> bytes | None:
        """A request to the sign under test. A SET is sent once; where both go there together it is handed to ours."""
        number = self.pair.port.new_number()
        sent = request.octets(number, self.pair.communities)
        if request.kind != wire.SET:
            return self.pair.port.ask(sent, number).reply
        if self.is_together:
            self.pair.pass_ticks()
            self.pair.hand(sent)
        reply = self.pair.port.ask_once(sent, number, wait=self.pair.port.soon()).reply  # it is read back afterwards
        self.is_sure &= reply is not None
        return reply

    def ask_height(self) -> bytes | None:
        """Any Get at all."""
        return self.ask(get(scalar("vmsSignHeightPixels")))

    def read(self, names: list[Name]) -> _Read:
        """What the sign under test reads; None where a name is none of its instances."""
        found: _Read = {}
        for look in looks(names):
            message = spelled(self.ask(look) or b"")
            if message is not None and message.status == wire.NO_ERROR and _is_about(message, look):
                found |= dict(message.bindings)
            elif len(names) == 1:
                found[names[0]] = None
            else:
                for name, _ in look.bindings:
                    found |= self.read([name])
        return found

    def read_alike(self, names: list[Name]) -> _Read:
        """What the sign under test reads. What ours does not read so, though both are to be alike, is kept. What hangs
        on seconds may be right again since a tick came early or late, which is no slip."""
        self.pair.pass_ticks()
        have = self.read(names)
        ours = ours_reads(self.pair, names)
        unlike = [name for name in names if ours is not None and have.get(name) != ours[name]][:_MOST_UNLIKE]
        if not unlike or self.pair.port.is_lossy() or not self.is_sure or not self.pair.ticks.is_learnt():
            return have
        exchange = self.pair.do(get(*unlike))
        assert exchange is not None
        slipped = tuple(filter(self.objects.is_steady, unlike))
        if exchange.mismatch is None and slipped:
            exchange.is_slip, exchange.mismatch = True, Mismatch(Kind.VALUE, slipped)
        if exchange.mismatch is not None:
            first = exchange.mismatch.names[0] if exchange.mismatch.names else unlike[0]
            self.unlike.append((exchange, _read_words(first, have.get(first))))
        return have

    def take_unlike(self) -> list[tuple[Exchange, str]]:
        """The reads that were not as ours since this was asked last."""
        found, self.unlike = self.unlike, []
        return found

    def bring(self, observe: bool) -> list[Unreached]:
        """Brings the sign under test to the known state; with `observe` a validation is watched for its tick."""
        is_watched = not observe or not self.context.rows
        is_lossy = self.pair.port.is_lossy()
        for left in range(_LOSSY_ROUNDS if is_lossy else _ROUNDS, 0, -1):
            is_watched |= is_lossy and left <= _ROUNDS  # where the end of no validation is seen, the rows are emptied
            wanted = self.wanted()
            self.pair.port.strays.clear()
            have = self.read_alike(list(wanted)) if self.is_together else self.read(list(wanted))
            self._notice_reboot(have)
            if is_lossy and self.is_begun:
                self._notice_unwritten(have, wanted)
            wrong = [name for name, value in wanted.items() if have.get(name) != value]
            if not wrong and is_watched:
                return []
            self.repair(wrong, observe and not is_watched)
            is_watched |= self.pair.ticks.is_learnt() and not self.pair.ticks.is_old() or self.validation.is_at_once()
        have = self.read(list(wanted := self.wanted()))
        unreached = [
            self.unreached(name, value, have.get(name)) for name, value in wanted.items() if have.get(name) != value
        ]
        return sorted(unreached, key=lambda held: not held.is_refused())

    def _brought(self, observe: bool) -> list[Unreached]:
        """What cannot be brought to the known state. Where requests may come late, one of before may have undone it:
        then it is tried again after time for what is still on its way."""
        unreached = self.bring(observe)
        for _ in range(_MORE if self.pair.port.is_lossy() else 0):
            if not unreached:
                break
            self._listen()
            unreached = self.bring(False)
        return unreached

    def _listen(self) -> None:
        """Time for what is still on its way."""
        self.pair.port.listen(max(self.pair.port.way.slowest, self.pair.port.wait))

    def _notice_reboot(self, have: _Read) -> None:
        """The sign shows what it shows when power comes back, and ours does not: it began anew by itself."""
        mode = scalar("dmsMsgSourceMode")
        is_anew = self.is_begun and have.get(mode) == integer(SourceMode.POWER_RECOVERY)
        if is_anew and ours_reads(self.pair, [mode]) not in (None, {mode: have[mode]}):
            self.pair.port.way.reboots += 1

    def _notice_unwritten(self, have: _Read, wanted: dict[Name, Value]) -> None:
        """Settings that read what nobody wrote to them, so that no late request has made it, are told."""
        settings = {name: value for name, value in wanted.items() if self.objects.is_steady(name)}
        for name, exchange in unwritten(self.pair, have, settings):
            self.unlike.append((exchange, _read_words(name, have.get(name))))

    def unreached(self, name: Name, value: Value, read: Value | None) -> Unreached:
        request, reply = self.last.get(name, (get(name), None))
        return Unreached(name, value, read, request, reply)

    def repair(self, wrong: list[Name], observe: bool) -> None:
        """A request for each object that is not as it should be."""
        self.pair.touched.update(row for row in self.context.rows if row.cell(Column.STATUS) in wrong)
        for row in self.touched():
            if row.cell(Column.STATUS) in wrong:
                self.empty(row)
            elif any(name in wrong for name in self.objects.emptied(row)):
                self.put(put(row.status(RowStatus.MODIFY_REQ)))
                self.put(put(*self.objects.emptied(row).items()), *self.objects.emptied(row))
                self.empty(row)
        for name, value in self.objects.settings().items():
            if name in wrong:
                self.put(put((name, value)), name)
        if observe or any(name in wrong for name in self.objects.verdicts()):
            self.validate(self.context.rows[0])
        is_refusal_wrong = any(name in wrong for name in self.objects.refused())
        if is_refusal_wrong:
            self.put(activate(self.context.refused_code), *self.objects.refused(), scalar("dmsActivateMsgError"))
        if is_refusal_wrong or any(name in wrong for name in self.objects.shown()):
            self.put(activate(self.context.known_code), *self.objects.shown())

    def put_back(self, values: dict[Name, Value]) -> list[Name]:
        """The sign's own settings, as they were read; which could not be brought there. Where requests may come late
        they are looked at twice, with time for what was late in between."""
        looks_left = 2 if self.pair.port.is_lossy() else 1
        for _ in range(_LOSSY_ROUNDS):
            have = self.read(list(values))
            wrong = [name for name, value in values.items() if have.get(name) != value]
            for name in wrong:
                self.ask(put((name, values[name])))
            looks_left -= not wrong
            if not looks_left:
                return []
            if not wrong:
                self._listen()
        return wrong

    def put(self, request: Ask, *names: Name) -> bool:
        """A SET, which is remembered as the last for these names; whether it was answered."""
        reply = self.ask(request)
        self.last |= {name: (request, reply) for name in names}
        return reply is not None

    def empty(self, row: Row) -> None:
        """A row becomes not used, at the end of its validation where it has one."""
        self.validation.watch(row)
        self.put(put(row.status(RowStatus.NOT_USED_REQ)), row.cell(Column.STATUS))

    def validate(self, row: Row) -> None:
        """An empty row is validated, for its verdict and to see when the sign's tick comes."""
        self.pair.touched.add(row)
        is_answered = self.put(put(row.status(RowStatus.MODIFY_REQ)), *self.objects.verdicts())
        asked = self.pair.clock.now()
        is_answered &= self.put(put(row.status(RowStatus.VALIDATE_REQ)), *self.objects.verdicts())
        if is_answered or not self.pair.port.is_lossy():
            self.validation.watch_asked(row, asked)
        else:
            self.validation.watch(row)
        self.put(put(row.status(RowStatus.NOT_USED_REQ)), row.cell(Column.STATUS))

    # --- both ------------------------------------------------------------------------------------------------

    def reach(self, observe: bool = False, is_alike: bool = False) -> list[Unreached]:
        """Both signs in the known state; what cannot be brought there is told.

        Where both are alike they may go there together, and keep the verdict of their last validation: no tick has
        to be waited for.
        """
        observe |= self.validation.is_to_be_learnt() and bool(self.context.rows)
        if not observe and not self.pair.is_dirty:
            return []
        self.pair.is_dirty = True  # until it is there: an interrupt may come between two writes
        unreached: list[Unreached] = []
        if observe or not is_alike or len(self.pair.log) > _MOST_KEPT or not self.go_together():
            unreached = self._brought(observe)
            self.pair.restart_ours()
            for request in (activate(self.context.refused_code), activate(self.context.known_code)):
                self.pair.hand(request.octets(self.pair.port.new_number(), self.pair.communities))
            self.pair.pass_ticks()
        self.pair.is_dirty, self.is_begun = bool(unreached), True
        self.pair.since = self.pair.port.number
        if not unreached:
            self.pair.touched.clear()
        return unreached

    def is_unlearnt(self) -> bool:
        """Whether rows settle at moments that are not known yet."""
        return self.validation.is_unlearnt() and bool(self.context.rows)

    def look_for_ticks(self) -> None:
        """Where the moment of the sign's ticks is not known it is looked for once more, on a way that loses some: there
        the ends of validations may be missed by chance."""
        if self.is_unlearnt() and self.pair.port.is_lossy() and self.looked < _MOST_LOOKED:
            self.looked += 1
            self.validation.begin_anew()
            self.pair.is_dirty = True
            self.reach()

    def learn_anew(self) -> None:
        """The known state, and a tick that is seen, whatever was known of them."""
        self.validation.begin_anew()
        self.pair.is_dirty = True
        self.reach_or_end()

    def let_late_come(self) -> None:
        """Where requests may come late: the known state, and time for what is still on its way; then it is to be
        reached once more."""
        if self.pair.port.is_lossy():
            self.reach_or_end()
            self._listen()
            self.pair.is_dirty = True

    def go_together(self) -> bool:
        """Whether the same requests brought both there, and both read the same."""
        self.is_together, self.is_sure = True, True
        try:
            unreached = self.bring(False)
        finally:
            self.is_together = False
        if unreached:
            return False
        self.pair.pass_ticks()
        names = [name for name in self.wanted() if name not in self.pair.masked]
        return self.read_alike(names) == ours_reads(self.pair, names)

    def reach_or_end(self, is_timed: bool = False, is_alike: bool = False) -> None:
        """The known state; before a sequence of seconds a tick is looked for where the last was seen long ago."""
        unreached = self.reach(is_timed and self.pair.ticks.is_old(), is_alike)
        if unreached:
            raise Unreachable(unreached)


def _read_words(name: Name, value: Value | None) -> str:
    """What was read of an object, in words."""
    return f"{spoken(name)} read {'nothing' if value is None else value_words(value, name)}"


def _is_about(reply: wire.Message, look: Ask) -> bool:
    """Whether a reply has the names that were asked for."""
    return [name for name, _ in reply.bindings] == [name for name, _ in look.bindings]
