"""What a sign sees of the central system that speaks to it: habits that go wrong sooner or later."""

from collections import Counter
from dataclasses import dataclass, field
from enum import Enum

from wisangub.snmp import wire
from wisangub.snmp.names import KINDS, Memory, RowStatus, scalar
from wisangub.tester.findings.compare import shown
from wisangub.tester.findings.results import Verdict
from wisangub.tester.requests.messages import spelled
from wisangub.tester.requests.objects import COMMANDS, Binding, Column, Name, Row, column_of, row_of, spoken, word_of

_ERROR = scalar("dmsActivateMsgError")
_FIELDS = (Column.TEXT, Column.OWNER, Column.BEACON, Column.PIXEL_SERVICE, Column.PRIORITY)
_MOST_READS = 2  # of the same names between two ticks or writes: who polls once a second comes to no more
_MOST_EQUAL = 4  # datagrams or SETs that are equal within the seconds below: who asks again comes to no more
_STORM = 5.0
_MOST_SEEN = 1000  # times of one habit that are kept; more are counted


class Habit(Enum):
    """What is looked for."""

    NUMBER = "a request number used again for another request"
    UNREAD = "an activation before the checksum was read"
    EARLY = "a checksum read while its row was validating"
    ERROR = "an activation of a row in error"
    UNASKED = "a write without a request to modify"
    TAKEN = "a row of another owner taken"
    READER = "a SET in the reading community"
    FAST = "polling faster than a second"
    STORM = "a storm of equal requests"
    DROPPED = "a datagram that a sign drops"
    IGNORED = "a refusal that is ignored"
    AFTER = "asked again after a noSuchName"


@dataclass
class Seen:
    """One time that a habit was seen: when, from the beginning, what, and the request."""

    habit: Habit
    moment: float
    words: str
    octets: bytes


@dataclass
class Known:
    """What the central system did with a row."""

    is_asked: bool = False  # to modify, since it was last validated or emptied
    is_read: bool = False  # its checksum, since it was last validated
    is_validating: bool = False  # until the sign's next second
    status: int = 0  # as it was read last, since it was last asked for another
    owner: bytes = b""  # before the row was asked to modify, until the central system writes another
    refused: set[Name] = field(default_factory=set)  # refused to it and not written since


@dataclass
class Watch:
    """The requests of a central system, as they come. `heard` is told each, with the sign's reply, and `ticked` each
    second of the sign; `comes` is told a request before the sign is, with what the sign has of a row's owner."""

    reader: bytes
    seen: list[Seen] = field(default_factory=list)
    counts: Counter[Habit] = field(default_factory=Counter)
    requests: int = 0
    again: int = 0  # the same octets once more
    dropped: Counter[str] = field(default_factory=Counter)  # by what is wrong with them
    numbers: dict[int, bytes] = field(default_factory=dict)
    rows: dict[Row, Known] = field(default_factory=dict)
    reads: Counter[tuple[int, tuple[Name, ...]]] = field(default_factory=Counter)  # since the last tick or write
    equal: dict[object, list[float]] = field(default_factory=dict)  # when equal requests came of late
    missing: set[Name] = field(default_factory=set)  # what the sign said that it has not
    owners: set[bytes] = field(default_factory=set)  # that the central system wrote
    is_refused: bool = False  # the request before this one was an activation that was refused
    refused: set[Name] = field(default_factory=set)  # objects outside the table, refused and not written since

    def note(self, habit: Habit, moment: float, octets: bytes, words: str) -> None:
        """A habit was seen at this moment, in seconds from the beginning, in these octets."""
        self.counts[habit] += 1
        if self.counts[habit] <= _MOST_SEEN:
            self.seen.append(Seen(habit, moment, words, octets))

    def row(self, name: Row) -> Known:
        """What is known of a row."""
        return self.rows.setdefault(name, Known())

    def rows_asked(self, octets: bytes) -> list[Row]:
        """The rows that a request is to take or to empty: their owners are to be known before the sign is asked."""
        message = spelled(octets)
        if message is None or message.kind != wire.SET or message.community == self.reader:
            return []
        takes = (RowStatus.MODIFY_REQ, RowStatus.NOT_USED_REQ)
        asked = (_asked_of(bound) for bound in message.bindings)
        return [row for row, status in filter(None, asked) if status in takes]

    def owned(self, row: Row, owner: bytes) -> None:
        """A row that is about to be taken has this owner."""
        self.row(row).owner = owner

    def ticked(self) -> None:
        """A second of the sign has passed."""
        self.reads.clear()
        for known in self.rows.values():
            known.is_validating = False

    def verdict(self) -> Verdict:
        """Whether something was seen, nothing, or nobody heard."""
        if self.counts:
            return Verdict.DIFFERS
        return Verdict.CONFORMS if self.requests else Verdict.NOT_JUDGED

    def heard(self, moment: float, octets: bytes, reply: bytes | None) -> None:
        """A datagram and what the sign answered."""
        message, answer = spelled(octets), spelled(reply or b"")
        self._storm(moment, octets, message)
        if message is None or answer is None:
            kind = _wrong_with(octets, message)
            self.dropped[kind] += 1
            self.note(Habit.DROPPED, moment, octets, kind)
            return
        self.requests += 1
        before = self.numbers.get(message.number)
        self.numbers[message.number] = octets
        if before == octets:
            self.again += 1
            return
        if before is not None:
            self.note(Habit.NUMBER, moment, octets, f"request-id {message.number}")
        self._follow(moment, octets, message)
        if message.kind == wire.SET:
            self.reads.clear()
            self._set(moment, octets, message, answer)
        else:
            self._read(moment, octets, message, answer)
        if message.kind != wire.GET_NEXT:  # whose noSuchName is the end of a walk
            self.missing.update(_missing(message, answer))

    def _storm(self, moment: float, octets: bytes, message: wire.Message | None) -> None:
        """The same octets too often, or the same writes under other numbers."""
        keys: list[object] = [octets]
        if message is not None and message.kind == wire.SET:
            keys.append(tuple(message.bindings))
        for key in keys:
            times = [time for time in self.equal.get(key, []) if moment - time < _STORM] + [moment]
            self.equal[key] = times
            if len(times) > _MOST_EQUAL:
                words = f"{len(times)} times within {_STORM:g} s"
                self.note(Habit.STORM, moment, octets, words if message is None else f"{_said(message)}, {words}")
                break
        if len(self.equal) > _MOST_SEEN:
            self.equal = {key: times for key, times in self.equal.items() if moment - times[-1] < _STORM}

    def _follow(self, moment: float, octets: bytes, message: wire.Message) -> None:
        """What comes again after a noSuchName, and after an activation that was refused."""
        names = [name for name, _ in message.bindings]
        again = [name for name in names if name in self.missing and message.kind != wire.GET_NEXT]
        if again:
            self.note(Habit.AFTER, moment, octets, spoken(again[0]))
        if self.is_refused and _ERROR not in names:
            words = f"an activation was refused, and dmsActivateMsgError is not read: {_said(message)}"
            self.note(Habit.IGNORED, moment, octets, words)
        self.is_refused = False

    def _read(self, moment: float, octets: bytes, message: wire.Message, answer: wire.Message) -> None:
        key = (message.kind, tuple(name for name, _ in message.bindings))
        self.reads[key] += 1
        if self.reads[key] > _MOST_READS:
            self.note(Habit.FAST, moment, octets, f"{_said(message)}, {self.reads[key]} times within a second")
        if answer.status != wire.NO_ERROR:
            return
        for name, (_, held) in answer.bindings:
            row = row_of(name)
            if row is None:
                continue
            known = self.row(Row(*row))
            if column_of(name) == Column.STATUS and isinstance(held, int):
                known.status = held
            elif column_of(name) == Column.CRC and known.is_validating:
                self.note(Habit.EARLY, moment, octets, spoken(name))
            elif column_of(name) == Column.CRC:
                known.is_read = True

    def _set(self, moment: float, octets: bytes, message: wire.Message, answer: wire.Message) -> None:
        is_taken = answer.status == wire.NO_ERROR
        if message.community == self.reader:
            self.note(Habit.READER, moment, octets, _said(message))
            return
        self._unasked(moment, octets, message)
        for bound in message.bindings:
            name, (_, held) = bound
            if (asked := _asked_of(bound)) is not None:
                self._asked(moment, octets, *asked, is_taken)
            elif word_of(name) == "dmsActivateMessage" and isinstance(held, bytes) and len(held) == 12:
                self._activated(moment, octets, held, is_taken)
        self._written(moment, octets, message, is_taken)

    def _unasked(self, moment: float, octets: bytes, message: wire.Message) -> None:
        """The first field of a row that was not asked to modify."""
        for name, _ in message.bindings:
            row = row_of(name)
            if row is not None and column_of(name) in _FIELDS and not self.row(Row(*row)).is_asked:
                self.note(Habit.UNASKED, moment, octets, spoken(name))
                return

    def _written(self, moment: float, octets: bytes, message: wire.Message, is_taken: bool) -> None:
        """What was refused and not written since, and whose rows were taken."""
        names = [name for name, _ in message.bindings]
        settings = {name for name in names if word_of(name) not in ("", *COMMANDS)}
        self.refused = self.refused - settings if is_taken else self.refused | settings
        for row in {Row(*place) for name in names if (place := row_of(name)) is not None}:
            known = self.row(row)
            fields = {row.cell(column) for column in _FIELDS} & set(names)
            known.refused = known.refused - fields if is_taken else known.refused | fields
        for name, (_, held) in message.bindings:
            place = row_of(name)
            if is_taken and place is not None and column_of(name) == Column.OWNER and isinstance(held, bytes):
                self._owner_written(moment, octets, Row(*place), held)

    def _owner_written(self, moment: float, octets: bytes, row: Row, owner: bytes) -> None:
        """A row gets this owner, perhaps in the place of another's."""
        known = self.row(row)
        if known.owner not in (b"", owner) and known.owner not in self.owners:
            before, after = shown(known.owner), shown(owner)
            self.note(Habit.TAKEN, moment, octets, f"row {row.memory}.{row.number} of {before}, by {after or 'nobody'}")
        self.owners.add(owner)
        known.owner = b""

    def _asked(self, moment: float, octets: bytes, row: Row, asked: int, is_taken: bool) -> None:
        """A row is asked to modify, to validate or to be not used."""
        known = self.row(row)
        if asked == RowStatus.VALIDATE_REQ and known.refused:
            words = f"{spoken(min(known.refused))} was refused, and the row is validated without it"
            self.note(Habit.IGNORED, moment, octets, words)
        if asked == RowStatus.NOT_USED_REQ and is_taken and self.owners and known.owner not in (b"", *self.owners):
            words = f"row {row.memory}.{row.number} of {shown(known.owner)} is emptied"
            self.note(Habit.TAKEN, moment, octets, words)
        if is_taken:
            known.is_asked = asked == RowStatus.MODIFY_REQ
            known.is_validating = asked == RowStatus.VALIDATE_REQ
            known.is_read, known.status = False, 0
            known.refused = set()
        elif asked == RowStatus.VALIDATE_REQ:
            known.refused.add(row.cell(Column.STATUS))

    def _activated(self, moment: float, octets: bytes, code: bytes, is_taken: bool) -> None:
        row = Row(code[3], int.from_bytes(code[4:6], "big"))
        if self.refused:
            words = f"{spoken(min(self.refused))} was refused, and a message is activated"
            self.note(Habit.IGNORED, moment, octets, words)
            self.refused = set()
        if row.memory in (Memory.CHANGEABLE, Memory.VOLATILE):
            known, said = self.row(row), f"row {row.memory}.{row.number}"
            if known.status == RowStatus.ERROR:
                self.note(Habit.ERROR, moment, octets, said)
            elif not known.is_read:
                self.note(Habit.UNREAD, moment, octets, said)
            if known.refused:
                words = f"{spoken(min(known.refused))} was refused, and {said} is activated"
                self.note(Habit.IGNORED, moment, octets, words)
        self.is_refused = not is_taken

    def lines(self) -> list[str]:
        """The report."""
        dropped = ", ".join(f"{count} for {kind}" for kind, count in self.dropped.items())
        found = [
            f"{self.requests} requests, {self.again} of them sent again, "
            f"{self.dropped.total()} datagrams that the sign drops" + (f" ({dropped})" if dropped else "")
        ]
        for habit in Habit:
            times = [seen for seen in self.seen if seen.habit is habit]
            found.append(f"{habit.value}: {self.counts[habit] or 'never'}")
            found += [f"  at {seen.moment:.2f} s: {seen.words}" for seen in times[:5]]
            if self.counts[habit] > 5:
                found.append(f"  and {self.counts[habit] - 5} more")
        nobody = ": nothing was heard" if not self.requests and not self.counts else ""
        return [*found, f"{self.verdict().value}{nobody}"]


def _asked_of(bound: Binding) -> tuple[Row, int] | None:
    """The row that a binding asks for a status, and the status."""
    name, (_, held) = bound
    row = row_of(name)
    is_asked = row is not None and column_of(name) == Column.STATUS and isinstance(held, int)
    return (Row(*row), held) if is_asked and row is not None and isinstance(held, int) else None


def _wrong_with(octets: bytes, message: wire.Message | None) -> str:
    """Why a sign drops a datagram."""
    if len(octets) > wire.MOST_DATAGRAM:
        return "its length"
    if message is None:
        return "its BER"
    return "its kind" if message.kind == wire.RESPONSE else "its community"


def _missing(message: wire.Message, answer: wire.Message) -> list[Name]:
    """The name of which the sign said that there is none such."""
    if answer.status != wire.NO_SUCH_NAME or not 1 <= answer.index <= len(message.bindings):
        return []
    return [message.bindings[answer.index - 1][0]]


def _said(message: wire.Message) -> str:
    """A request in few words."""
    names = ", ".join(spoken(name) for name, _ in message.bindings[:3])
    return f"{KINDS[message.kind]} {names}" + (" .." if len(message.bindings) > 3 else "")
