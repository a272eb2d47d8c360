"""A SET without a reply, or with more than one: what it may have changed is read until it is known whether the sign
under test took it."""

import enum
from typing import TYPE_CHECKING

from wisangub.snmp import wire
from wisangub.snmp.names import Memory, scalar
from wisangub.tester.requests.messages import spelled
from wisangub.tester.requests.objects import COMMANDS, EXECUTIVE, SHOWN_CELLS, Column, Name, Row, Value, row_of, word_of
from wisangub.tester.requests.steps import looks

if TYPE_CHECKING:
    from wisangub.tester.sign.pair import Pair

_State = dict[Name, Value]
_FIXED_COLUMNS = (Column.MEMORY_TYPE, Column.NUMBER, Column.CRC)  # which no SET names


def _effects(message: wire.Message) -> list[Name]:
    """What a SET may change: the objects that it names, the fields of their rows, the reports."""
    names = [name for name, _ in message.bindings if word_of(name)]
    for row in {row for name, _ in message.bindings if (row := row_of(name)) is not None}:
        if row[0] in (Memory.CHANGEABLE, Memory.VOLATILE):
            names += [Row(*row).cell(column) for column in Column if column not in _FIXED_COLUMNS]
    return list(dict.fromkeys(names + EXECUTIVE + SHOWN_CELLS))


def is_command(message: wire.Message) -> bool:
    """Whether it activates something, or sets how long it is shown."""
    return any(word_of(name) in COMMANDS for name, _ in message.bindings)


def is_accepted(ours: bytes) -> bool:
    """Whether our reply says that a SET is taken."""
    reply = spelled(ours)
    return reply is not None and reply.status == wire.NO_ERROR


def is_refused(message: wire.Message, ours: bytes) -> bool:
    """Whether a SET changes nothing at ours: a command that is refused is reported."""
    return not is_accepted(ours) and not is_command(message)


def ours_reads(pair: "Pair", names: list[Name]) -> _State | None:
    """What ours reads; None where a name is none of its instances."""
    found: _State = {}
    for look in looks(names, share=20):
        reply = pair.hand(look.octets(pair.port.new_number(), pair.communities))
        message = spelled(reply) if reply is not None else None
        if message is None or message.status:
            return None
        found |= dict(message.bindings)
    return found


def _theirs_reads(pair: "Pair", names: list[Name]) -> _State | None:
    """What the sign under test reads; None where it cannot be read."""
    found: _State = {}
    for look in looks(names, share=20):
        pair.pass_ticks()
        number = pair.port.new_number()
        octets = look.octets(number, pair.communities)
        heard = pair.port.ask(octets, number)
        pair.hand(octets)
        message = spelled(heard.reply) if heard.reply is not None else None
        if message is None or message.status:
            return None
        found |= dict(message.bindings)
    return found


class Fate(enum.Enum):
    """What became of a SET without a reply."""

    TAKEN = enum.auto()  # or refused, as it may be seen
    LOST = enum.auto()  # or the same to a reader as if it had been
    TIMED = enum.auto()  # taken, and it counts seconds from a moment that is not known to the tick
    UNKNOWN = enum.auto()


def fate(pair: "Pair", octets: bytes, message: wire.Message, ours: bytes) -> Fate:
    """What reading tells of a SET that ours was handed; then ours is as the sign under test is."""
    names = _known(pair, message)
    read = _theirs_reads(pair, names)
    taken = ours_reads(pair, names)
    if read is None or taken is None:
        return Fate.UNKNOWN
    if is_refused(message, ours):
        return Fate.TAKEN if read == taken else Fate.UNKNOWN
    with_it, before = _without(pair, octets, names)
    if before == taken:
        # the same to a reader either way: the seconds that are left may hide in the minutes
        is_endless = taken.get(scalar("dmsMessageTimeRemaining")) == (wire.INTEGER, 65535)
        is_same = read == taken and (is_endless or not is_accepted(ours) or not is_command(message))
        return Fate.LOST if is_same else Fate.UNKNOWN
    if read == before:
        return Fate.LOST
    pair.become(with_it)
    if read != taken:
        return Fate.UNKNOWN
    return Fate.TIMED if _is_timed(message, taken) else Fate.TAKEN


def is_seen_taken(pair: "Pair", octets: bytes, message: wire.Message) -> bool:
    """Whether reading shows that the sign took a SET that ours was handed, in the same second."""
    names = _known(pair, message)
    read = _theirs_reads(pair, names)
    taken = ours_reads(pair, names)
    if read is None or read != taken or _is_timed(message, taken) and _has_ticked(pair, octets):
        return False
    with_it, before = _without(pair, octets, names)
    pair.become(with_it)
    return before != taken


def is_settled(pair: "Pair", octets: bytes, message: wire.Message, is_of_now: bool) -> bool:
    """Whether both are alike after a SET that may have come to the sign once more. Where it is one since the known
    state ours is handed it once more, if the sign took it so."""
    names = _known(pair, message)
    read = _theirs_reads(pair, names)
    if read is None or read == ours_reads(pair, names) or not is_of_now:
        return read is not None and read == ours_reads(pair, names)
    before = list(pair.log)
    pair.hand(octets)
    if read == ours_reads(pair, names) and not _is_timed(message, read):
        return True
    pair.become(before)
    return False


def _known(pair: "Pair", message: wire.Message) -> list[Name]:
    """What a SET may change of what there is."""
    return [name for name in _effects(message) if ours_reads(pair, [name]) is not None]


def _without(pair: "Pair", octets: bytes, names: list[Name]) -> tuple[list[bytes | None], _State | None]:
    """What ours was handed, and what it reads without these octets, which it is left without."""
    with_it = list(pair.log)
    at = _place(pair, octets)
    pair.become(with_it[:at] + with_it[at + 1 :])
    return with_it, ours_reads(pair, names)


def _place(pair: "Pair", octets: bytes) -> int:
    """Where these octets stand last in what ours was handed."""
    return len(pair.log) - 1 - pair.log[::-1].index(octets)


def _has_ticked(pair: "Pair", octets: bytes) -> bool:
    """Whether a tick may have come since ours was handed these octets."""
    return None in pair.log[_place(pair, octets) :] or pair.ticks.may_have_come(pair.clock.now())


def _is_timed(message: wire.Message, taken: _State) -> bool:
    """Whether the sign began to count seconds at a moment that is not known to the tick."""
    return is_command(message) and taken.get(scalar("dmsMessageTimeRemaining")) != (wire.INTEGER, 65535)
