"""A sign that goes on from the text of a state, or the first line for which it does not."""

from . import layout, state_text
from .causes import FAULTS
from .codes import BLANK, CHANGEABLE, CURRENT, VOLATILE, MessageId, checksum
from .description import VALID, VALIDATING, Row
from .state import CENTRAL, COMMUNICATIONS_LOSS, END_DURATION, NONE, POWER_LOSS, POWER_RECOVERY, Shown, State
from .state_text import Fields, Put, Refused

_MODES = (CENTRAL, POWER_RECOVERY, COMMUNICATIONS_LOSS, POWER_LOSS, END_DURATION)
_MOST_LEFT, _MOST_SILENT, _MOST_PLACE = 65534 * 60, 65535 * 60, 512
_SET_LINES = 10  # the defaults, five codes, two times, the silence, and what is shown
_Wrong = tuple[int, str] | None  # the line of a message, from its first, and why


def restore(state: State, text: bytes) -> None:
    """A sign as it is made takes up the state of a text; raises Refused, and is not to be used then."""
    fields = state_text.fields(text)
    line = 2
    for memory in (CHANGEABLE, VOLATILE):
        for number, row in fields.rows[memory]:
            why = _of_row(state, memory, number, row)
            if why is not None:
                raise Refused(line, why)
            state.rows[memory][number - 1] = row
            line += 1
    _look(state, fields, line - 1)
    _take_up(state, fields)


def _of_row(state: State, memory: int, number: int, row: Row) -> str | None:
    """Why a row cannot be put."""
    is_valid = row.status == VALID
    if row.beacon > 1 or is_valid and row.beacon and not state.described.beacons:
        return "no such beacon"
    if row.pixel > 1 or is_valid and row.pixel and not state.described.pixels:
        return "no such pixel service"
    if not row.priority:
        return "no such priority"
    if row.status == VALIDATING and state.is_validating():
        return "another row is being validated"
    return None if number <= len(state.rows[memory]) else "no such row can be changed"


def _look(state: State, fields: Fields, rows_end: int) -> None:
    """Raises Refused for the first line behind the rows that does not fit the sign."""
    if not state.face.takes(fields.defaults):
        raise Refused(rows_end + 1, "the defaults do not fit the face")
    if fields.silence > _MOST_SILENT:
        raise Refused(rows_end + 9, "too many seconds were silent")
    first = rows_end + _SET_LINES
    for put, what in ((fields.shown, "what is shown"), (fields.kept, "what was kept")):
        wrong = _of_message(put) or _of_showing(state, put) or _of_standing(state, put)
        if wrong is not None:
            raise Refused(first + wrong[0], f"{what}: {wrong[1]}")
        first += put.lines()
    _look_at_reports(fields, first)


def _look_at_reports(fields: Fields, first: int) -> None:
    """The same of the reports, from their first line on, and of the power."""
    validation, activation, syntax, place = fields.errors
    for line, is_right, why in (
        (0, 2 <= validation <= 5, "no such error of a validation"),
        (1, 2 <= activation <= 8, "no such error of an activation"),
        (2, 2 <= syntax <= 7 or 11 <= syntax <= 13, "no such fault of a text"),
        (3, place == 0 if syntax == NONE else place <= _MOST_PLACE, "no such place of this fault"),
        (6, _has_its_power(fields), "another power than that of its messages"),
    ):
        if not is_right:
            raise Refused(first + line, why)


def _has_its_power(fields: Fields) -> bool:
    """Without power is shown what a loss of power put up, and there alone; before it something else was."""
    return fields.power == (fields.shown.mode != POWER_LOSS) and fields.kept.mode != POWER_LOSS


def _of_message(put: Put) -> _Wrong:
    """What is wrong with the row of a message."""
    if put.message.beacon > 1:
        return 0, "no such beacon"
    if put.message.pixel > 1:
        return 0, "no such pixel service"
    return None if put.message.priority else (0, "no such priority")


def _source(state: State, put: Put) -> MessageId:
    return MessageId.of(put.source, state.swapped)


def _of_showing(state: State, put: Put) -> _Wrong:
    """What is wrong with how it came up."""
    source, message = _source(state, put), put.message
    if source.memory != BLANK and source.crc != checksum(message.text, message.beacon, message.pixel):
        return 1, "another checksum than the message's"
    blank = Row(priority=source.number, status=message.status)
    if source.memory == BLANK and message != blank:
        return 1, "not the blank message that its source names"
    if put.mode not in _MODES:
        return 2, "no such mode"
    if put.remaining is not None and (put.mode == POWER_LOSS or put.remaining > _MOST_LEFT):
        return 4, "too many seconds are left"
    return None


def _of_standing(state: State, put: Put) -> _Wrong:
    """Why the sign cannot show it."""
    source, message = _source(state, put), put.message
    if source.memory == CURRENT or state.row(source.memory, source.number) is None:
        return 1, "the sign has no row of its source"
    if message.beacon and not state.described.beacons:
        return 0, "the sign has no beacons"
    if message.pixel and not state.described.pixels:
        return 0, "the sign has no pixel service"
    if not state.face.takes(put.defaults):
        return put.lines() - 1, "its defaults do not fit the face"
    fault = layout.laid_out(state.face, put.defaults, message.text)[1]
    return None if fault is None else (0, f"{FAULTS[fault[0]]} at octet {fault[1]}")


def _shown(state: State, put: Put) -> Shown:
    row = put.message
    return Shown(
        *(row.text, row.owner, row.beacon, row.pixel, row.priority),
        *(put.mode, put.address, put.remaining, _source(state, put), put.defaults),
    )


def _take_up(state: State, fields: Fields) -> None:
    """What stands behind the rows, which fits the sign."""
    state.defaults, state.own = list(fields.defaults), dict(fields.own)
    state.short_loss, state.silence_limit, state.silence = fields.short_loss, fields.silence_limit, fields.silence
    state.shown, state.kept = _shown(state, fields.shown), _shown(state, fields.kept)
    state.verdict, state.activate_error, state.syntax, state.syntax_at = fields.errors
    state.last_code, state.refused_code = fields.accepted, fields.failed
    state.power = fields.power
