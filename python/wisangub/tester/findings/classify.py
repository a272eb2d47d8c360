"""The rule that a difference breaks, where no chapter says it: of random requests and of the known state."""

from typing import Sequence

from wisangub.snmp import wire
from wisangub.snmp.names import Memory, RowStatus, scalar
from wisangub.tester.requests.messages import spelled, status_of
from wisangub.tester.requests.objects import (
    COMMANDS,
    DEFAULTS,
    OWN_CODES,
    Cause,
    Column,
    Name,
    SourceMode,
    Value,
    column_of,
    row_of,
    word_of,
)
from wisangub.tester.requests.steps import Ask, Raw, Step

from .compare import Kind, Mismatch
from .rules import RULES, Rule

_BY_FAULT = {
    "BadTag": "messages",
    "BadLength": "refused lengths",
    "Truncated": "sequences",
    "LengthPast": "sequences",
    "BadInteger": "integers",
    "BadName": "names",
    "BadVersion": "messages",
    "TrailingBytes": "sequences",
    "TooLong": "datagrams",
}
_BY_SCALAR = {
    "dmsNumChangeableMsg": "counts",
    "dmsNumVolatileMsg": "counts",
    "dmsFreeChangeableMemory": "free memory",
    "dmsFreeVolatileMemory": "free memory",
    "dmsValidateMessageError": "verdicts",
    "dmsActivateMessage": "accepted",
    "dmsMessageTimeRemaining": "minutes",
    "dmsMsgTableSource": "shown",
    "dmsMsgRequesterID": "shown",
    "dmsMsgSourceMode": "shown",
    "dmsActivateMsgError": "refused",
    "dmsMultiSyntaxError": "layout",
    "dmsMultiSyntaxErrorPosition": "layout place",
    "dmsActivateErrorMsgCode": "last refused",
    "dmsShortPowerLossTime": "ranges",
    "dmsTimeCommLoss": "ranges",
}
_BY_MODE: dict[int, str] = {
    SourceMode.CENTRAL: "shown",
    SourceMode.COMM_LOSS: "silence",
    SourceMode.END_DURATION: "ends",
}
BY_CAUSE: dict[int, str] = {Cause.NONE: "accepted", Cause.PRIORITY: "priority", Cause.SYNTAX: "fits now"}
_WRITTEN = (*range(Column.TEXT, Column.CRC), *range(Column.BEACON, Column.STATUS + 1))  # columns of a row
_BY_COMMAND = {"dmsActivateMessage": "shown", "dmsMessageTimeRemaining": "remaining"}
_SOURCE, _CAUSE = scalar("dmsMsgTableSource"), scalar("dmsActivateMsgError")
_SILENCE = "dmsTimeCommLoss"
_PLACES = ("dmsMultiSyntaxError", "dmsMultiSyntaxErrorPosition")
_NO_FAULT = (0, 2)  # of the code and of its place
_MARKUP = (3, 4)  # the codes of a tag, and of a value, that is none


def rule_of(octets: bytes, ours: bytes | None, theirs: bytes | None, differs: Mismatch) -> Rule:
    """The rule by what was asked and how the replies differ."""
    return RULES[_key_of(octets, ours, theirs, differs)]


_CERTAIN = ("counts", "free memory", "row checksum", "checksum", "blank checksum", "priority", "fits now")
_UNTIMED = ("get", "rows", "validation", "priorities", "sizes")  # chapters that are about no durations
_SETTLING = ("settled", "statuses", "one validates")  # rules that say when a row is valid or in error, and not which
_GENERAL = ("ber", "communities", "set", "getnext")  # chapters whose steps touch objects that others are about


def better(named: Rule | None, octets: bytes, ours: bytes | None, theirs: bytes | None, differs: Mismatch) -> Rule:
    """The rule that a chapter names, or another where what differs is surely about that."""
    found = rule_of(octets, ours, theirs, differs)
    if named is None:
        return found
    if named.chapter == "device":
        return named
    if found.key == "too big":
        return named if named.chapter == "sizes" else found
    if found.key == "error reply" and differs.kind is Kind.STATUS or found.key == "set reply":
        return found
    request = spelled(octets)
    if request is None or ours is None or theirs is None or differs.kind is Kind.SPELLING:
        return named
    if request.kind == wire.GET_NEXT and differs.kind is Kind.BINDINGS:
        return named if named.chapter == "getnext" else found
    if named.chapter in ("durations", "silence", "defaults") and found.key in ("priority", "fits now"):
        return named
    if named.key == "remaining" and _is_another_checksum(differs, ours, theirs):
        return RULES["shown"]
    is_of_minutes = named.key in ("ends", "copied") and len(differs.names) == 1
    if found.key == "minutes" and (named.chapter in _UNTIMED or is_of_minutes):
        return found
    if differs.kind is Kind.STATUS and status_of(ours) == status_of(theirs) and named.chapter == "communities":
        return found  # both refuse for the same cause, and name another binding
    if found.key == "written rows" and named.key == "statuses":
        return found
    if found.key == "verdicts" and named.key in _SETTLING and column_of(differs.names[0]) == Column.STATUS:
        return found
    if named.key == "layout" and differs.kind is Kind.VALUE and _is_of_markup(ours, theirs):
        return RULES["markup code"]
    if differs.names[:1] == (_CAUSE,) and found.key == "deciding" and _is_another_cause(ours, theirs):
        return found
    if differs.kind is Kind.VALUE and named.chapter != found.chapter:
        return found if found.key in _CERTAIN or named.chapter in _GENERAL else named
    is_alone = request.kind == wire.SET and len(request.bindings) == 1 and differs.kind is Kind.STATUS
    return found if is_alone and named.chapter == "set" and found.key != "order of causes" else named


def _is_of_markup(ours: bytes, theirs: bytes) -> bool:
    """Whether the sign finds a fault of the markup where ours finds one of the layout."""
    want, have = (_read(reply, scalar("dmsMultiSyntaxError")) for reply in (ours, theirs))
    return want is not None and want not in _MARKUP and have in _MARKUP


def _is_another_checksum(differs: Mismatch, ours: bytes, theirs: bytes) -> bool:
    """Whether the source of what is shown is the same row, and differs in the checksum alone."""
    want, have = _read(ours, _SOURCE), _read(theirs, _SOURCE)
    return differs.names == (_SOURCE,) and isinstance(want, bytes) and isinstance(have, bytes) and want[:3] == have[:3]


def _is_another_cause(ours: bytes, theirs: bytes) -> bool:
    """Whether both refuse an activation, and report another cause."""
    causes = [_read(reply, _CAUSE) for reply in (ours, theirs)]
    return causes[0] != causes[1] and all(isinstance(held, int) and held != Cause.NONE for held in causes)


def _read(reply: bytes, name: Name) -> int | bytes | Name | None:
    """What a reply says of a name, if anything."""
    message = spelled(reply)
    bound = None if message is None else dict(message.bindings).get(name)
    return None if bound is None else bound[1]


def of_the_cause(found: Rule, cause: int | None) -> Rule:
    """The rule that an activation breaks which one of the two alone refuses, by the cause that it reports."""
    return RULES[BY_CAUSE[cause]] if found.key == "deciding" and cause in (Cause.PRIORITY, Cause.SYNTAX) else found


def is_of_the_copy(found: Rule, differs: Mismatch, steps: Sequence[Step]) -> bool:
    """Whether a field of what is shown differs, and something was written since the last command: it is a copy."""
    are_commands = [not words.isdisjoint(COMMANDS) for words in _written(steps)]
    is_field = any(row is not None and row[0] == Memory.CURRENT for row in map(row_of, differs.names[:1]))
    return found.key == "shown" and is_field and any(are_commands) and not are_commands[-1]


def of_the_command(found: Rule, ours: bytes | None, theirs: bytes | None, steps: Sequence[Step]) -> Rule:
    """The rule of the command right before a read of the minutes, where these are wrong by more than a rounding: no
    second has passed that could be counted wrong."""
    minutes = [_read(reply, scalar("dmsMessageTimeRemaining")) for reply in (ours or b"", theirs or b"")]
    numbers = [held for held in minutes if isinstance(held, int)]
    is_at_once = len(steps) > 1 and isinstance(steps[-2], Ask) and steps[-2].kind == wire.SET
    if found.key != "minutes" or not is_at_once or len(numbers) < 2 or abs(numbers[0] - numbers[1]) < 2:
        return found
    commands = [word for word in COMMANDS if word in _written(steps)[-1]]
    return RULES[_BY_COMMAND[commands[0]]] if commands else found


def is_of_the_silence(found: Rule, steps: Sequence[Step]) -> bool:
    """Whether no command came before what looks like an end, but a time after which the sign is to be lost."""
    words = set[str]().union(*_written(steps))
    return found.key == "ends" and _SILENCE in words and words.isdisjoint(COMMANDS)


def _written(steps: Sequence[Step]) -> list[set[str]]:
    """The objects that each SET names, but for the last of the steps."""
    sets = [step for step in steps[:-1] if isinstance(step, Ask) and step.kind == wire.SET]
    return [{word_of(name) for name, _ in step.bindings} for step in sets]


def is_of_the_sets(named: Rule, found: Rule, steps: Sequence[Step]) -> bool:
    """Whether values differ for SETs that are to change nothing, or that activate nothing though the reports differ."""
    sets = [step for step in steps[:-1] if isinstance(step, Ask) and step.kind == wire.SET]
    if named.key == "responses":
        return not sets and any(isinstance(step, Raw) for step in steps[:-1])
    if named.chapter == "communities":
        return any(not step.is_writer or step.community is not None for step in sets)
    words = [word_of(name) for step in sets for name, _ in step.bindings]
    is_report = found.chapter in ("activation", "priorities") or found.key == "fits now"
    return named.chapter == "set" and is_report and bool(sets) and set(words).isdisjoint(COMMANDS)


def _key_of(octets: bytes, ours: bytes | None, theirs: bytes | None, differs: Mismatch) -> str:
    try:
        request = wire.read(octets)
    except wire.Fault as fault:
        return _BY_FAULT[fault.kind]
    if differs.kind is Kind.SPELLING:
        return "shortest form"
    if ours is None:
        return "responses" if request.kind == wire.RESPONSE else "no community"
    want, have = spelled(ours), spelled(theirs or b"")
    assert want is not None
    if have is None:
        return _spelled_otherwise(octets, request) or _by_request(request)
    if differs.kind is Kind.HEAD:
        return "same community"
    if wire.TOO_BIG in (want.status, have.status):
        return "too big"
    if differs.kind is Kind.STATUS:
        if want.status and want.status == have.status and len(request.bindings) == 1:
            return "error reply"
        return _by_request(request) if request.kind != wire.SET else _by_refusal(request, want, have)
    if want.status:
        return "error reply"
    if request.kind == wire.SET:
        return "set reply"
    return _by_value(want, have, differs.names) if differs.kind is Kind.VALUE else _by_request(request)


def _spelled_otherwise(octets: bytes, request: wire.Message) -> str | None:
    """Forms that have to be accepted, where the request is not in its shortest form."""
    return "needless octets" if wire.written(request) != octets else None


def _by_request(request: wire.Message) -> str:
    return {wire.GET: "get", wire.GET_NEXT: "getnext"}.get(request.kind, "set")


def _by_refusal(request: wire.Message, want: wire.Message, have: wire.Message) -> str:
    """A SET that one refuses and the other does not, or each for another cause."""
    if want.status and have.status:
        return "order of causes"
    refused = want if want.status else have
    if not 1 <= refused.index <= len(request.bindings):
        return "order of causes"
    name, value = request.bindings[refused.index - 1]
    if refused.status == wire.NO_SUCH_NAME:
        return "written rows" if column_of(name) in _WRITTEN else "not to be written"
    if refused.status == wire.BAD_VALUE:
        return "default font" if word_of(name) == "defaultFont" and _in_range(value) else "ranges"
    return _general_error(request, name, refused.index)


def _in_range(value: Value) -> bool:
    return isinstance(value[1], int) and 1 <= value[1] <= 255


def _general_error(request: wire.Message, name: Name, index: int) -> str:
    if name in [earlier for earlier, _ in request.bindings[: index - 1]]:
        return "twice"
    if column_of(name) == Column.STATUS:
        return "statuses"
    if word_of(name) == "dmsActivateMessage":
        return "deciding"
    return "fields" if row_of(name) is not None else "twice"


def _by_value(want: wire.Message, have: wire.Message, names: tuple[Name, ...]) -> str:
    """A read with other values."""
    name = names[0]
    ours, theirs = dict(want.bindings)[name], dict(have.bindings)[name]
    if ours[0] != theirs[0]:
        return "values"
    row = row_of(name)
    if row is not None:
        return _by_cell(name, row, ours, theirs)
    word = word_of(name)
    if word == "dmsMsgSourceMode" and isinstance(ours[1], int):
        return _BY_MODE.get(ours[1], "shown")
    if word == "dmsActivateMsgError" and isinstance(ours[1], int) and isinstance(theirs[1], int):
        return _by_causes(ours[1], theirs[1])
    if word in _PLACES and ours[1] in _NO_FAULT:
        return "no fault"
    if name in DEFAULTS:
        return "set"
    return "own codes" if name in OWN_CODES else _BY_SCALAR.get(word, "configuration")


def _by_causes(ours: int, theirs: int) -> str:
    """Where dmsActivateMsgError differs: by the cause that is to be found first."""
    return BY_CAUSE.get(theirs if ours == Cause.NONE else ours, "deciding")


def _by_cell(name: Name, row: tuple[int, int], ours: Value, theirs: Value) -> str:
    column = column_of(name)
    both = {ours[1], theirs[1]}
    if row[0] == Memory.BLANK:
        return "blank checksum" if column == Column.CRC else "blank rows"
    if column == Column.CRC:
        return "row checksum" if 0 in both else "checksum"
    if column in (Column.MEMORY_TYPE, Column.NUMBER):
        return "the table's rows"
    if row[0] == Memory.CURRENT:
        return "shown"
    if column == Column.STATUS:
        is_settled = both == {RowStatus.VALID, RowStatus.ERROR}
        return "verdicts" if is_settled else "settled" if RowStatus.VALIDATING in both else "statuses"
    return "emptied" if ours[1] in (b"", 0, 1) else "set"
