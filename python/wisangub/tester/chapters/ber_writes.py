"""BER: a SET in octets that have no answer, after which all reads as before."""

from typing import Iterator

from wisangub.snmp import wire
from wisangub.snmp.names import Memory, scalar
from wisangub.tester.context import Context
from wisangub.tester.requests import spelling
from wisangub.tester.requests.objects import NULL, Row, integer, octets
from wisangub.tester.requests.spelling import HEIGHT, Form
from wisangub.tester.requests.steps import Raw, Step

from .ber_forms import raw
from .block import Block, look, look_at

_TIME = scalar("defaultPageOnTime")
_KINDS = (wire.RESPONSE, 0xA4, 0xA5, 0xA6, 0xA7, 0xA8)
_VERSIONS = (b"\1", b"\2", b"\3")
_NEEDLESS = spelling.holding(b"\0\1")  # an integer with an octet too many


def _changes() -> Iterator[tuple[str, dict[str, Form]]]:
    """Forms of a SET that are no message, by what they are."""
    for version in _VERSIONS:
        yield "of another version", {"version": spelling.holding(version)}
    for place in ("message", "pdu", "list", "binding"):
        yield "with octets after the last member", {place: spelling.followed(b"\5\0")}
    for place in ("message", "list", "value"):
        yield "with a length that is refused", {place: spelling.length_of(5)}
    for place in ("number", "status", "index"):
        yield "with an integer that is refused", {place: _NEEDLESS}
    broken = (b"\x30\3\6\1\x2b", b"\x30\5\6\1\x80\5\0", wire.binding((HEIGHT, NULL))[:-1], b"\x30\6\6\1\x2b\x0a\1\1")
    for more in broken:
        yield "with a second binding that is none", {"list": spelling.followed(more)}


def _written(value: int, changes: dict[str, Form], kind: int = wire.SET) -> Raw:
    """A SET of a default to this value, with these changes or another tag of its PDU."""
    content = wire.integer(value)[2:]
    return raw("", changes, kind=kind, name=wire.name_content(_TIME), value=content, tag=wire.INTEGER)


def _commanded(context: Context, changes: dict[str, Form], kind: int = wire.SET) -> Raw:
    """An activation likewise."""
    name, code = wire.name_content(scalar("dmsActivateMessage")), context.blank_code(9)
    return raw("", changes, kind=kind, name=name, value=code, tag=wire.OCTETS)


def _of_a_whole(context: Context) -> list[Step]:
    """A SET with an octet more behind it, or before it, or with one that is missing."""
    row = Row(Memory.BLANK, 9)
    bound = [(_TIME, integer(91)), (scalar("dmsPowerLossMessage"), octets(context.message_code(row, 0)))]

    def changed(at: int) -> Raw:
        def make(number: int, names: tuple[bytes, bytes]) -> bytes:
            whole = wire.written(wire.Message(wire.SET, names[1], number, 0, 0, bound))
            return (whole + b"\0", whole + whole[:9], b"\0" + whole, whole[:-1], whole[:-5])[at]

        return Raw(make)

    return [changed(at) for at in range(5)]


def writes(context: Context) -> Iterator[Block]:
    """A SET and an activation in each of these forms, and of each kind that no SET is."""
    values = iter(range(41, 91))
    for name in dict.fromkeys(name for name, _ in _changes()):
        forms = [changes for other, changes in _changes() if other == name]
        steps = [step for form in forms for step in (_written(next(values), form), _commanded(context, form))]
        yield Block(f"a SET {name} writes nothing", "responses", [*steps, *look()])
    for kind in _KINDS:
        steps = [_written(next(values), {}, kind), _commanded(context, {}, kind)]
        yield Block("what is of another kind writes nothing", "responses", [*steps, *look()])
    whole = [*_of_a_whole(context), look_at(_TIME, scalar("dmsPowerLossMessage"))]
    yield Block("a SET that is cut or goes on writes nothing", "responses", whole)
