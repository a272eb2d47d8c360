"""BER: forms that must be accepted, and forms that must be refused."""

from typing import Callable, Iterator

from wisangub.snmp import wire
from wisangub.snmp.names import scalar
from wisangub.tester.context import Context
from wisangub.tester.requests import spelling
from wisangub.tester.requests.objects import NULL
from wisangub.tester.requests.spelling import HEIGHT, NOWHERE, PLACES, spelled
from wisangub.tester.requests.steps import Ask, Raw, fixed, get, get_next

from .ber_contents import integers, names, values
from .ber_forms import BAD_TAGS, of_kind, raw, whole_changed
from .ber_writes import writes
from .block import Block, Chapter

_INSIDE = ("message", "pdu", "list", "binding")
_WRITE: dict[str, object] = {
    "kind": wire.SET,
    "name": wire.name_content(scalar("defaultPageOnTime")),
    "value": b"\7",
    "tag": wire.INTEGER,
}
_FITTING = {
    "message": (0x30,),
    "version": (0x02,),
    "community": (0x04,),
    "pdu": (0xA0, 0xA1, 0xA2, 0xA3),
    "number": (0x02,),
    "status": (0x02,),
    "index": (0x02,),
    "list": (0x30,),
    "binding": (0x30,),
    "name": (0x06,),
}


def _accepted_lengths() -> Iterator[Block]:
    for place in PLACES:
        for octets in (1, 2, 3, 4):
            yield Block("lengths that are accepted", "", [raw("needless octets", {place: spelling.length_of(octets)})])
    everywhere = {place: spelling.length_of(4) for place in PLACES}
    yield Block("lengths that are accepted", "", [raw("needless octets", everywhere)])
    kinds: list[dict[str, object]] = [{"kind": wire.GET_NEXT}, _WRITE]
    for more in kinds:
        steps = [raw("needless octets", {place: spelling.length_of(2)}, **more) for place in PLACES]
        yield Block("lengths that are accepted", "", [*steps, raw("needless octets", everywhere, **more)])
    long_value = {"value": spelling.length_of(2)}
    for size in (0, 127, 128, 255, 256, 700):
        nowhere = wire.name_content(NOWHERE)
        yield Block(
            "long lengths",
            "",
            [
                raw("long lengths", {}, name=nowhere, value=bytes(size), tag=wire.OCTETS),
                raw("shortest form", long_value, name=nowhere, value=bytes(size), tag=wire.OCTETS),
            ],
        )


def _refused_lengths() -> Iterator[Block]:
    forms = [
        spelling.first_octet(0x80),
        spelling.first_octet(0x80, b"\0\0"),
        spelling.first_octet(0xFF),
        spelling.first_octet(0x85, b"\0\0\0\0\0"),
        spelling.first_octet(0x84, b"\xff\xff\xff\xff"),
        spelling.first_octet(0x84, b"\x80\0\0\0"),
    ]
    for place in PLACES:
        five = spelling.length_of(5)
        yield Block("lengths that are refused", "refused lengths", [raw("", {place: form}) for form in [*forms, five]])
        offs = [raw("", {place: spelling.longer(1)}), raw("", {place: spelling.longer(120)})]
        yield Block("lengths that are off", "sequences", offs)
    for place in _INSIDE + ("community", "name"):
        yield Block("lengths that are off", "sequences", [raw("", {place: spelling.longer(-1)})])
    another = wire.binding((HEIGHT, NULL))
    past = [{"value": spelling.longer(by), "list": spelling.followed(another)} for by in (1, 2, len(another))]
    steps = [raw("", changes, value=b"", tag=wire.OCTETS) for changes in past]
    yield Block("a value that goes on in the next binding", "sequences", steps)


def _tags() -> Iterator[Block]:
    for place in _FITTING:
        bad = [
            tag
            for tag in BAD_TAGS + bytes([0x02, 0x04, 0x05, 0x06, 0x30, 0xA1 if place != "pdu" else 0x60])
            if tag not in _FITTING[place]
        ]
        yield Block(
            "other tags",
            "kinds" if place == "pdu" else "messages",
            [raw("", {place: spelling.tagged(tag)}) for tag in bad],
        )
        yield Block(
            "what is missing", "messages", [raw("", {place: spelling.without()}), raw("", {place: spelling.twice()})]
        )
    yield Block(
        "what is missing", "bindings", [raw("", {"value": spelling.without()}), raw("", {"value": spelling.twice()})]
    )
    yield Block(
        "responses",
        "responses",
        [of_kind(wire.RESPONSE, is_writer) for is_writer in (False, True)],
    )
    yield Block("traps", "kinds", [of_kind(kind) for kind in (0xA4, 0xA5)])


def _trailing() -> Iterator[Block]:
    for place in _INSIDE:
        for more in (b"\0", b"\5\0", b"\x30\0"):
            yield Block("octets after the last member", "sequences", [raw("", {place: spelling.followed(more)})])
    after: list[Callable[[bytes], bytes]] = [
        lambda whole: whole + b"\0",
        lambda whole: whole + whole,
        lambda whole: b"\0" + whole,
    ]
    yield Block("octets after the message", "datagrams", [whole_changed(change) for change in after])


def _cut() -> Iterator[Block]:
    def front(size: int) -> Raw:
        return whole_changed(lambda whole: whole[:size] if size < len(whole) else b"\x30")

    for begun in range(0, 48, 8):
        yield Block("datagrams that are cut", "sequences", [front(size) for size in range(begun, begun + 8)])


def _sizes() -> Iterator[Block]:
    def padded(size: int) -> Raw:
        """A Get of no instance whose value makes it this long; its answer repeats it."""

        def make(number: int, names: tuple[bytes, bytes]) -> bytes:
            empty = (
                len(spelled(number, names[1], {}, name=wire.name_content(NOWHERE), value=bytes(1000), tag=wire.OCTETS))
                - 1000
            )
            return spelled(
                number, names[1], {}, name=wire.name_content(NOWHERE), value=bytes(size - empty), tag=wire.OCTETS
            )

        return Raw(make)

    yield Block("the longest datagram", "datagrams", [padded(1471), padded(1472)])
    yield Block("a datagram that is too long", "datagrams", [padded(1473), padded(1474), fixed(bytes(1473))])
    yield Block("no bindings", "messages", [Ask(kind, ()) for kind in (wire.GET, wire.GET_NEXT, wire.SET)])
    yield Block("many bindings", "datagrams", [get(*[HEIGHT] * 70), get_next(*[(0, 0)] * 200)])


def _blocks(context: Context) -> Iterator[Block]:
    for part in (_accepted_lengths, _refused_lengths, integers, values, names, _tags, _trailing, _cut, _sizes):
        yield from part()
    yield from writes(context)
    yield Block("after all that", "get", [get(HEIGHT)])


CHAPTER = Chapter("ber", "BER forms", _blocks)
