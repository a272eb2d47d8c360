"""Lines of a live sign about objects, as the model answers them."""

import functools

import pytest

from model import coprocess, text, wire
from model.agent import Agent

OWN = "refused the sign has an object of this name"
UNFIT = "refused the value is not one that its access takes"
NONE = "refused there is no object of this name"
NO_NAME = "bad line word 2: the name of an object is wanted, as 1.3.6.1"
NO_VALUE = "bad line word 3: a value is wanted, as INTEGER 7"
NO_ACCESS = "bad line after the value an access is wanted, as number 0 7, or the end of the line"
LONGEST = ".".join(["1", "3"] + ["4294967295"] * 126)


def answers(*lines: str) -> list[list[str]]:
    """The answers of the bench sign to these lines."""
    answer = functools.partial(coprocess.sign_answer, Agent(text.bench()))
    return [coprocess.answered(answer, line.encode("latin-1")) for line in lines]


@pytest.mark.parametrize(
    "words, wanted",
    [
        ("1.3 NULL", "ok"),
        ("0.39 NULL", "ok"),
        ("1.39.0 NULL", "ok"),
        ("2.4294967215 NULL", "ok"),
        ("01.0000000003 NULL", "ok"),
        (f"{LONGEST} NULL", "ok"),
        ("1.3 INTEGER -2147483648", "ok"),
        ("1.3 INTEGER 4294967295", "ok"),
        ("1.3 INTEGER -0", "ok"),
        ("1.3 INTEGER 3 number -2147483648 4294967295", "ok"),
        ("1.3 INTEGER 3 number 3 3", "ok"),
        ("1.3 OCTET STRING -", "ok"),
        ("1.3 OCTET STRING 4a4B octets 2 2", "ok"),
        ("1.3 OCTET STRING - octets 0 65535", "ok"),
        ("1.3 Opaque 00", "ok"),
        ("1.3 OBJECT IDENTIFIER 0.0", "ok"),
        ("1.3 IpAddress 192.0.2.001", "ok"),
        ("1.3 Counter 4294967295", "ok"),
        ("1.3 Gauge 0", "ok"),
        ("1.3 TimeTicks 0000000001", "ok"),
        ("1.3 INTEGER 3 number 4 9", UNFIT),
        ("1.3 INTEGER 3 number 4 2", UNFIT),
        ("1.3 INTEGER 3 octets 0 9", UNFIT),
        ("1.3 Gauge 3 number 0 9", UNFIT),
        ("1.3 NULL number 0 9", UNFIT),
        ("1.3 OCTET STRING 41 octets 2 2", UNFIT),
        ("1.3 OCTET STRING 41 number 0 9", UNFIT),
        ("1.3 Opaque 41 octets 0 9", UNFIT),
        ("1.3.6.1.4.1.1206.4.2.3.2.3.0 INTEGER 14", OWN),
        ("1.3.6.1.4.1.1206.4.2.3.2.3.0 INTEGER 14 number 0 1", UNFIT),
        ("1.3.6.1.4.1.1206.4.2.3.5.8.1.9.7.255 NULL", OWN),
        ("1.3.6.1.4.1.1206.4.2.3.2.3 NULL", "ok"),
        ("1.3", NO_VALUE),
        ("", NO_NAME),
        ("1 NULL", NO_NAME),
        ("1. NULL", NO_NAME),
        (".1.3 NULL", NO_NAME),
        ("3.1 NULL", NO_NAME),
        ("1.40 NULL", NO_NAME),
        ("0.40 NULL", NO_NAME),
        ("2.4294967216 NULL", NO_NAME),
        ("1.3.4294967296 NULL", NO_NAME),
        ("1.3.00000000001 NULL", NO_NAME),
        (f"{LONGEST}.1 NULL", NO_NAME),
        ("1.3 NULL -", NO_ACCESS),
        ("1.3 INTEGER", NO_VALUE),
        ("1.3 INTEGER +1", NO_VALUE),
        ("1.3 INTEGER --1", NO_VALUE),
        ("1.3 INTEGER 4294967296", NO_VALUE),
        ("1.3 INTEGER -2147483649", NO_VALUE),
        ("1.3 INTEGER 00000000001", NO_VALUE),
        ("1.3 integer 1", NO_VALUE),
        ("1.3 OCTET 41", NO_VALUE),
        ("1.3 STRING 41", NO_VALUE),
        ("1.3 OCTET STRING 4", NO_VALUE),
        ("1.3 OCTET STRING", NO_VALUE),
        ("1.3 OBJECT IDENTIFIER 3.1", NO_VALUE),
        ("1.3 IpAddress 192.0.2", NO_VALUE),
        ("1.3 IpAddress 192.0.2.256", NO_VALUE),
        ("1.3 Counter -1", NO_VALUE),
        ("1.3 Counter 4294967296", NO_VALUE),
        ("1.3 INTEGER 3 number 4", NO_ACCESS),
        ("1.3 INTEGER 3 number 3 3 3", NO_ACCESS),
        ("1.3 INTEGER 3 number 0 4294967296", NO_ACCESS),
        ("1.3 OCTET STRING - octets 0 65536", NO_ACCESS),
        ("1.3 OCTET STRING - octets -1 9", NO_ACCESS),
        ("1.3 INTEGER 3 Number 0 9", NO_ACCESS),
    ],
)
def test_a_line_of_an_object_is_answered_or_told_why_not(words: str, wanted: str) -> None:
    assert answers(f"object {words}".rstrip(" ")) == [[wanted]]


def test_what_is_withdrawn_is_gone() -> None:
    assert answers(
        "no-object 1.3", "object 1.3 NULL", "no-object 1.3", "no-object 1.3", "no-object", "no-object 3.1"
    ) == [
        [NONE],
        ["ok"],
        ["ok"],
        [NONE],
        [NO_NAME],
        [NO_NAME],
    ]


def put(*names: wire.Name) -> str:
    """The line that hands over a Set of these names to one octet."""
    bindings: list[wire.Binding] = [(name, (wire.OCTETS, b"\n")) for name in names]
    return f"datagram {wire.written(wire.Message(wire.SET, b'admin', 1, bindings=bindings)).hex()}"


def test_what_was_set_is_printed_as_it_is_published() -> None:
    text_of, other = (1, 3, 6, 1, 2, 1, 1, 4, 0), (1, 3, 6, 1, 2, 1, 1, 6, 0)
    first = "object 01.3.6.1.2.1.1.4.0 OCTET STRING - octets 0 9"
    second = "object 1.3.6.1.2.1.1.6.0 OCTET STRING 4A octets 0 9"
    assert answers(first, put(text_of, other), "objects")[2] == ["ok"]  # the second name is no object's yet
    lines = (first, second, put(other, text_of), "objects", "objects", put(other), first, "objects", "objects 1")
    assert answers(*lines)[3:5] + answers(*lines)[7:] == [
        ["set 1.3.6.1.2.1.1.4.0 OCTET STRING 0a", "set 1.3.6.1.2.1.1.6.0 OCTET STRING 0a", "ok"],
        ["ok"],
        ["set 1.3.6.1.2.1.1.6.0 OCTET STRING 0a", "ok"],
        ["bad line word 2: no more words are wanted"],
    ]


def test_fonts_stand_before_objects() -> None:
    assert answers("fonts", "fonts", "object 1.3 NULL", "fonts", "no-object 1.3", "fonts", "fonts 1") == [
        ["ok"],
        ["ok"],
        ["ok"],
        ["refused objects are published already"],
        ["ok"],
        ["ok"],
        ["bad line word 2: no more words are wanted"],
    ]


def test_firmware_is_answered_without_power() -> None:
    assert answers("power-lost", "object 1.3 NULL", "objects", "no-object 1.3", "fonts") == [["ok"]] * 5
