"""Files of objects: what a line says, and the first line at fault with why it is one."""

import functools
import random

import pytest

from model import coprocess, text
from model.agent import Agent
from trials.agents import Firmware
from wisangub.objects import listed
from wisangub.objects.lines import UNFIT, Access, Bad, Object, object_of
from wisangub.refusal import Refusal
from wisangub.snmp import wire

NAME = "1.3.6.1.2.1.1.1.0"


def of(*lines: str) -> listed.Listed:
    return listed.of_text("some.objects", "\n".join(lines).encode("utf-8"))


def why(*lines: str) -> str:
    """Why these lines are refused."""
    with pytest.raises(Refusal) as refused:
        of(*lines)
    assert refused.value.status == 2
    return str(refused.value).removeprefix("some.objects: ")


def test_each_line_is_read_as_the_model_reads_it() -> None:
    firmware = Firmware(random.Random(7), False)
    lines = firmware.published(3000)
    answer = functools.partial(coprocess.sign_answer, Agent(text.bench()))
    told = {"ok": 0, "bad line": 0, f"refused {UNFIT}": 0}
    for line in lines:
        wanted = coprocess.answered(answer, line.encode())[0]
        try:
            found = "ok"
            made = object_of(line.split(" ")[1:])
            assert coprocess.answered(answer, made.line())[0] == wanted
        except Bad as bad:
            found = f"refused {UNFIT}" if str(bad) == UNFIT else "bad line"
        wanted = "bad line" if wanted.startswith("bad line ") else wanted
        assert found == wanted or (found, wanted) == ("ok", "refused the sign has an object of this name")
        told[found] += 1
    assert min(told.values()) > 20, told


def test_a_file_has_objects_times_and_fonts() -> None:
    found = of(
        "# all that there is",
        "",
        "uptime 1.3.6.1.2.1.1.3.0\r",
        f"object {NAME} OCTET STRING 4142",
        "fonts",
        "object 1.3.7 INTEGER 3 number 0 9",
        "clock 1.3.8",
    )
    uptime, other = (1, 3, 6, 1, 2, 1, 1, 3, 0), (1, 3, 7)
    assert found.fonts == 5 and found.times == {uptime: listed.Time.UPTIME, (1, 3, 8): listed.Time.CLOCK}
    assert found.objects[other] == Object(other, (wire.INTEGER, 3), Access(wire.INTEGER, 0, 9))
    assert found.objects[other].line() == b"object 1.3.7 INTEGER 3 number 0 9"
    assert found.places == {uptime: 3, tuple(map(int, NAME.split("."))): 4, other: 6, (1, 3, 8): 7}
    moment = found.published(12.345, 1_795_543_676.9)
    assert moment[uptime].value == (wire.TICKS, 1234) and moment[(1, 3, 8)].value == (wire.COUNTER, 1_795_543_676)
    assert found.published(2**32 / 100 + 1, 2**32 + 5)[uptime].value == (wire.TICKS, 100)
    assert of().places == of("# none").places == {}


@pytest.mark.parametrize(
    "line, words",
    [
        ("objects", "a line begins with object, uptime, clock or fonts"),
        ("object", "the line ends where a name is wanted"),
        ("object 1.3", "a type is wanted, one of INTEGER, OCTET STRING, NULL, OBJECT IDENTIFIER"),
        ("object 1.3 INTEGER", "the line ends where a value of INTEGER is wanted"),
        ("object 1.3 OCTET STRING", "the line ends where a value of OCTET STRING is wanted"),
        ("object 1.3 INTEGER 4294967296", "4294967296 is no number from -2147483648 to 4294967295"),
        ("object 1.3 INTEGER 1x", "1x is no number from"),
        ("object 1.3 Gauge -1", "-1 is no number from 0 to 4294967295"),
        ("object 1.3 OCTET STRING 123", "123 is no pairs of hexadecimal digits, nor - for none"),
        ("object 1.3 IpAddress 1.2.3.256", "1.2.3.256 is no address, as 192.0.2.1"),
        (
            "object 1.3 INTEGER 3 number 0",
            "behind the value stands nothing, or number LEAST MOST, or octets LEAST MOST",
        ),
        ("object 1.3 INTEGER 3 number 4 9", "the value is not one that its access takes"),
        ("object 1.3 OCTET STRING - octets 0 65536", "65536 is no number from 0 to 65535"),
        ("object sysDescr.0 NULL", "sysDescr.0 is no name: numbers with dots between them"),
        ("object 1.40 NULL", "1.40 is no name of an object"),
        ("object  1.3 NULL", "one space stands between two words, and none before or behind all"),
        (" object 1.3 NULL", "one space stands between two words"),
        ("object 1.3 OCTET STRING ä", "a word is not ASCII"),
        (f"object 1.3 OCTET STRING {'41' * 40_000}", "more than 65536 octets"),
        (f"object {NAME} NULL", "line 2 has an object of this name"),
        (f"uptime {NAME}", "line 2 has an object of this name"),
        ("uptime", "one name is wanted"),
        ("clock 1.3 1.4", "one name is wanted"),
        ("clock 1", "1 is no name: numbers with dots between them"),
        ("fonts 1", "no words stand behind fonts"),
        ("fonts", "line 3 is the same"),
    ],
)
def test_the_first_fault_has_its_line(line: str, words: str) -> None:
    assert why("# a file", f"object {NAME} NULL", "fonts", "", line, "object").startswith(f"line 5: {words}")


def test_a_file_that_is_not_there_or_too_long_is_refused() -> None:
    with pytest.raises(Refusal, match="no/such: No such file or directory"):
        listed.read("no/such")
    with pytest.raises(Refusal, match="more than 1048576 octets"):
        listed.of_text("some.objects", b"#" * 1_048_577)
