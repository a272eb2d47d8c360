"""The picture of a sign's page: the program's, or one of the lines of `show`."""

import re
import xml.etree.ElementTree

import pytest

from wisangub.endpoint.page.lamps import SHADES, Lamps, by_lines, called, pages_of, with_defaults
from wisangub.endpoint.sign_front_end import line_of
from wisangub.endpoint.text_of_picture import with_text
from wisangub.process import description
from wisangub.process.coprocess import CoProcess
from wisangub.process.places import SIGNTOOL, TOP
from wisangub.snmp import wire
from wisangub.snmp.names import Memory, cell, scalar

from ..waiting import MODEL
from .bench import PROGRAM

GANTRY = TOP.joinpath("signs/gantry.sign").read_bytes()
LINES = (b"page 1 on 30 off 0 back 0", b".9.", b"...", b"page 2 on 30 off 0 back 5", b"1..", b"..7")


def test_lines_are_lamps() -> None:
    svg = xml.etree.ElementTree.fromstring(by_lines(LINES))
    lamps = {}
    for path in svg.iter("{http://www.w3.org/2000/svg}path"):
        for x, y in re.findall(r"M(\d+) (\d+)h0", path.attrib["d"]):
            lamps[int(x), int(y)] = path.attrib["stroke"]
    rows = {0: ".9.", 1: "...", 5: "1..", 6: "..7"}
    backs = {0: 0, 1: 0, 5: 5, 6: 5}
    wanted = {
        (x, y): SHADES[backs[y] if cell == "." else int(cell)] for y, row in rows.items() for x, cell in enumerate(row)
    }
    assert lamps == wanted and svg.attrib["viewBox"] == "-1 -1 4 8"


def test_a_picture_has_its_text_for_who_does_not_see_it() -> None:
    svg = xml.etree.ElementTree.fromstring(with_text(by_lines(LINES), b"[fl]A<B&\xe9"))
    said = svg.find("{http://www.w3.org/2000/svg}desc")
    assert svg.attrib["role"] == "img" and said is not None and said.text == "[fl]A<B&\\xe9"
    assert svg[0].tag.endswith("title") and svg[1] is said
    again = with_text(with_text(by_lines(LINES), b"A"), b"B")
    assert again == with_text(by_lines(LINES), b"A"), "one that has a text keeps it"
    of_program = b'<svg role="img">\n<title>A sign</title>\n<desc>[hcE9]</desc>\n</svg>\n'
    assert b"</title><desc>\\xe9</desc>\n</svg>" in with_text(of_program, b"\xe9"), "the program's has the word"


def test_pages_of_lines() -> None:
    assert pages_of(LINES) == [(0, [".9.", "..."]), (5, ["1..", "..7"])]


def test_other_defaults_in_a_description() -> None:
    made = with_defaults(GANTRY, (1, 2, 3, 4, 5, 3, 4, 8, 9))
    assert b"\ndefaults 1 2 3 4 5 3 4 8 9\n" in made and len(made.splitlines()) == len(GANTRY.splitlines())


def test_without_the_program_the_lines_are_drawn() -> None:
    lamps = Lamps(MODEL, None)
    picture = lamps.of(b"A", LINES, None)
    assert not picture.is_of_program and picture.svg == with_text(by_lines(LINES), b"A")
    assert lamps.of(b"A", LINES, None) is picture, "it is kept"
    lines = tuple((called([MODEL.encode(), b"pages", b"--", b"A"], b"") or b"").splitlines())
    picture = lamps.of(b"A", lines, None)
    assert not picture.is_of_program and picture.svg == with_text(by_lines(lines), b"A"), "the model's stands still"


@pytest.mark.skipif(not SIGNTOOL.is_file(), reason="the program is not built: tools/build.py builds it")
@pytest.mark.parametrize("defaults", [None, (5, 2, 3, 4, 1, 2, 4, 8, 9)])
def test_the_programs_picture_is_taken_where_its_pages_are_those(defaults: tuple[int, ...] | None) -> None:
    text = GANTRY if defaults is None else with_defaults(GANTRY, defaults)
    shown = b"[fl]FOG[/fl][np]SLOW"
    lines = shown_lines(text, shown)
    lamps = Lamps(PROGRAM, GANTRY)
    picture = lamps.of(shown, lines, defaults)
    assert picture.is_of_program and b"<animate" in picture.svg
    other = lamps.of(shown, (lines[0], *lines[2:]), defaults)
    assert not other.is_of_program, "these are other pages"


def shown_lines(text: bytes, shown: bytes) -> tuple[bytes, ...]:
    """What `show` says of a sign that shows a text, which it has as its last permanent row."""
    row = b"permanent %s - 0 0 1\n" % shown.hex().encode()
    text = text.replace(b"\nfont 1 ", b"\n" + row + b"font 1 ", 1)
    reader, writer = description.communities_of(text)
    sign, number = CoProcess(PROGRAM, ["sign"], text), text.count(b"\npermanent ")
    sign.begin(b"state", "a test")
    answer = sign.hand([line_of(wire.get(reader, 1, [cell("dmsMessageCRC", Memory.PERMANENT, number)]))])[0]
    checksum = wire.read(bytes.fromhex(answer.split(b" ")[1].decode())).bindings[0][1][1]
    code = b"\xff\xff\xff\x02" + number.to_bytes(2, "big") + checksum.to_bytes(2, "big") + bytes(4)
    request = wire.Message(wire.SET, writer, 2, bindings=[(scalar("dmsActivateMessage"), (wire.OCTETS, code))])
    assert sign.hand([line_of(wire.written(request))])[0].startswith(b"accepted ")
    lines = tuple(sign.ask(b"show")[:-1])
    sign.end()
    return lines
