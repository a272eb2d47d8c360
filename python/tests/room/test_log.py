"""The log of a sign's datagrams: what went out for each line is what the program sends, and so does the model."""

import random

import pytest

from model import multi, text, wire
from model.centre import Centre
from tests.room.bench import ADDRESS, HELLO, PROGRAM, TEXT
from wisangub.endpoint.records import Head
from wisangub.process import description
from wisangub.refusal import Refusal
from wisangub.room.fleet import Sign
from wisangub.room.plain import plain_of
from wisangub.room.web.faces import check, face_of
from wisangub.room.web.replay import replayed
from wisangub.room.worker.steps import Steps
from wisangub.snmp.mib import Mib

FIRST = 77
SWAPPED = TEXT.replace(b"order high", b"order swapped")
PIECES = [b"A", b"\xe4", b"[[", b"]]", b"[nl]", b"[NL2]", b"[np]", b"[fo1]", b"[jl3]", b"[hc42]", b"[/fl]", b"[pt30o0]"]


def sign_of(octets: bytes) -> Sign:
    return Sign("one", "", "127.0.0.1", 1, octets, description.communities_of(octets)[0], 10.0, 1)


def head_of(sign: Sign) -> str:
    return Head("centre", sign.digest, FIRST).line().decode()


class Twin:
    """The model's centre and a sign of the model that answers it, and the lines that they make."""

    def __init__(self, sign: Sign) -> None:
        self.made = text.described(sign.text)
        self.centre = Centre(self.made.writer, self.made.swapped, FIRST)
        self.world = text.World(self.made)
        self.lines: list[tuple[int, str, float]] = [(1, head_of(sign), 0.0)]
        self.sent: list[bytes | None] = [None]

    def hand(self, line: str) -> bytes | None:
        """Hands a line to the model's centre: what it sends."""
        words = line.encode().split(b" ")
        self.lines.append((len(self.lines) + 1, line, float(len(self.lines))))
        if words[0] == b"datagram":
            sent = self.centre.receive(text.octets(words[1]))
        elif words[0] == b"tick":
            sent = self.centre.tick()
        else:
            sent = self.centre.command(text.event(words, self.made.swapped))
        self.sent.append(sent)
        return sent

    def carry(self, command: str, chance: random.Random) -> None:
        """A command to its end, some datagrams of which are lost."""
        sent = self.hand(command)
        while self.centre.job is not None:
            reply = self.world.sign.receive(sent)[0] if sent is not None and chance.random() < 0.8 else None
            self.world.sign.tick()
            sent = self.hand("tick" if reply is None else f"datagram {reply.hex()}")


@pytest.mark.parametrize("octets", [TEXT, SWAPPED], ids=["high", "swapped"])
def test_what_went_out_is_what_the_model_sends(octets: bytes) -> None:
    sign, chance = sign_of(octets), random.Random(1)
    twin = Twin(sign)
    for command in (HELLO, f"blank 1 65535 255 {ADDRESS}", "activate ffffff03000100007f000001", HELLO):
        twin.carry(command, chance)
    twin.hand("datagram 3000")
    twin.hand("tick")
    assert sum(sent is not None for sent in twin.sent) > 12
    handed = replayed(PROGRAM, sign, twin.lines)
    assert [(one.number, one.line, one.at) for one in handed] == twin.lines
    assert [one.sent for one in handed] == twin.sent


@pytest.mark.parametrize("changed", [SWAPPED, TEXT.replace(b"communities ", b"communities x")], ids=["order", "words"])
def test_what_went_out_is_not_told_by_another_description(changed: bytes) -> None:
    before, now = sign_of(TEXT), sign_of(changed)
    twin = Twin(before)
    twin.carry(HELLO, random.Random(1))
    assert before.digest != now.digest and any(twin.sent)
    handed = replayed(PROGRAM, now, twin.lines)
    assert [(one.number, one.line, one.at) for one in handed] == twin.lines
    assert [one.sent for one in handed if one.sent is not None] == [], "it was not sent so"


def test_lines_that_no_centre_begins_sent_nothing() -> None:
    sign = sign_of(TEXT)
    assert replayed(PROGRAM, sign, []) == []
    assert [one.sent for one in replayed(PROGRAM, sign, [(4, HELLO, 0.0), (5, "tick", 1.0)])] == [None, None]
    assert [one.sent for one in replayed(PROGRAM, sign, [(1, head_of(sign), 0.0)])] == [None]


def test_a_program_that_is_none_is_refused() -> None:
    sign = sign_of(TEXT)
    with pytest.raises(Refusal, match="no program: No such file"):
        replayed("/no program", sign, [(1, head_of(sign), 0.0), (2, "tick", 0.0)])


def test_a_face_is_what_the_model_reads_in_the_description() -> None:
    for octets in (TEXT, text.BENCH, b"# a comment\r\n" + text.BENCH.replace(b"\n", b"\r\n")):
        made, face = text.described(octets), face_of(sign_of(octets))
        check(sign_of(octets), PROGRAM)
        assert (face.width, face.height) == (made.face.width, made.face.height)
        assert face.fonts == tuple(sorted((font.number, font.height) for font in made.face.fonts))
        assert (face.has_beacon, face.has_pixel, face.writer) == (made.beacons, made.pixels, made.writer)
        assert face.rows == (made.changeable, made.volatile)
        rows = [(one.number, one.text, one.owner, one.priority) for one in face.permanent]
        assert rows == [(at, row.text, row.owner, row.priority) for at, row in enumerate(made.permanent, 1)]


def test_a_description_that_the_program_takes_for_none_is_refused_with_its_line() -> None:
    for wrong, line in ((b"size 23 x", 1), (b"size 0 14", 22)):
        octets = text.BENCH.replace(b"size 23 14", wrong)
        with pytest.raises(text.Bad) as bad:
            text.described(octets)
        with pytest.raises(Refusal, match=f"one: line {bad.value.line}: no description of a sign"):
            check(sign_of(octets), PROGRAM)


def test_plain_words_of_a_text_are_those_that_the_model_reads() -> None:
    chance = random.Random(2)
    apart = {"new line": " / ", "new page": " // "}
    for _ in range(2000):
        octets = b"".join(chance.choices(PIECES, k=chance.randrange(8)))
        items, fault = multi.items(octets)
        words = "".join(chr(item[1]) if item[0] == "character" else apart.get(item[0], "") for item, _ in items)
        assert fault is None and plain_of(octets) == (words.strip(" /") or "nothing"), octets
    assert plain_of(b"[nl][np]") == "nothing" and plain_of(b"A[hcZZ]B[") == "AB"
    assert plain_of(b"A[hcD800]B[hcdfff]C[hc0]D[hce000]") == "A B C D\ue000", "pages are UTF-8"


def test_the_step_is_read_in_the_requests_that_go_out() -> None:
    twin, steps = Twin(sign_of(TEXT)), Steps(Mib.read())
    twin.carry(HELLO, random.Random(3))
    found = []
    for sent in twin.sent:
        steps.see(sent)
        found += [step] if (step := steps.taken()) is not None else []
    assert found == [1, 2, 3, 4, 5, 6, 7]
    steps.see(b"\x30\x00")
    assert steps.taken() is None and wire.spelled(b"\x30\x00") is None
