"""Descriptions that are made from signs of the model, under a simulated clock."""

import math
import pathlib
import re
import signal
import subprocess
import sys
import tempfile
from unittest import mock

from model import text
from model.agent import Agent
from model.sign import Sign
from wisangub.process.places import TOP
from wisangub.snmp import wire
from wisangub.snmp.names import RowStatus, scalar
from wisangub.tester.describe import program
from wisangub.tester.requests.objects import Column, Row
from wisangub.tester.requests.steps import get, put

from .described_signs import OTHERS, Made, Other, WithTable, differing, fixed, font, made, misbehaving
from .endpoints import free_port, front_end, in_real_time

SMALL = OTHERS["column"]


def read(held: Made, *names: wire.Name) -> list[object]:
    """What a sign reads."""
    reply, _ = held.sign.receive(get(*names).octets(1, held.describing.client.communities))
    return [value for _, (_, value) in wire.read(reply or b"").bindings]


def test_signs_of_other_makes_are_described_by_texts_alone() -> None:
    for name, spelled in OTHERS.items():
        held = made(spelled)
        found = held.describing.run()
        assert not differing(found, spelled), (name, differing(found, spelled))
        assert held.describing.put_back() == []
        assert held.clock.now() < 150, (name, held.clock.now())
        assert re.search(r" by validations; [0-9]+ validations\.$", found.splitlines()[0]), found[:200]


def test_versions_are_those_that_permanent_messages_name() -> None:
    found = made(OTHERS["trailer"]).describing.run()
    assert "font 9 height 13 space 3 line 2 version beef" in found
    assert "font 2 height 7 space 1 line 3 version 0001" in found


def test_what_no_text_tells_is_a_comment() -> None:
    found = made(text.BENCH, candidates=(49, 65, 66, 91, 93)).describing.run()
    lines = found.splitlines()
    for words, keyword in (
        ("communities:", "communities"),
        ("first:", "first"),
        ("version:", "font"),
        ("line:", "font"),
    ):
        at = next(at for at, line in enumerate(lines) if line.startswith("#") and words in line)
        assert any(line.startswith(f"{keyword} ") for line in lines[at : at + 4]), (words, lines[at : at + 4])
    assert "glyph 65 5 ffffffffe0" in lines  # a block of its width, and not its picture


def test_characters_beyond_those_asked_for_are_probed() -> None:
    spelled = SMALL.replace(b"end\n", b"glyph 196 6 " + b"f" * 13 + b"c\nglyph 214 6 " + b"f" * 13 + b"c\nend\n")
    held = made(spelled, probes=(176, 196))
    assert not differing(held.describing.run(), spelled)


def test_fonts_are_asked_for_what_permanent_messages_have() -> None:
    message = "permanent c4 - 0 0 7\nfont 2"
    spelled = SMALL.replace(b"font 2", message.encode()).replace(b"end\n", b"glyph 196 6 " + b"f" * 13 + b"c\nend\n")
    found = made(spelled).describing.run()
    assert not differing(found, spelled) and "glyph 196 " in found


def test_signs_without_optional_columns_are_described() -> None:
    held = made(SMALL, Other(SMALL, without=(6, 7)))
    found = held.describing.run()
    assert "\nhas 0 0\n" in found and not differing(found.replace("has 0 0", "has 0 1"), SMALL)
    assert held.describing.put_back() == []


def test_offsets_from_one_are_a_word() -> None:
    held = made(SMALL, Other(SMALL, offset=1))
    assert ended(held) == (None, 3) and is_as_before(held)


def test_more_fonts_than_a_description_has() -> None:
    spelled = OTHERS["tunnel"]
    more = "\n".join(font(number, 5, 1, 1, fixed("0123", 4)) for number in (1, 4, 5)).encode()
    found = made(spelled, WithTable(spelled, more)).describing.run()
    assert re.findall(r"(?m)^font (\d+)", found) == ["1", "2", "3", "4"] and "too: 5, 200." in found


def test_a_font_table_is_taken_within_ten_seconds() -> None:
    spelled = OTHERS["tunnel"]
    held = made(spelled, WithTable(spelled))
    found = held.describing.run()
    lines = [line for line in found.splitlines() if not line.startswith("#")]
    assert lines == spelled.decode().splitlines() and held.clock.now() < 10, held.clock.now()
    held = made(spelled, WithTable(spelled), is_by_table=False)
    assert not differing(held.describing.run(), spelled) and held.clock.now() > 20


class OurTable:
    """Our sign with the objects of its fonts."""

    def __init__(self, spelled: bytes) -> None:
        self.agent = Agent(text.described(spelled))
        assert self.agent.show_fonts()

    def receive(self, datagram: bytes) -> tuple[bytes | None, object]:
        answer: tuple[bytes | None, object] = self.agent.receive(datagram)
        return answer

    def tick(self) -> None:
        self.agent.sign.tick()


def test_the_font_table_of_our_own_sign_is_taken() -> None:
    for spelled in (*OTHERS.values(), text.BENCH):
        held = made(spelled, OurTable(spelled))
        lines = [line for line in held.describing.run().splitlines() if not line.startswith("#")]
        assert lines == [line for line in spelled.decode().splitlines() if not line.startswith("#")]
        assert held.clock.now() < 10, held.clock.now()


def test_loss_doubles_and_delay_change_nothing() -> None:
    for both_ways in (False, True):
        held = made(SMALL, faulty=0.1, both_ways=both_ways)
        assert not differing(held.describing.run(), SMALL)
        assert held.describing.put_back() == []
        held.clock.sleep_until(held.clock.now() + 3)  # what was late has come
        assert is_as_before(held)


def ended(held: Made) -> tuple[str | None, int]:
    """How the command ends."""
    return program.described(held.describing)


def test_a_sign_that_stops_answering_is_not_described() -> None:
    assert ended(misbehaving(SMALL, (8.0, math.inf))) == (None, 3)
    assert ended(misbehaving(SMALL, (0.0, math.inf))) == (None, 2)
    held = misbehaving(SMALL, (8.0, 45.0))
    assert ended(held) == (None, 3) and is_as_before(held)


def is_as_before(held: Made) -> bool:
    """Whether a sign that was new has its default font, and no row in use."""
    statuses = [Row(memory, number).cell(Column.STATUS) for memory, number in ((3, 1), (3, 3), (4, 1), (4, 2))]
    return read(held, scalar("defaultFont"), *statuses) == [2, *[RowStatus.NOT_USED] * len(statuses)]


def test_an_interrupt_puts_the_sign_back() -> None:
    for moment in (0, 1, 3):
        held = made(SMALL)

        def say(words: str, at: list[int] = [moment]) -> None:
            if at[0] == 0:
                raise KeyboardInterrupt
            at[0] -= 1

        held.describing.say = say
        assert ended(held) == (None, 3) and is_as_before(held), moment


def test_an_interrupt_while_the_sign_is_put_back_leaves_nothing() -> None:
    held = made(SMALL)
    ways = [KeyboardInterrupt, mock.DEFAULT]
    with mock.patch.object(held.describing, "put_back", side_effect=ways, wraps=held.describing.put_back):
        found, status = ended(held)
    assert found and status == 0 and is_as_before(held)


def test_an_unlike_sign_is_not_described() -> None:
    class Odd(Sign):
        """A sign that lays nothing out: each text fits."""

        def tick(self) -> None:
            super().tick()
            for number in (1, 2):
                self.receive(
                    put(Row(4, number).status(RowStatus.NOT_USED_REQ)).octets(1, (b"public", b"administrator"))
                )

    held = made(SMALL, Odd(text.described(SMALL)))
    assert ended(held) == (None, 3) and is_as_before(held)


def test_a_sign_of_more_rows_than_there_can_be_is_not_described() -> None:
    for count in (-1, 65536, 2**31 - 1):
        held = made(SMALL, WithTable(SMALL, said={scalar("dmsMaxChangeableMsg"): (wire.INTEGER, count)}))
        assert ended(held) == (None, 2) and not held.describing.client.written


def test_a_row_in_use_is_put_back_where_all_are() -> None:
    held = made(SMALL)
    communities = held.describing.client.communities
    for memory, number in ((3, 1), (3, 2), (3, 3), (4, 1), (4, 2)):
        row = Row(memory, number)
        for request in (
            put(row.status(RowStatus.MODIFY_REQ)),
            put(row.text(b"A%d" % number), row.priority(9)),
            put(row.status(RowStatus.VALIDATE_REQ)),
        ):
            held.sign.receive(request.octets(1, communities))
        held.sign.tick()
    text_found, status = ended(held)
    assert status == 0 and text_found is not None and not differing(text_found, SMALL)
    row = Row(4, 2)
    names = [row.cell(column) for column in (Column.TEXT, Column.PRIORITY, Column.STATUS)]
    assert read(held, *names) == [b"A2", 9, RowStatus.VALID]


def test_the_wrong_communities_are_a_word() -> None:
    for communities in ((b"others", b"strangers"), (b"others", b"administrator"), (b"public", b"strangers")):
        held = made(SMALL)
        held.describing.client.communities = communities
        assert ended(held) == (None, 2), communities


def described_by(*options: str) -> subprocess.CompletedProcess[bytes]:
    """The command."""
    call = [sys.executable, "-m", "wisangub.tester", "describe", *options]
    return subprocess.run(call, cwd=TOP, capture_output=True, timeout=300, check=False)


def test_a_wrong_command_is_a_word() -> None:
    port = free_port()
    table = [
        (["--to", "127.0.0.1"], b"--to"),
        (["--to", "no.such.host.invalid:161"], b"no.such.host.invalid"),
        (["--to", f"127.0.0.1:{port}", "--characters", "0"], b"--characters: numbers of characters are wanted"),
        (["--to", f"127.0.0.1:{port}", "--wait", "0"], b"--wait: a number above 0"),
        (["--to", f"127.0.0.1:{port}", "--communities", "a b", "c"], b"--communities: 1 to 32 octets"),
        (["--to", f"127.0.0.1:{port}", "--wait", "0.1"], b"nothing answers the communities public and administrator"),
    ]
    for options, words in table:
        ended_so = described_by(*options)
        assert ended_so.returncode == 2 and words in ended_so.stderr and not ended_so.stdout, (options, ended_so)
        assert b"Traceback" not in ended_so.stderr, ended_so


def test_interrupts_over_udp_put_the_sign_back() -> None:
    with tempfile.TemporaryDirectory() as folder:
        spelled, port = pathlib.Path(folder) / "column.sign", free_port()
        spelled.write_bytes(SMALL)
        right = ("bin/wisangub-sign", "--signtool", str(TOP / "model/signtool"))
        call = [sys.executable, "-m", "wisangub.tester", "describe", "--to", f"127.0.0.1:{port}", "--wait", "5"]
        with in_real_time(), front_end(*right, "--port", str(port), "--sign", str(spelled)):
            with subprocess.Popen(call, cwd=TOP, stdout=subprocess.PIPE, stderr=subprocess.PIPE) as command:
                assert command.stdout is not None and command.stderr is not None
                assert b"30 by 62" in command.stderr.readline() and b"fonts 2" in command.stderr.readline()
                for number in (signal.SIGINT, signal.SIGTERM, signal.SIGINT):
                    command.send_signal(number)
                said = command.stderr.read()
                assert command.wait(60) == 3 and not command.stdout.read(), said
                assert b"it was interrupted" in said and b"put back: all of it reads as before" in said, said
