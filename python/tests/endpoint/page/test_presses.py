"""What the buttons of a sign's page do is done as any event, and is in the journal."""

import pathlib

from wisangub.endpoint.page.readings import SILENCE
from wisangub.endpoint.reading import read
from wisangub.endpoint.records import Head
from wisangub.process import description
from wisangub.process.places import TOP
from wisangub.snmp import wire
from wisangub.snmp.names import Memory, RowStatus, cell, scalar

from .bench import SIGN, Bench, bench

SHORT = scalar("dmsShortPowerLossTime")
MODE, LEFT = scalar("dmsMsgSourceMode"), scalar("dmsMessageTimeRemaining")
VOLATILE = cell("dmsMessageStatus", Memory.VOLATILE, 1)


def lines_of(path: pathlib.Path) -> list[bytes]:
    """The lines of a journal, in order."""
    text = path.read_bytes()
    found = read(str(path), text, Head("sign", description.digest((TOP / SIGN).read_bytes())), False)
    assert found is not None
    return [line for some in found.lines(text) for line in some]


def mode(one: Bench) -> str:
    return one.facts()["Mode"]


def test_the_power_goes_and_comes_by_the_journal(tmp_path: pathlib.Path) -> None:
    journal = tmp_path / "journal"
    with bench("--journal", str(journal)) as one:
        one.set((VOLATILE, (wire.INTEGER, RowStatus.MODIFY_REQ)))
        one.shows("table", "volatile 1")
        assert one.press("power-lost") == 200 and lines_of(journal)[-1] == b"power-lost"
        assert one.state()["shown"]["powered"] is False and mode(one) == "powerLoss (13)"
        one.send(wire.GET, b"public", [(MODE, (wire.NULL, b""))])
        assert one.reply(1.0) is None, "no datagram is answered"
        one.shows("datagrams", "not answered")
        assert one.press("power-lost") == 409, "it is off"
        assert one.press("power-back", 7) == 200 and lines_of(journal)[-1] == b"power-back 7"
        assert one.state()["shown"]["powered"] is True and mode(one) == "powerRecovery (10)"
        assert one.press("power-back", 7) == 409, "it is on"
        assert one.get(VOLATILE) == RowStatus.NOT_USED
        assert "volatile 1" not in str(one.state()["table"]["rows"])


def test_seconds_pass_and_are_recorded(tmp_path: pathlib.Path) -> None:
    journal = tmp_path / "journal"
    with bench("--journal", str(journal)) as one:
        one.publish(b"FOG")
        one.set((LEFT, (wire.INTEGER, 2)))
        assert one.press("seconds", 61) == 200 and one.get(LEFT) == 1
        assert one.press("seconds") == 200
        assert one.press("seconds", 58) == 200 and one.get(MODE) == 14, "the duration is over"
    kept = lines_of(journal)
    assert sum(int(line[6:]) for line in kept if line.startswith(b"ticks ")) == 1 + 61 + 1 + 58
    with bench("--journal", str(journal), "--down", "process") as one:
        assert one.get(MODE) == 14 and mode(one) == "endDuration (14)"


def test_a_lost_datagram_never_came(tmp_path: pathlib.Path) -> None:
    journal = tmp_path / "journal"
    with bench("--journal", str(journal)) as one:
        assert one.press("lose-request") == 200
        one.send(wire.SET, b"administrator", [(SHORT, (wire.INTEGER, 5))])
        assert one.reply(1.0) is None and not any(line.startswith(b"datagram") for line in lines_of(journal))
        one.shows("datagrams", "lost")
        assert one.get(SHORT) == 0
        one.set((SHORT, (wire.INTEGER, 5)))
        assert one.get(SHORT) == 5


def test_of_a_lost_reply_the_sign_has_done_its_part(tmp_path: pathlib.Path) -> None:
    journal = tmp_path / "journal"
    with bench("--journal", str(journal)) as one:
        assert one.press("lose-reply") == 200
        one.send(wire.SET, b"administrator", [(SHORT, (wire.INTEGER, 5))])
        assert one.reply(1.0) is None and sum(line.startswith(b"datagram") for line in lines_of(journal)) == 1
        one.shows("datagrams", "its reply was lost")
        assert one.get(SHORT) == 5


def test_a_sign_whose_front_end_ended_while_its_power_was_off_has_it_again(tmp_path: pathlib.Path) -> None:
    journal = tmp_path / "journal"
    with bench("--journal", str(journal)) as one:
        assert one.press("power-lost") == 200
    with bench("--journal", str(journal)) as one:
        assert one.get(MODE) == 10 and one.state()["shown"]["powered"] is True
    assert any(line.startswith(b"power-back ") for line in lines_of(journal))


def test_the_page_ends_no_silence(tmp_path: pathlib.Path) -> None:
    """It reads a row that is validating, and what is shown, only where a Get changes nothing."""
    words = ("--journal", str(tmp_path / "journal"))
    status = cell("dmsMessageStatus", Memory.CHANGEABLE, 1)
    with bench(*words) as one:
        one.set((scalar("dmsCommunicationsLossMessage"), (wire.OCTETS, bytes.fromhex("0700020000"))))
        one.set((SILENCE, (wire.INTEGER, 1)))
        one.set((status, (wire.INTEGER, RowStatus.MODIFY_REQ)))
        one.set((status, (wire.INTEGER, RowStatus.VALIDATE_REQ)))
        one.shows("table", "validating")
        assert one.press("seconds", 30) == 200
        table = one.state()["table"]
        assert table["older"] and "validating" in str(table["rows"]), "as it was read"
    with bench(*words, "--down", "process") as one:
        rows, passed = str(one.state()["table"]["rows"]), 30
        assert "'changeable 1', 'valid'" in rows, "as another process says"
        while mode(one) != "commLoss (12)":
            assert one.press("seconds", 1) == 200
            passed += 1
        assert passed <= 60, "the silence went on from where it was"
        one.get(MODE)
        one.shows("shown", "blank 2")
        one.shows("shown", "Activated by")
