"""The order in which a line is carried: inserted, handed over, its ledger kept, its datagram sent."""

import pathlib
import time

import pytest

from wisangub.room.store.database import Failed
from wisangub.room.store.lines import Line
from wisangub.room.worker.session import Lost
from wisangub.snmp import wire

from .bench import ADDRESS, bench, carried
from .test_worker import begin, carried_on

BLANK = f"blank 1 65535 255 {ADDRESS}"


def test_the_ledger_is_in_the_database_before_an_activation_goes_out(
    tmp_path: pathlib.Path, where: str, monkeypatch: pytest.MonkeyPatch
) -> None:
    with bench(tmp_path, where) as at:
        command, found = at.ask(BLANK), at.session("first")
        send, seen = found.send, list[tuple[int, list[str], int]]()

        def watched() -> None:
            if found.out is not None:
                message = wire.spelled(found.out)
                assert message is not None
                seen.append((message.number, at.store.lines.ledger(at.sign_id), len(at.live.requests)))
            send()

        monkeypatch.setattr(found, "send", watched)
        begin(found)
        carried_on(found, 1000)
        found.close()
        assert at.store.commands.how(command) == "accepted" and seen
        number, ledger, before = seen[0]
        assert ledger[0].split(" ")[1] == str(number) and ledger[0].endswith(" waiting") and before == 0


def test_what_is_not_kept_does_not_go_out(tmp_path: pathlib.Path, where: str, monkeypatch: pytest.MonkeyPatch) -> None:
    def refused(*_: object) -> None:
        raise Failed("the disk is full")

    with bench(tmp_path, where) as at:
        command, found = at.ask(BLANK), at.session("first")
        monkeypatch.setattr(found.store.lines, "keep", refused)
        with pytest.raises(Failed):
            begin(found)
            carried_on(found, 3)
        found.close()
        time.sleep(0.2)
        assert at.live.requests == [] and at.store.commands.how(command) is None
        after = at.session("second")
        carried_on(after, 1000)
        after.close()
        assert at.store.commands.how(command) == "accepted", "the next one goes on from the lines"


def test_a_line_that_lost_its_number_is_not_handed_over(
    tmp_path: pathlib.Path, where: str, monkeypatch: pytest.MonkeyPatch
) -> None:
    with bench(tmp_path, where) as at:
        at.ask(BLANK)
        found = at.session("first")
        line = found.offer(False)
        assert line is not None and at.store.lines.insert([Line(at.sign_id, line.number, b"tick")], "second") == {
            at.sign_id
        }
        handed: list[Line] = []
        monkeypatch.setattr(found, "hand", handed.append)
        with pytest.raises(Lost):
            carried(found, line)
        found.close()
        assert handed == [] and at.live.requests == []
