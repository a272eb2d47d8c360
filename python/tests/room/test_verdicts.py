"""What a sign found wrong with a message, asked for by the worker, and the words of pages and of the command."""

import pathlib
import time
from typing import Sequence

import pytest

from wisangub.room.command import explain
from wisangub.room.store.commands import Command
from wisangub.room.store.lines import News
from wisangub.room.worker.program import Worker
from wisangub.snmp import wire

from .bench import ADDRESS, HELLO, Bench, bench

WIDE = f"publish 3 2 {b'THIS TEXT IS MUCH TOO LONG FOR IT'.hex()} - 0 0 1 65535 255 {ADDRESS}"
BEACON = f"publish 3 2 {b'A'.hex()} - 1 0 1 65535 255 {ADDRESS}"
HOW = "failed at step 5: the row has status 5, error"
FOUND = "the sign found fault 5 at octet 16: "


def said(at: Bench, worker: Worker, command: int, wait: float = 30.0) -> str:
    """What the sign said of a command, once it is there."""
    ends = time.monotonic() + wait
    while not (why := at.store.commands.why(command)) and time.monotonic() < ends:
        worker.guarded_round()
    return why


def test_a_sign_says_what_is_wrong_with_a_row(tmp_path: pathlib.Path, where: str) -> None:
    with bench(tmp_path, where) as at:
        worker = at.worker()
        for line, words in ((WIDE, FOUND), (BEACON, "the sign's verdict is 3: the sign has no beacons")):
            command = at.ask(line)
            assert at.ended(worker, command) == HOW
            found = said(at, worker, command)
            assert found.startswith(words)
            assert words != FOUND or found.endswith(("textTooBig", "wider than the matrix by 101 columns"))
        other = at.ask(HELLO)
        assert at.ended(worker, other) == "accepted" and said(at, worker, other, 0.5) == ""
        asked = [message for message in map(wire.read, at.live.requests) if message.number < 0]
        assert len({message.number for message in asked}) == len({(m.number, str(m.bindings)) for m in asked})
        lines = [str(line) for (line,) in at.store.database.run("SELECT line FROM lines")]
        replies = [wire.read(bytes.fromhex(line.split(" ")[1])) for line in lines if line.startswith("datagram ")]
        assert replies and min(reply.number for reply in replies) >= 0, "the question is no line"


def test_a_sign_is_asked_after_a_worker_died(
    tmp_path: pathlib.Path, where: str, monkeypatch: pytest.MonkeyPatch
) -> None:
    with bench(tmp_path, where) as at:
        worker = at.worker()
        command = at.ask(WIDE)

        def dies(news: Sequence[News]) -> None:
            if any(one.how is not None for one in news):
                raise KeyboardInterrupt

        monkeypatch.setattr(worker.store.lines, "keep", dies)
        with pytest.raises(KeyboardInterrupt):
            at.ended(worker, command)
        assert at.store.commands.how(command) is None and worker.reader.verdicts.to_ask == []
        at.store.database.run("UPDATE signs SET leased_by = NULL")
        second = at.worker()
        assert at.ended(second, command) == HOW and said(at, second, command).startswith(FOUND)


def test_a_sign_that_does_not_answer_leaves_the_words_as_they_are(tmp_path: pathlib.Path) -> None:
    with bench(tmp_path, str(tmp_path / "database")) as at:
        worker = at.worker()
        command = at.ask(WIDE)
        assert at.ended(worker, command) == HOW
        worker.reader.verdicts.to_ask = []
        worker.reader.verdicts.want(at.sign_id, None)
        assert worker.reader.verdicts.to_ask == []
        worker.reader.verdicts.end(worker.signs[at.sign_id], Command(command, WIDE), "no reply")
        worker.reader.verdicts.end(worker.signs[at.sign_id], Command(command, WIDE), [2, 2, 0])
        worker.reader.verdicts.keep()
        assert at.store.commands.why(command) == ""


def test_one_sign_is_asked_of_one_command_at_a_time(tmp_path: pathlib.Path) -> None:
    with bench(tmp_path, str(tmp_path / "database")) as at:
        worker = at.worker()
        first, second = (Command(at.ask(WIDE), WIDE) for _ in range(2))
        worker.reader.verdicts.to_ask = [(at.sign_id, first), (at.sign_id, second), (at.sign_id + 1, first)]
        worker.reader.verdicts.begin()
        assert worker.reader.verdicts.to_ask == [(at.sign_id, second)]
        worker.reader.verdicts.begin()
        assert worker.reader.verdicts.to_ask == []
        numbers = [get.number for get in worker.reader.gets.waiting.values()]
        assert len(set(numbers)) == 2 and all(number < 0 for number in numbers)
        worker.reader.gets.close()


def test_a_command_on_the_command_line_says_why(tmp_path: pathlib.Path, capfd: pytest.CaptureFixture[str]) -> None:
    with bench(tmp_path, str(tmp_path / "database")) as at:
        command = at.ask(WIDE)
        at.store.commands.because([(command, f"{FOUND}textTooBig")])
        explain(at.store, command, HOW)
        assert capfd.readouterr().err == f"step 5 (is the message valid): {FOUND}textTooBig\n"
        explain(at.store, command, "failed at step 7: no reply")
        assert (
            f"step 7 (activate): the request went out three times to 127.0.0.1:{at.live.port}, "
            in capfd.readouterr().err
        )
        explain(at.store, command, "accepted")
        assert capfd.readouterr().err == ""
