"""A worker over a sign on loopback: commands, workers that end at any line, and lines that grew long."""

import dataclasses
import os
import pathlib
import re
import select
import time

import pytest

from trials.room.loopback import Fates
from trials.room.usage import children
from wisangub.process.coprocess import CoProcess
from wisangub.room.worker import session
from wisangub.room.worker.session import Lost, Session, is_command
from wisangub.snmp import wire

from .bench import ADDRESS, HELLO, PACE, TEXT, Bench, bench, carried

ROWS = [
    ("a publication", HELLO, "accepted"),
    ("a blank", f"blank 1 65535 255 {ADDRESS}", "accepted"),
    (
        "an activation of a row that there is not",
        "activate ffffff0300ff0001c0000201",
        "failed at step 7: the sign refused the activation for cause 6, messageNumber",
    ),
    ("a value out of its range", f"blank 0 65535 255 {ADDRESS}", "refused a value is out of its range: NUMBER"),
    (
        "a command that is none",
        "blank 1",
        "bad line word 3: the line ends where a number from 0 to 65535 is wanted",
    ),
    ("a line that is no command", "restart", "bad line"),
    ("two lines", f"blank 1 1 1 {ADDRESS}\ntick", "bad line"),
    (
        "a text that does not fit",
        f"publish 3 2 {b'[fo9]A'.hex()} - 0 0 1 1 1 {ADDRESS}",
        "failed at step 5: the row has status 5, error",
    ),
]


def numbers_of(at: Bench) -> list[int]:
    """The numbers of the requests that a centre sent to the sign, in their order."""
    sent = [message for message in map(wire.spelled, at.live.requests) if message is not None]
    return [message.number for message in sent if message.number >= 0]


def test_a_command_is_a_line() -> None:
    assert is_command(HELLO) and is_command("blank 1") and is_command("activate 00")
    others = ("", "tick", "restart", "journal 1", "datagram 30", "blank 1\ntick", "blank 1\r", "blank " + "1" * 65_536)
    assert not any(map(is_command, others))


def test_commands_end_in_words(tmp_path: pathlib.Path, where: str) -> None:
    with bench(tmp_path, where) as at:
        worker = at.worker()
        commands = [at.ask(line) for _, line, _ in ROWS]
        for (name, _, how), command in zip(ROWS, commands):
            assert at.ended(worker, command) == how, name
        while worker.sessions:
            worker.round()
        assert at.store.database.run("SELECT leased_by FROM signs") == [(None,)], "a sign without work is let go"
        assert [line.split()[3] for line in at.store.lines.ledger(at.sign_id)] == ["accepted", "accepted", "refused"]
        accepted = [code for _, code in dict.fromkeys(at.live.accepted)]
        assert accepted == [line.split()[2] for line in at.store.lines.ledger(at.sign_id)[:2]]


def test_a_co_process_is_asked_for_its_ledger_where_the_news_of_it_are_wanted(
    tmp_path: pathlib.Path, monkeypatch: pytest.MonkeyPatch
) -> None:
    asked: list[bytes] = []
    plain = CoProcess.write

    def write(process: CoProcess, octets: bytes) -> None:
        asked.extend(line for line in octets.split(b"\n") if line.startswith(b"status"))
        plain(process, octets)

    with bench(tmp_path, str(tmp_path / "database")) as at:
        monkeypatch.setattr(CoProcess, "write", write)
        found = at.session("first")
        asked_first = list(asked)
        at.ask(f"blank 1 65535 255 {ADDRESS}")
        carried(found, found.offer(False))
        assert len(found.ledger) == 1
        found.close()
        assert asked_first == [b"status last", b"status"] and asked[2:] == [b"status"]


def test_a_co_process_stands_while_its_sign_has_work(tmp_path: pathlib.Path, where: str) -> None:
    def standing() -> set[int]:
        return set(children().get(os.getpid(), []))

    with bench(tmp_path, where) as at:
        before, worker = standing(), at.worker()
        worker.round()
        assert standing() == before, "a sign that is read alone has none"
        command = at.ask(HELLO)
        while not worker.sessions:
            worker.round()
        assert len(standing() - before) == 1
        assert at.ended(worker, command) == "accepted"
        while worker.sessions or worker.leaving.processes:
            worker.round()
        assert standing() == before


@pytest.mark.parametrize(("line", "wanted"), ((HELLO, [1, 2, 3, 4, 5, 6, 7]), (ROWS[2][1], [7, 8])))
def test_the_steps_of_a_command(tmp_path: pathlib.Path, where: str, line: str, wanted: list[int]) -> None:
    with bench(tmp_path, where) as at:
        at.ask(line)
        found, steps = at.session("first"), []
        begin(found)
        while found.is_busy:
            steps.append(found.steps.step)
            carried_on(found, 1)
        found.close()
        assert list(dict.fromkeys(steps)) == wanted


def test_a_sign_that_is_silent(tmp_path: pathlib.Path, where: str, monkeypatch: pytest.MonkeyPatch) -> None:
    monkeypatch.setattr(Fates, "of", lambda *_: [])
    with bench(tmp_path, where) as at:
        worker = at.worker()
        assert at.ended(worker, at.ask(f"blank 1 65535 255 {ADDRESS}")) == "failed at step 7: no reply"
        assert at.store.lines.ledger(at.sign_id)[0].endswith(" noreply")
        assert len(set(filter(lambda octets: wire.read(octets).number >= 0, at.live.requests))) == 1


def carried_on(found: Session, steps: int) -> bool:
    """Whether a job is still under way after so many lines, ticks and what is heard."""
    ends = time.monotonic() + 60
    begun = found.number
    while found.is_busy and found.number - begun < steps and time.monotonic() < ends:
        is_heard = bool(select.select([found.udp_socket], [], [], 3 * PACE.tick)[0])
        carried(found, found.offer(not is_heard))
    return found.is_busy


def begin(found: Session) -> None:
    """The next command."""
    carried(found, found.offer(False))


def test_workers_that_die_after_some_lines(tmp_path: pathlib.Path, where: str) -> None:
    with bench(tmp_path, where) as at:
        command = at.ask(HELLO)
        found = at.session("worker 0")
        begin(found)
        lives = 1
        while carried_on(found, 1 if lives % 2 else 6):
            found.close()
            found = at.session(f"worker {lives}")
            lives += 1
        found.close()
        assert found.udp_socket.fileno() < 0, "its socket ends with it"
        assert lives > 3 and at.store.commands.how(command) == "accepted"
        assert len(set(at.live.accepted)) == 1
        numbers = [row[0] for row in at.store.database.run("SELECT number FROM lines ORDER BY number")]
        assert numbers == list(range(1, len(numbers) + 1))


def test_a_command_that_was_refused_as_its_worker_died(tmp_path: pathlib.Path, where: str) -> None:
    with bench(tmp_path, where) as at:
        commands = [at.ask(f"blank 1 65535 255 {ADDRESS}"), at.ask(f"blank 0 65535 255 {ADDRESS}")]
        found = at.session("first")
        begin(found)
        carried_on(found, 1000)
        line = found.offer(False)
        assert line is not None and at.store.lines.insert([line], "first") == {at.sign_id}
        found.close()
        at.session("second").close()
        hows = [at.store.commands.how(command) for command in commands]
        assert hows == ["accepted", "refused a value is out of its range: NUMBER"]


def test_of_two_that_think_they_drive_a_sign_one_goes_on(tmp_path: pathlib.Path, where: str) -> None:
    with bench(tmp_path, where) as at:
        command = at.ask(HELLO)
        first = at.session("first")
        begin(first)
        second = at.session("second")
        assert first.is_busy and second.is_busy and second.number == first.number
        carried(second, second.offer(True))
        with pytest.raises(Lost):
            carried(first, first.offer(True))
        first.close()
        carried_on(second, 1000)
        second.close()
        assert at.store.commands.how(command) == "accepted" and len(set(at.live.accepted)) == 1


def test_a_new_centre_where_lines_grew_long(tmp_path: pathlib.Path, where: str) -> None:
    with bench(tmp_path, where) as at:
        worker = at.worker(dataclasses.replace(PACE, lines=3))
        for _ in range(3):
            assert at.ended(worker, at.ask(HELLO)) == "accepted"
        rows = at.store.database.run("SELECT line FROM lines WHERE line LIKE 'journal %' ORDER BY number")
        heads = [str(row[0]).split(" ") for row in rows]
        assert len(heads) == 3
        numbers = numbers_of(at)
        assert numbers == sorted(numbers) and len(at.store.lines.ledger(at.sign_id)) == 3
        assert at.store.lines.of(at.sign_id)[2][0].decode().split(" ") == heads[-1]


def test_another_description_is_another_centre(tmp_path: pathlib.Path, where: str) -> None:
    with bench(tmp_path, where) as at:
        command = at.ask(HELLO)
        found = at.session("first")
        begin(found)
        used = max(numbers_of(at), default=1)
        found.close()
        (tmp_path / "a.sign").write_bytes(TEXT.replace(b"rows 32 8", b"rows 31 8"))
        found = at.session("second")
        assert not found.is_busy and at.store.commands.how(command) == session.CHANGED
        assert found.head.first is not None and found.head.first > used
        found.close()


def test_what_cannot_be_begun_waits_for_its_lease(tmp_path: pathlib.Path, where: str) -> None:
    with bench(tmp_path, where) as at:
        at.ask(HELLO)
        worker = at.worker(program="/bin/false")
        worker.lease()
        assert not worker.sessions and at.store.leases.with_work() == []
        assert at.store.database.run("SELECT leased_by FROM signs") == [(worker.name,)]


def test_no_community_is_said_or_kept_beside_the_lines(
    tmp_path: pathlib.Path, where: str, capfd: pytest.CaptureFixture[str]
) -> None:
    words = "r3ad-c0mmun1ty", "wr1te-c0mmun1ty"
    text = re.sub(rb"(?m)^communities .*$", " ".join(("communities", *words)).encode(), TEXT)
    with bench(tmp_path, where, text=text) as at:
        worker = at.worker()
        for command in [at.ask(line) for _, line, _ in ROWS]:
            assert at.ended(worker, command)
        at.ask(HELLO)
        at.worker(program="/bin/false").lease()
        at.store.database.run("UPDATE signs SET leased_until = 0")
        (tmp_path / "a.sign").write_bytes(text.replace(words[1].encode(), words[1].encode() * 3))  # which is too long
        at.worker().lease()
        tables = ("signs", "commands", "ledger", "readings", "messages", "audit")
        kept = "".join(str(at.store.database.run(f"SELECT * FROM {table}")) for table in tables)
        held = str(at.store.database.run("SELECT line FROM lines"))
    said = "".join(capfd.readouterr())
    assert said.count("one: ") == 2, "both workers said why they do not begin"
    for word in words:
        for spelled in (word, word.encode().hex()):
            assert spelled not in said and spelled not in kept
    assert words[1].encode().hex() in held, "lines do hold it"
