"""Readings by a worker over a sign on loopback: what is shown, the table, and by which socket and numbers."""

import contextlib
import json
import pathlib
import threading
import time
from unittest import mock

import pytest

from wisangub.snmp import wire

from .bench import HELLO, bench
from .test_worker import begin


def test_a_reading_says_what_is_shown(tmp_path: pathlib.Path, where: str) -> None:
    with bench(tmp_path, where) as at:
        worker = at.worker()
        assert at.ended(worker, at.ask(HELLO)) == "accepted"
        ends = time.monotonic() + 30
        found: dict[str, object] = {}
        while found.get("text") != b"HELLO".hex() and time.monotonic() < ends:
            worker.round()
            newest = at.store.readings.of(at.sign_id)[:1]
            found = json.loads(newest[0][1]) if newest and newest[0][1] else {}
        assert found["text"] == b"HELLO".hex() and found["owner"] == b"me".hex() and found["mode"] == 8
        sent = [message for message in map(wire.read, at.live.requests) if message is not None]
        below = [message for message in sent if message.number < 0]
        assert below and all(message.kind == wire.GET and message.community == b"public" for message in below)
        lines = [str(line).split(" ") for (line,) in at.store.database.run("SELECT line FROM lines")]
        replies = [wire.spelled(bytes.fromhex(line[1])) for line in lines if line[0] == "datagram"]
        assert replies and all(reply is not None and reply.number >= 0 for reply in replies), "its answer is no line"


def test_a_fault_of_one_thing_ends_no_other(tmp_path: pathlib.Path, capfd: pytest.CaptureFixture[str]) -> None:
    """The thread goes on to read, and to look for plans."""
    with bench(tmp_path, str(tmp_path / "room.sqlite")) as at:
        reader = at.worker().reader
        looked = threading.Semaphore(0)
        reader.next_alarms = 0.0
        with mock.patch.object(reader.store.alarms, "look", side_effect=ValueError("nobody thought of it")):
            with mock.patch.object(reader.store.plans, "look", side_effect=looked.release):
                thread = threading.Thread(target=reader.run, daemon=True)
                thread.start()
                is_looked = looked.acquire(timeout=60)
                reader.is_stopped.set()
                thread.join(60)
        reader.gets.close()
        assert is_looked and not thread.is_alive()
    assert capfd.readouterr().err.count("readings: ValueError: 'nobody thought of it'") == 1


@pytest.mark.parametrize("part", ("readings", "tables", "devices", "brightness", "verdicts"))
@pytest.mark.parametrize("does", ("keep", "begin"))
def test_a_fault_that_stays_ends_no_other(
    tmp_path: pathlib.Path, part: str, does: str, capfd: pytest.CaptureFixture[str]
) -> None:
    """As over what one sign says, at each look: alarms and plans are looked at all the same, and signs are read."""
    with bench(tmp_path, str(tmp_path / "room.sqlite")) as at:
        reader, looked = at.worker().reader, [threading.Semaphore(0) for _ in range(3)]
        reader.next_alarms = 0.0
        looks = reader.store.alarms, reader.store.plans, reader.gets
        with contextlib.ExitStack() as stack:
            stack.enter_context(mock.patch.object(getattr(reader, part), does, side_effect=ValueError("nobody knew")))
            for held, name, one in zip(looks, ("look", "look", "again"), looked):
                stack.enter_context(mock.patch.object(held, name, side_effect=one.release))
            reader.start()
            found = [one.acquire(timeout=60) for one in looked]
            reader.stop()
        assert found == [True] * 3
    assert capfd.readouterr().err.count("readings: ValueError: 'nobody knew'") == 1


def test_a_reading_has_a_socket_of_its_own(tmp_path: pathlib.Path, where: str) -> None:
    with bench(tmp_path, where) as at:
        at.ask(HELLO)
        found, worker = at.session("first"), at.worker()
        begin(found)
        own = found.udp_socket.getsockname()[1]
        ports: dict[bool, set[int]] = {}
        ends = time.monotonic() + 30
        while set(ports) != {False, True} and time.monotonic() < ends:
            worker.reader.readings.begin()
            for octets, peer in zip(list(at.live.requests), list(at.live.peers)):
                message = wire.spelled(octets)
                assert message is not None
                ports.setdefault(message.number < 0, set()).add(peer[1])
        worker.reader.gets.close()
        found.close()
        assert ports[False] == {own} and own not in ports[True]


def test_a_table_is_read_where_it_is_in_use(tmp_path: pathlib.Path, where: str) -> None:
    with bench(tmp_path, where) as at:
        worker = at.worker()
        command = at.ask(HELLO)
        assert at.ended(worker, command) == "accepted"
        ends = time.monotonic() + 60
        while len(at.store.messages.of(at.sign_id)) < 3 and time.monotonic() < ends:
            worker.round()
        rows = {row[:2]: (row[2], json.loads(row[3] or "{}")) for row in at.store.messages.of(at.sign_id)}
        assert list(rows) == [(2, 1), (2, 2), (3, 1)] and {status for status, _ in rows.values()} == {4}
        assert rows[3, 1][1]["text"] == b"HELLO".hex() and rows[3, 1][1]["owner"] == b"me".hex()
        assert b"ROAD WORK" in bytes.fromhex(rows[2, 1][1]["text"]) and rows[2, 1][1]["priority"] == 100
        assert at.store.database.run("SELECT step FROM commands WHERE id = ?", command) == [(7,)]
        numbers = [message.number for message in map(wire.read, at.live.requests) if message.number < 0]
        assert len(set(numbers)) >= 2 + 3, "a number for the status of each 30 rows, and one for each row in use"
