"""A sign's front end whose journal is shortened, over the model: what is there after a kill, objects, power, a page.
What is so of a centre's too stands in test_short_ends.py."""

import argparse
import pathlib

import pytest

from wisangub.endpoint import records
from wisangub.endpoint.clock import Moment
from wisangub.endpoint.journal import Journal
from wisangub.endpoint.page.start import copy_of
from wisangub.snmp import wire
from wisangub.snmp.names import DMS

from .ends import SIGN, changed
from .started import are_shortened, cut_off
from .test_firmware import BRIGHTNESS, DESCRIPTION, DIAL, FILE, SET
from .test_journal import HEAD, kept
from .waiting import MODEL, until
from .with_objects import COUNTER, refused, served

MODE = DMS + (6, 7, 0)
LEVEL = "object 1.3.6.1.4.1.1206.4.2.3.7.6.0 INTEGER 3 number 0 9"
DIAL_SET = "set 1.3.6.1.4.1.1206.4.2.3.7.1.0 INTEGER"
Words = list[str]


@pytest.fixture(name="path")
def path_of(tmp_path: pathlib.Path) -> pathlib.Path:
    return tmp_path / "journal"


@pytest.fixture(name="listed")
def listed_of(tmp_path: pathlib.Path) -> pathlib.Path:
    path = tmp_path / "some.objects"
    path.write_text(FILE, encoding="ascii")
    return path


def test_all_that_was_answered_is_there_after_a_kill(path: pathlib.Path, tmp_path: pathlib.Path) -> None:
    (tmp_path / "kept").mkdir()
    words = ("--journal", str(path), "--keep", "2k", "--archive", str(tmp_path / "kept"), "--no-ticks", "--quiet")
    log = tmp_path / "log"
    with served(*words[:-1], "--log", str(log), "--json") as front_end:
        front_end.count(range(1, 31))
        assert front_end.shortened() >= 2 and path.stat().st_size < 2600
        front_end.process.kill()
    assert are_shortened(log) >= 2
    assert SIGN.opened(path).state()
    with served(*words[:-1]) as front_end:
        assert front_end.get(COUNTER) == [(wire.INTEGER, 30)]
        front_end.hang_up("shortened from")
        assert front_end.get(COUNTER) == [(wire.INTEGER, 30)] and front_end.end() == 0
    files = cut_off(tmp_path / "kept")
    assert files[0].startswith(b"journal 2 sign") and files[0].count(b"\ndatagram ") > 5 and len(files) > 2


def test_a_sighup_shortens_and_reads_the_objects_again(path: pathlib.Path, listed: pathlib.Path) -> None:
    with served("--journal", str(path), "--objects", str(listed), "--no-ticks") as front_end:
        front_end.count(range(1, 3))
        listed.write_text(FILE.replace("6f6e65", "74776f"), encoding="ascii")
        front_end.hang_up("shortened from")
        assert any("objects are published" in line for line in front_end.said)
        assert front_end.get(DESCRIPTION) == [(wire.OCTETS, b"two")]
        assert front_end.end() == 0
    assert SIGN.opened(path).state()


def with_objects(path: pathlib.Path, listed: pathlib.Path) -> Words:
    return ["--journal", str(path), "--objects", str(listed), "--no-ticks"]


def test_what_managers_set_survives_a_shortening(path: pathlib.Path, listed: pathlib.Path) -> None:
    words = with_objects(path, listed)
    with served(*words) as front_end:
        front_end.put((BRIGHTNESS, (wire.INTEGER, 7)))
        front_end.put((DIAL, (wire.INTEGER, 5)))
        front_end.put((BRIGHTNESS, (wire.INTEGER, 8)), (DMS + (4, 2, 0), (wire.INTEGER, 1)))  # refused
        front_end.hang_up("shortened from")
        assert front_end.get(BRIGHTNESS, DIAL) == [(wire.INTEGER, 7), (wire.INTEGER, 5)]
        front_end.put((DIAL, (wire.INTEGER, 6)))
        front_end.process.kill()
    again = [f"{DIAL_SET} 6", f"{SET} 7"]
    for _ in range(2):
        with served(*words) as front_end:
            assert front_end.get(BRIGHTNESS, DIAL) == [(wire.INTEGER, 7), (wire.INTEGER, 6)]
            until(lambda: front_end.printed[1:] == again, "firmware is told again of all, once each")
            front_end.hang_up("shortened from")
            assert front_end.end() == 0
    assert set_records(path) == [line.encode() for line in again], "each once, in the order of names"


def set_records(path: pathlib.Path) -> list[bytes]:
    """The values of objects behind a journal's state."""
    lines = [record.rpartition(b" #")[0] for record in path.read_bytes().splitlines()]
    return [line for line in lines if line.startswith(b"set ")]


def test_a_journal_of_the_state_alone_is_gone_on_from_with_all_that_was_set(
    path: pathlib.Path, listed: pathlib.Path
) -> None:
    listed.write_text(FILE + "fonts\n", encoding="ascii")
    words = with_objects(path, listed)
    with served(*words) as front_end:
        front_end.put((BRIGHTNESS, (wire.INTEGER, 7)), (DIAL, (wire.INTEGER, 5)))
        for _ in range(3):
            front_end.hang_up("shortened from")
            assert set_records(path) == [f"{DIAL_SET} 5".encode(), f"{SET} 7".encode()]
        front_end.process.kill()
    with served(*words) as front_end:  # what it was handed over is a manager's there too
        front_end.hang_up("shortened from")
        assert front_end.get(BRIGHTNESS, DIAL) == [(wire.INTEGER, 7), (wire.INTEGER, 5)]
        front_end.put((BRIGHTNESS, (wire.INTEGER, 8)))
        front_end.hang_up("shortened from")
        assert front_end.end() == 0
    assert front_end.printed[1:] == [f"{DIAL_SET} 5", f"{SET} 7", f"{SET} 8"]
    assert set_records(path) == [f"{DIAL_SET} 5".encode(), f"{SET} 8".encode()]


def test_a_program_without_the_line_set_is_refused_in_words(
    path: pathlib.Path, listed: pathlib.Path, tmp_path: pathlib.Path
) -> None:
    words = with_objects(path, listed)
    with served(*words) as front_end:
        front_end.put((BRIGHTNESS, (wire.INTEGER, 7)))
        front_end.hang_up("shortened from")
        assert front_end.end() == 0
    old = tmp_path / "old"
    old.write_text(f"#!/bin/sh\nsed -u 's/^set /unset /' | {MODEL} \"$@\"\n", encoding="ascii")
    old.chmod(0o755)
    why = "the program has no line `set`, which --objects needs\n"
    assert refused(*words, "--signtool", str(old)) == (2, why)
    with served(*words) as front_end:
        assert front_end.get(BRIGHTNESS) == [(wire.INTEGER, 7)]


def test_a_value_is_set_again_only_where_it_may_be_set_now(path: pathlib.Path, listed: pathlib.Path) -> None:
    words = with_objects(path, listed)
    with served(*words) as front_end:
        front_end.put((BRIGHTNESS, (wire.INTEGER, 7)), (DIAL, (wire.INTEGER, 5)))
        front_end.hang_up("shortened from")
        front_end.process.kill()
    rows: list[tuple[str, object, Words]] = [
        (FILE.replace(f"{LEVEL}\n", ""), wire.NO_SUCH_NAME, []),  # it is there no more
        (FILE.replace("INTEGER 3 number 0 9", "INTEGER 3 number 0 6"), [(wire.INTEGER, 3)], []),
        (FILE.replace("INTEGER 3 number 0 9", "INTEGER 3"), [(wire.INTEGER, 3)], []),
        (FILE.replace("INTEGER 3 number", "INTEGER 4 number"), [(wire.INTEGER, 7)], [f"{SET} 7"]),  # a manager's
        (FILE, [(wire.INTEGER, 7)], [f"{SET} 7"]),
    ]
    for text, value, told in rows:
        listed.write_text(text, encoding="ascii")
        with served(*words) as front_end:
            assert front_end.get(BRIGHTNESS) == value and front_end.get(DIAL) == [(wire.INTEGER, 5)]
            until(lambda: front_end.printed[1:] == [f"{DIAL_SET} 5", *told], f"{told} is told")
            front_end.hang_up("shortened from")  # what has no object now is kept for later
            assert front_end.end() == 0
    with served("--journal", str(path), "--no-ticks") as front_end:  # without objects
        front_end.hang_up("shortened from")
        assert front_end.end() == 0
    with served(*words) as front_end:
        assert front_end.get(BRIGHTNESS, DIAL) == [(wire.INTEGER, 7), (wire.INTEGER, 5)]


def test_a_line_that_is_another_at_a_sighup_is_newer_until_the_next_start(
    path: pathlib.Path, listed: pathlib.Path
) -> None:
    words = with_objects(path, listed)
    with served(*words) as front_end:
        front_end.put((BRIGHTNESS, (wire.INTEGER, 7)))
        listed.write_text(FILE.replace("INTEGER 3 number", "INTEGER 4 number"), encoding="ascii")
        front_end.hang_up("shortened from")
        assert front_end.get(BRIGHTNESS) == [(wire.INTEGER, 4)]
        front_end.process.kill()
    with served(*words) as front_end:  # as without a shortening: docs/JOURNAL.md, "which value is the newer"
        assert front_end.get(BRIGHTNESS) == [(wire.INTEGER, 7)]


def test_a_sign_without_power_has_it_again_at_a_start(path: pathlib.Path) -> None:
    moment = Moment.now()
    path.write_bytes(records.records([HEAD._replace(form=2).line(), moment.start(), moment.clock(), b"power-lost"]))
    with served("--journal", str(path), "--down", "process") as front_end:
        assert front_end.get(MODE) == [(wire.INTEGER, 10)]  # it has come back at the start
        front_end.hang_up("shortened from")
        front_end.process.kill()
    assert b"powered 1" in SIGN.opened(path).state()
    text = path.read_bytes()
    path.write_bytes(changed(changed(text, b"powered 1", b"powered 0"), b"shown-mode 10", b"shown-mode 13"))
    with served("--journal", str(path)) as front_end:
        assert front_end.get(MODE) == [(wire.INTEGER, 10)]  # and here too
        assert front_end.end() == 0
    assert kept(str(path))[0].startswith(b"power-back ")


def test_a_page_asks_a_copy_that_goes_on_from_the_state(path: pathlib.Path) -> None:
    with served("--journal", str(path), "--no-ticks") as front_end:
        front_end.count(range(1, 3))
        front_end.hang_up("shortened from")
        front_end.count(range(3, 4))
        front_end.process.kill()
    journal = Journal.opened(str(path), HEAD)
    copy = copy_of(argparse.Namespace(page=8161, signtool=MODEL, sign=None, journal=str(path)), None, journal)
    assert copy is not None and b"short-power-loss-time 3" in copy.ask(b"save")
    copy.end()
    journal.close()
