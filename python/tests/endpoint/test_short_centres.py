"""A centre's front end whose journal is shortened, over the model: what is there after a kill, what waits meanwhile,
and numbers. What is so of a sign's too stands in test_short_ends.py."""

import pathlib

import pytest

from model import wire
from wisangub.endpoint import records

from .ends import CENTRE, long_state
from .started import are_shortened, cut_off
from .test_journal import kept
from .waiting import until
from .with_centres import BLANK, BenchSign, operated, refused

PUBLISH = 'publish-text 3 1 "A" "me" 0 0 9 65535 255 127.0.0.1'


@pytest.fixture(name="path")
def path_of(tmp_path: pathlib.Path) -> pathlib.Path:
    return tmp_path / "journal"


def test_all_that_was_done_is_there_after_a_kill_and_no_number_goes_out_twice(
    path: pathlib.Path, tmp_path: pathlib.Path
) -> None:
    (tmp_path / "kept").mkdir()
    words = ("--journal", str(path), "--keep", "1k", "--archive", str(tmp_path / "kept"))
    log = tmp_path / "log"
    with BenchSign() as sign:
        with operated(sign, *words, "--log", str(log), "--json") as front_end:
            for _ in range(2):
                front_end.accepted(PUBLISH)
            assert front_end.shortened() >= 2
            front_end.process.kill()
        assert are_shortened(log) >= 2
        used = max(sign.numbers())
        journal = CENTRE.opened(path)
        assert journal.state() and (journal.head.first or 0) > 1
        with operated(sign, *words) as front_end:
            before = front_end.ledger()
            assert len(before) == 2 and all(" accepted" in line for line in before)
            assert front_end.end() == 0
        numbers = sign.numbers()
    assert used >= 2 * 7 and numbers == [*range(1, len(numbers) + 1)]
    first, *_ = cut_off(tmp_path / "kept")
    assert first.startswith(b"journal 2 centre") and b"first 1 #1" in first


def test_a_sighup_shortens_while_nothing_is_asked(path: pathlib.Path) -> None:
    with BenchSign() as sign, operated(sign, "--journal", str(path)) as front_end:
        front_end.accepted(BLANK)
        front_end.hang_up("shortened from")
        assert CENTRE.opened_beside(path).state()[3] == b"idle"
        front_end.accepted(BLANK)
        assert front_end.end() == 0 and sign.numbers() == [1, 2]
    assert [line.split(b" ")[0] for line in kept(str(path), CENTRE.head)] == [b"blank", b"datagram"]


def wait_and_die(sign: BenchSign, path: pathlib.Path, command: str) -> None:
    """A centre's journal is shortened while the first request of a command waits; it is killed, and then the sign
    answers."""
    sign.is_silent = True
    with operated(sign, "--journal", str(path), "--tick", "30") as front_end:
        front_end.order(command)
        until(lambda: sign.heard, "a request")
        front_end.hang_up("shortened from")
        front_end.process.kill()
    sign.is_silent = False


def test_what_waits_goes_out_again_from_the_state(path: pathlib.Path) -> None:
    with BenchSign() as sign:
        wait_and_die(sign, path, PUBLISH)
        state = CENTRE.opened(path).state()
        assert [line.split(b" ")[0] for line in state[3:9]] == [
            b"awaits",
            b"sends",
            b"ticks",
            b"step",
            b"polls",
            b"publish",
        ]
        with operated(sign, "--journal", str(path)) as front_end:
            until(lambda: "last accepted" in front_end.printed, "the job goes on")
            assert front_end.end() == 0
        assert sign.heard[0] == sign.heard[1] and sign.numbers() == [*range(1, 1 + len(sign.numbers()))]


def test_the_command_of_a_state_is_that_of_which_more_is_said(path: pathlib.Path) -> None:
    wide = f"publish 3 1 {b'ABABABABAB'.hex()} - 0 0 9 65535 255 127.0.0.1"
    with BenchSign() as sign:
        wait_and_die(sign, path, wide)
        with operated(sign, "--journal", str(path)) as front_end:
            words = "step 5 (is the message valid): the sign found fault 5 at octet 4: textTooBig"
            until(lambda: any(line.startswith(words) for line in front_end.said), words)
            assert front_end.end() == 1


def test_a_fresh_centre_begins_above_what_a_shortened_journal_may_have_used(path: pathlib.Path) -> None:
    with BenchSign() as sign:
        with operated(sign, "--journal", str(path)) as front_end:
            front_end.accepted(PUBLISH)
            front_end.hang_up("shortened from")
            front_end.accepted(PUBLISH)
            front_end.process.kill()
        size, journal, count = path.stat().st_size, CENTRE.opened(path), len(sign.numbers())
        assert 7 <= (journal.head.first or 0) - 1 < count
        with operated(sign, "--journal", str(path), "--fresh") as front_end:
            front_end.accepted(BLANK)
            assert front_end.end() == 0
        first = (journal.head.first or 0) + (size - journal.base) // 15
        assert sign.numbers()[count:] == [first] and first > count
        with operated(sign, "--journal", str(path)) as front_end:
            front_end.begun()
            front_end.hang_up("shortened from")
            front_end.end()
        octets = path.read_bytes()
        path.write_bytes(octets[: octets.index(b"\nend #")])
        damaged = path.read_bytes()
        status, said = refused("--journal", str(path), "--fresh")
        assert status == 2 and "the state there is not whole: it is not put aside (move it away" in said
        status, said = refused("--journal", str(path))
        assert status == 2 and "the state there is not whole (move it away" in said and path.read_bytes() == damaged


def test_another_first_number_is_refused_where_it_is_above_the_journals(path: pathlib.Path) -> None:
    with BenchSign() as sign:
        with operated(sign, "--journal", str(path), "--first", "40") as front_end:
            front_end.accepted(PUBLISH)
            front_end.hang_up("shortened from")
            front_end.end()
        first = CENTRE.opened(path).head.first or 0
        for wanted in (40, first):
            with operated(sign, "--journal", str(path), "--first", str(wanted)) as front_end:
                front_end.accepted(BLANK)
                assert front_end.end() == 0
        words = f"--first {first + 1}: the journal began with {first}, and goes on where it was\n"
        assert refused("--journal", str(path), "--first", str(first + 1)) == (2, words)
        assert first >= 47 and sign.numbers() == [*range(40, first + 2)]


def test_a_job_goes_on_though_each_reply_shortens(path: pathlib.Path) -> None:
    with BenchSign() as sign, operated(sign, "--journal", str(path), "--keep", "100") as front_end:
        front_end.accepted(PUBLISH)
        assert front_end.end() == 0 and front_end.shortened() > 2
        kinds = [wire.read(octets).kind for octets in sign.heard]
        assert kinds.count(wire.SET) >= 4 and max(sign.numbers()) == len(sign.numbers())


def test_a_centre_goes_on_though_its_state_is_too_long(path: pathlib.Path) -> None:
    path.write_bytes(records.records(CENTRE.begun(long_state(1_048_570))))  # with one entry more it is too long
    words = f"{path} is not shortened: the state of the centre has more than 1048576 octets: the journal only grows"
    with BenchSign() as sign:
        with operated(sign, "--journal", str(path)) as front_end:
            front_end.accepted(BLANK)
            front_end.hang_up(words)
            front_end.accepted(BLANK)
            assert front_end.end() == 0 and front_end.said == [words]
        assert sign.numbers() == [2_000_000, 2_000_001]
    journal = CENTRE.opened(path)
    is_same = journal.state() == long_state(1_048_570)
    assert is_same, "the state is the old one"  # thousands of lines, of which nobody reads the difference
    assert [line.split(b" ")[0] for line in kept(str(path), CENTRE.head)] == [b"blank", b"datagram"] * 2
