"""When a journal is shortened, and what is looked at before that counts."""

import pathlib
import signal
import subprocess
from collections.abc import Iterator
from unittest import mock

import pytest

from wisangub.endpoint.clock import Moment
from wisangub.endpoint.files import NotKept
from wisangub.endpoint.journal import Journal
from wisangub.endpoint.keeper import Keeper
from wisangub.endpoint.shortening import Shortening, Synced, Trial, octets_of
from wisangub.output import LOG
from wisangub.process import description
from wisangub.process.coprocess import CoProcess
from wisangub.process.places import TOP

from .ends import CENTRE, SIGN, long_state
from .test_journal import HEAD, LINES, NOW, Refusing, kept, refused
from .waiting import MODEL, PROGRAMS

LATER = Moment("one", 1030, 40)


class Sign(CoProcess):
    """A process of a sign that is in a state."""

    def __init__(self, answer: list[bytes]) -> None:
        self.answer, self.asked = answer, 0

    def ask(self, line: bytes) -> list[bytes]:
        assert line == b"save"
        self.asked += 1
        return [*self.answer]


class Taken(Trial):
    """Another process that goes on from any state, or says why not."""

    def __init__(self, why: str = "") -> None:
        super().__init__("none", None)
        self.why, self.states = why, list[list[bytes]]()

    def fault(self, state: list[bytes]) -> str:
        self.states.append(state)
        return self.why


@pytest.fixture(name="told")
def told_of() -> Iterator[list[str]]:
    told: list[str] = []
    before = signal.getsignal(signal.SIGHUP)
    with mock.patch.object(LOG, "info", told.append):
        yield told
    signal.signal(signal.SIGHUP, before)


@pytest.fixture(name="keeper")
def keeper_of(tmp_path: pathlib.Path) -> Iterator[Keeper]:
    keeper = Keeper(Journal.opened(str(tmp_path / "journal"), HEAD))
    keeper.start(NOW, None)
    yield keeper
    keeper.journal.close()


def test_a_size_is_a_number_above_nought_with_k_or_M_or_none() -> None:
    assert [octets_of(word) for word in ("1", "500k", "1M", "3000000")] == [1, 500_000, 1_000_000, 3_000_000]
    for word in ("0", "0k", "-1", "1m", "1kB", "1.5M", "1 k", "", "k", "9999999999999", "٣"):
        assert refused(lambda: octets_of(word)).startswith(f"--keep {word} is no size: ")


def test_a_journal_is_shortened_when_it_is_longer_and_not_before(keeper: Keeper, told: list[str]) -> None:
    shortening, sign = Shortening(1000, Taken(), None, None), Sign([*SIGN.state, b"ok"])
    sizes = []
    for at in range(200):
        before = keeper.journal.size
        keeper.keep([b"datagram 30%02x" % at])
        shortening.turn(sign, keeper)
        if keeper.journal.size < before:
            sizes.append(before)
    base = keeper.journal.base
    assert len(sizes) == sign.asked > 5 and all(900 < size <= 1000 for size in sizes) and base < 500
    assert told == [f"{keeper.journal.path}: shortened from {int(one.split()[3])} to {base} octets" for one in told]
    small = Shortening(1, Taken(), None, None)
    small.turn(sign, keeper)
    asked, grown = sign.asked, 0
    while sign.asked < asked + 3:
        keeper.keep([b"datagram 3000"])
        grown = max(grown, keeper.journal.size)
        small.turn(sign, keeper)
    assert 2 * base < grown < 2 * base + 60, "one that is all state is not shortened at each record"


def test_the_lines_before_are_in_the_state_and_those_after_it_behind(keeper: Keeper, told: list[str]) -> None:
    shortening, sign, path = Shortening(1, Taken(), None, None), Sign([*SIGN.state, b"ok"]), keeper.journal.path
    keeper.tick(7, 17.0)
    keeper.heard(by_kept=False)
    keeper.tick(3, 20.0)
    shortening.turn(sign, keeper)
    assert keeper.seconds == 0 and not keeper.journal.owed and SIGN.opened_beside(path).last == NOW.later(10)
    keeper.heard(by_kept=False)
    keeper.tick(2, 22.0)
    keeper.keep([b"datagram 30"])
    keeper.journal.close()
    assert SIGN.opened(path).state() == SIGN.state and kept(path) == [b"heard", b"ticks 2", b"datagram 30"] and told


def test_a_state_that_another_process_does_not_take_is_not_used(keeper: Keeper, told: list[str]) -> None:
    sign, trial, path = Sign([*SIGN.state, b"ok"]), Taken("it is another"), keeper.journal.path
    shortening = Shortening(1, trial, None, None)
    keeper.keep(LINES)
    before = pathlib.Path(path).read_bytes()
    with mock.patch("wisangub.endpoint.shortening.running") as running:
        for now in (100.0, 130.0, 159.0, 161.0, 250.0):
            running.return_value = now
            shortening.turn(sign, keeper)
        assert trial.states == [SIGN.state] * 3, "it is tried again each minute"
        assert pathlib.Path(path).read_bytes() == before and told == [f"{path} is not shortened: it is another"]
        shortening.is_asked = True
        shortening.turn(sign, keeper)
        assert len(told) == 2, "who asks for it is told each time"
        trial.why = ""
        running.return_value = 400.0
        shortening.turn(sign, keeper)
    assert SIGN.opened_beside(path).state() == SIGN.state and "shortened from" in told[-1]


TOO_LONG = "the state of the centre has more than 1048576 octets: the journal only grows"


@pytest.mark.parametrize("program", PROGRAMS)
def test_a_state_of_a_megabyte_is_taken_and_a_longer_one_is_not(program: str) -> None:
    most, trial = long_state(1_048_576), Trial(program, None, "centre")
    assert len(most) > 20_000 and trial.fault(most) == ""
    with mock.patch.object(subprocess, "run", side_effect=AssertionError("no process is begun for it")):
        assert trial.fault(long_state(1_048_577)) == TOO_LONG


def test_a_state_that_is_too_long_is_said_once_and_looked_at_once_a_minute(
    tmp_path: pathlib.Path, told: list[str]
) -> None:
    path = str(tmp_path / "journal")
    journal, sign = Journal.opened(path, CENTRE.head), Sign([*long_state(1_048_577), b"ok"])
    shortening = Shortening(100, Trial(MODEL, None, "centre"), None, None)
    with mock.patch("wisangub.endpoint.shortening.running") as running:
        for at in range(300):
            running.return_value = 100.0 + at
            journal.keep([b"tick"])
            shortening.turn(sign, Synced(journal))
        assert sign.asked == 5 and told == [f"{path} is not shortened: {TOO_LONG}"]
        shortening.is_asked = True
        shortening.turn(sign, Synced(journal))
        assert sign.asked == 6 and told[1:] == told[:1], "who asks for it is told each time"
        journal.close()
    assert not CENTRE.opened(path).state() and kept(path, CENTRE.head) == [b"tick"] * 300


def test_a_program_that_cannot_say_its_state_is_left_alone(keeper: Keeper, told: list[str]) -> None:
    shortening, trial = Shortening(1, Taken(), None, None), Sign([b"bad line no call begins with this word"])
    shortening.turn(trial, keeper)
    assert told == [f"{keeper.journal.path} is not shortened: the program has no line `save`"]


def test_what_managers_set_is_recorded_once_and_what_no_object_has_is_kept(keeper: Keeper, told: list[str]) -> None:
    saved, path, trial = [*SIGN.state, b"set 1.3.6.1.9 INTEGER 8", b"set 1.3.6.1.10 NULL"], keeper.journal.path, Taken()
    shortening, sign = Shortening(1, trial, None, None), Sign([*saved, b"ok"])
    keeper.journal.sets.update({**SIGN.sets, b"1.3.6.1.9": b"INTEGER 7"})
    for _ in range(2):
        shortening.is_asked = True
        shortening.turn(sign, keeper)
        lines = [record.rpartition(b" #")[0] for record in pathlib.Path(path).read_bytes().splitlines()]
        assert lines[1:-2] == [*SIGN.state, *SIGN.set_lines, *saved[-2:]] and trial.states[-1] == saved
    found = SIGN.opened_beside(path)
    assert found.state() == SIGN.state and len(told) == 2
    assert found.sets == {**SIGN.sets, b"1.3.6.1.9": b"INTEGER 8", b"1.3.6.1.10": b"NULL"}


def test_what_is_owed_comes_first(keeper: Keeper, told: list[str]) -> None:
    shortening, sign, path = Shortening(1, Taken(), None, None), Sign([*SIGN.state, b"ok"]), keeper.journal.path
    keeper.journal.__class__ = Refusing
    keeper.tick(5, 15.0)
    before = pathlib.Path(path).read_bytes()
    shortening.turn(sign, keeper)
    assert not sign.asked and pathlib.Path(path).read_bytes() == before and "is not shortened" in told[-1]
    keeper.journal.__class__ = Journal
    shortening.is_asked = True
    shortening.turn(sign, keeper)
    assert sign.asked and SIGN.opened_beside(path).last == NOW.later(5)


def test_a_sighup_asks_for_it_and_others_see_it_too(keeper: Keeper, told: list[str]) -> None:
    seen: list[int] = []
    signal.signal(signal.SIGHUP, lambda number, _: seen.append(number))
    shortening, sign = Shortening(10**6, Taken(), None, None), Sign([*SIGN.state, b"ok"])
    shortening.turn(sign, keeper)
    assert not sign.asked
    signal.raise_signal(signal.SIGHUP)
    for _ in range(2):
        shortening.turn(sign, keeper)
    assert (seen, sign.asked) == ([signal.SIGHUP], 1) and len(told) == 1


@pytest.mark.parametrize("program", PROGRAMS[:1])
@pytest.mark.parametrize("path", (None, str(TOP / "signs/roadside.sign")))
def test_another_process_of_the_sign_looks_at_the_state(program: str, path: str | None) -> None:
    text = description.read(path)
    sign = CoProcess(program, ["sign"], text)
    sign.begin(b"state", program)
    state = sign.ask(b"save")[:-1]
    sign.end()
    trial = Trial(program, text)
    assert trial.fault(state) == ""
    others = {
        "its place": [line.replace(b"error-position 0", b"error-position 1") for line in state],
        "it has no end": state[:-1],
        "there is more": [*state, b"end"],
        "a line is a comment": [*state[:1], b"# more", *state[1:]],
    }
    for name, other in others.items():
        assert trial.fault(other).startswith("another process of the sign does not go on from its state"), name
    assert "state line 24: no such place" in trial.fault(others["its place"]) or path
    assert "No such file" in Trial("none/signtool", text).fault(state)
    assert Trial("/bin/true", text).fault(state) == "another process of the sign does not go on from its state"


@pytest.mark.parametrize("program", PROGRAMS)
def test_another_process_has_the_objects_and_what_managers_set_there(program: str) -> None:
    publishing = [b"fonts", b"object 1.3.6.1.5 INTEGER 3 number 0 9", b"object 1.3.6.1.6 NULL"]
    sign = CoProcess(program, ["sign"])
    sign.begin(b"state", program)
    assert sign.hand([*publishing, b"set 1.3.6.1.5 INTEGER 7"]) == [b"ok"] * 4
    saved = sign.ask(b"save")[:-1]
    sign.end()
    assert saved[-2:] == [b"end", b"set 1.3.6.1.5 INTEGER 7"]
    trial = Trial(program, None, publishing=lambda: publishing)
    assert trial.fault(saved) == trial.fault(saved[:-1]) == ""
    why = "another process of the sign does not go on from its state: "
    assert Trial(program, None).fault(saved) == why + "refused there is no object of this name"
    assert (
        trial.fault([*saved[:-1], b"set 1.3.6.1.5 INTEGER 10"]) == why + "refused the object does not take this value"
    )
    assert trial.fault([*saved[:-1], b"set 1.3.6.1.5 INTEGER x"]).startswith(why + "bad line word 3: ")
    assert trial.fault([*saved, b"hello"]) == why + "state 1 sign"


def test_another_process_that_does_not_answer_is_not_waited_for(tmp_path: pathlib.Path) -> None:
    slow = tmp_path / "slow"
    slow.write_text("#!/bin/sh\nexec sleep 60\n", encoding="ascii")
    slow.chmod(0o755)
    with mock.patch("wisangub.endpoint.shortening._PATIENCE", 0.1):
        assert "timed out" in Trial(str(slow), None).fault(SIGN.state)


def test_without_a_record_of_the_time_nothing_is_shortened(tmp_path: pathlib.Path) -> None:
    journal = Journal.opened(str(tmp_path / "journal"), HEAD)
    with pytest.raises(NotKept, match="no record of it tells the time"):
        journal.exchange(SIGN.state, lambda: None)
    journal.close()
