"""The state whose saving is measured is a full one, and the code by hand reads and writes states as the model does."""

from __future__ import annotations

import pathlib
import random
import shutil
import subprocess

import pytest
import state_times
from state_times import OWNER, POWER, TEXT, Measured, Rows, Taken

from model import state_text, text
from model.codes import CHANGEABLE, PERMANENT, VOLATILE
from model.description import VALID
from model.saved import saved
from model.sign import Sign

LIBRARY = state_times.TOP / "crates/wisangub_c/out/libwisangub_c.a"
SMALL = Rows(1, 3, 2)
CHANGES = b" 0123456789abcdef-\n.+x\xff"  # octets that stand in a text of a state, and some that do not

needs_rustc = pytest.mark.skipif(shutil.which("rustc") is None, reason="rustc is not here")
needs_library = pytest.mark.skipif(not LIBRARY.is_file(), reason="the library for C is not built")


def gone_through(rows: Rows) -> Sign:
    """The model's sign of these rows, as the library has it."""
    sign = Sign(text.described(state_times.described(rows)))
    for line in state_times.went_through(rows):
        if line == POWER:
            sign.showing.power_lost()
            sign.showing.power_back(1)
        else:
            sign.receive(bytes.fromhex(line))
            sign.tick()
    return sign


def state_of(rows: Rows) -> bytes:
    """What the model saves of it."""
    return "".join(f"{line}\n" for line in saved(gone_through(rows).state)).encode()


@pytest.fixture(scope="module")
def peer(tmp_path_factory: pytest.TempPathFactory) -> pathlib.Path:
    return state_times.compiled_peer(tmp_path_factory.mktemp("peer"))


def by_hand(peer: pathlib.Path, state: bytes, path: pathlib.Path) -> bytes | int:
    """What the code by hand writes of a text, or the line at which it refuses it."""
    path.write_bytes(state)
    ran = subprocess.run([peer, path], capture_output=True, check=False)
    return ran.stdout if ran.returncode == 0 else int(ran.stderr.removeprefix(b"line "))


def refused_at(state: bytes) -> int | None:
    """The line at which the model refuses to read a text."""
    try:
        state_text.fields(state)
    except state_text.Refused as refused:
        return refused.line
    return None


def changed(state: bytes, chance: random.Random) -> bytes:
    """A text with an octet put in, taken out or changed, most often not within the octets of a message, or cut off."""
    short = [place for place in range(len(state)) if not state[place : place + 40].isalnum()]
    place, octet = chance.choice(short), bytes([chance.choice(CHANGES)])
    ends = (state[place:], state[place + 1 :], state[place + 1 :], b"")
    way = chance.randrange(len(ends))
    return state[:place] + (b"" if way in (1, 3) else octet) + ends[way]


def test_the_sign_has_the_longest_text_in_each_row_and_in_what_it_shows_and_keeps() -> None:
    state = gone_through(SMALL).state
    for memory, count in ((PERMANENT, 1), (CHANGEABLE, 3), (VOLATILE, 2)):
        rows = state.rows[memory]
        assert [(row.text, row.owner, row.status) for row in rows] == [(TEXT, OWNER, VALID)] * count
    assert (state.shown.text, state.kept.text, state.shown.owner) == (TEXT, TEXT, OWNER)
    assert len(TEXT) == 512 and len(OWNER) == 127


@needs_library
def test_the_library_saves_what_the_model_does(tmp_path: pathlib.Path) -> None:
    program, sign, state = state_times.compiled_library(tmp_path, LIBRARY), tmp_path / "sign", tmp_path / "state"
    sign.write_bytes(state_times.described(SMALL))
    lines = "".join(f"{line}\n" for line in state_times.went_through(SMALL))
    subprocess.run([program, sign, state, "restore", "1"], input=lines.encode(), capture_output=True, check=True)
    assert state.read_bytes() == state_of(SMALL)


@needs_rustc
def test_by_hand_the_same_octets_are_written(peer: pathlib.Path, tmp_path: pathlib.Path) -> None:
    new = "".join(f"{line}\n" for line in saved(Sign(text.described(state_times.described(SMALL))).state)).encode()
    with_end = state_of(SMALL).replace(b"\nkept-defaults", b"\nkept-remaining 4294967295\nkept-defaults")
    for state in (new, state_of(SMALL), with_end, with_end.replace(b"changeable 2 4", b"changeable 2 2")):
        assert refused_at(state) is None
        assert by_hand(peer, state, tmp_path / "state") == state


@needs_rustc
def test_by_hand_a_text_is_refused_at_the_line_at_which_the_model_refuses_it(
    peer: pathlib.Path, tmp_path: pathlib.Path
) -> None:
    chance, state, refused = random.Random(1), state_of(SMALL), 0
    for _ in range(200):
        wrong = changed(state, chance)
        line = refused_at(wrong)
        refused += line is not None
        assert by_hand(peer, wrong, tmp_path / "state") == (line or wrong), wrong
    assert refused > 100


def sides(*, library: float, instructions: int) -> Measured:
    ours = {call: Taken(library, instructions) for call in state_times.CALLS}
    return Measured(Rows.times(1), ours, {call: Taken(1.0, 1000) for call in state_times.CALLS[:3]})


def test_what_is_too_slow_or_grows_too_fast_is_said() -> None:
    found = [sides(library=1.5, instructions=1000), sides(library=4.0, instructions=2100)]
    assert state_times.verdict(found) == (
        True,
        "yes: each call takes under 5 ms, at most 4.000\nyes: twice the rows take at most 2.1 times as much: 2.10",
    )
    found.append(sides(library=5.0, instructions=4500))
    is_kept, told = state_times.verdict(found)
    assert not is_kept and [line[:3] for line in told.splitlines()] == ["NO:", "NO:"]
    assert state_times.table(found).splitlines()[2] == (
        "| 1, 4 and 1 | save | 1.500 | 1,000 | 1.000 | 1,000 | 1.50 | 1.00 |"
    )


def test_without_valgrind_times_tell_how_it_grows() -> None:
    found = [sides(library=1.0, instructions=0), sides(library=2.5, instructions=0)]
    assert state_times.grown(found) == 2.5
