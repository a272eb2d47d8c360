"""A centre's journal that begins with a state: which states are not used, which numbers a fresh one uses, and that it
uses none twice. What holds of a sign's too stands in test_states.py."""

import argparse
import os
import pathlib
import random

import pytest

from wisangub.endpoint import records
from wisangub.endpoint.files import NotKept, Place, cut, kept_aside
from wisangub.endpoint.journal import Journal
from wisangub.endpoint.setting import journal_of
from wisangub.refusal import Refusal

from .calls import without_syncs
from .ends import CENTRE, centre_state, nothing_kept
from .test_hands import above
from .test_journal import refused

HEAD, STATE = CENTRE.head, CENTRE.state


@pytest.fixture(name="path")
def path_of(tmp_path: pathlib.Path) -> str:
    return str(tmp_path / "journal")


def test_a_state_without_the_next_number_is_not_used(path: str) -> None:
    text = CENTRE.made(path)
    journal = Journal.opened(path, HEAD)
    for state in (STATE[:1], [STATE[0], b"next", *STATE[2:]], [STATE[0], b"next -1"], [STATE[0], b"next 12345678901"]):
        with pytest.raises(NotKept, match="has no line `next`"):
            journal.exchange(state, nothing_kept)
    journal.close()
    assert pathlib.Path(path).read_bytes() == text


def test_behind_each_prefix_a_fresh_centre_has_its_number_or_is_refused(path: str) -> None:
    text = CENTRE.short(path)
    base, first = CENTRE.opened(path).base, text.index(b"\n") + len(b"\nstate ")
    for size in range(text.index(b"\n") + 1, len(text) + 1):
        found = above(text[:size], "centre")
        if first <= size < base:
            assert isinstance(found, str) and ": the state there is not whole: it is not put aside (move" in found, size
        else:
            assert isinstance(found, int) and found >= 9, (size, found)


def fresh_of(path: str) -> int | str | None:
    return above(pathlib.Path(path).read_bytes(), "centre")


def test_a_fresh_centre_begins_above_its_state_and_the_octets_behind_it(path: str) -> None:
    text = CENTRE.short(path)
    behind = len(text) - len(records.records(CENTRE.begun(STATE)))
    assert fresh_of(path) == 9 + behind // 15 > 9 + len(CENTRE.more) - 1
    assert above(text, "centre", 150) == 9 + (behind + 150) // 15
    for lines, words in (
        ([b"state 2 centre", b"next 9", b"end"], "it begins with 'state 2 centre'"),
        ([b"state 1 centre", b"end"], "its state has no line `next`"),
        ([b"state 1 centre", b"last none", b"next 9", b"end"], "its state has no line `next`"),
        (STATE[:-1], "the state there is not whole"),
        ([*centre_state(2**31), b"tick"], "no number of a request is left"),
    ):
        octets = records.records([HEAD.line(), *lines])
        pathlib.Path(path).write_bytes(octets)
        asked = argparse.Namespace(journal=path, fresh=True, need_journal=True)
        found = refused(lambda: journal_of(asked, HEAD))
        assert words in found and (words.startswith("no number") or "it is not put aside (move it away" in found)
        assert pathlib.Path(path).read_bytes() == octets and os.listdir(os.path.dirname(path)) == ["journal"]


def begun_anew(path: str, used: int, whole: bytes) -> Journal:
    """A fresh journal; where the state of the old one cannot be read that is refused, and whoever cares for it puts the
    whole file back."""
    asked = argparse.Namespace(journal=path, fresh=True, need_journal=True)
    try:
        journal = journal_of(asked, HEAD._replace(first=1))
    except Refusal as fault:
        assert "the state there is not whole: it is not put aside" in str(fault)
        pathlib.Path(path).write_bytes(whole)
        journal = journal_of(asked, HEAD._replace(first=1))
    assert journal.head.first is not None and journal.head.first > used
    return journal


def some_lines(chance: random.Random, journal: Journal, used: int) -> int:
    """Some lines are recorded, each of which may send a request of a new number; between them it is shortened: the
    last number that was used."""
    for _ in range(chance.randrange(12)):
        if chance.random() < 0.2:
            journal.exchange(centre_state(used + 1), nothing_kept)
        journal.keep([chance.choice((b"tick", b"blank 1 2 3 192.0.2.1"))])
        used += 1
    return used


def cut_somewhere(chance: random.Random, path: str, used: int) -> int:
    """The file is cut at a random octet, what is cut off lies beside it; or within its last record, which was then
    never handed over: the last number that was used."""
    text = pathlib.Path(path).read_bytes()
    first, last = text.index(b"\n") + 1, text.rfind(b"\n", 0, -1) + 1
    with open(path, "r+b") as file:
        if not text[last:].startswith(b"end ") and chance.random() < 0.3 and last >= first:
            cut(file.fileno(), chance.randrange(last, len(text)), path)
            return used - 1
        at = chance.randrange(first, len(text) + 1)
        kept_aside(file.fileno(), at, len(text), Place.of(path))
        cut(file.fileno(), at, path)
    return used


def test_shortened_cut_and_begun_afresh_no_number_goes_out_twice(path: str) -> None:
    chance, used, whole, refusals = random.Random(7), 0, b"", 0
    with without_syncs():
        for _ in range(1000):
            journal = begun_anew(path, used, whole)
            used = some_lines(chance, journal, (journal.head.first or 0) - 1)
            journal.close()
            whole = pathlib.Path(path).read_bytes()
            for name in os.listdir(os.path.dirname(path)):  # what was cut off before lies elsewhere
                if name != "journal":
                    os.unlink(f"{os.path.dirname(path)}/{name}")
            used = cut_somewhere(chance, path, used)
            refusals += isinstance(fresh_of(path), str)
    assert refusals > 50 and used < 2**31
