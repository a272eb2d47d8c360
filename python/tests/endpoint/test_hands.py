"""A journal that another hand moved, changed or put in its place, and the numbers of a centre that begins anew."""

import argparse
import os
import pathlib
import random
import tempfile
from typing import Callable

from wisangub.endpoint import records
from wisangub.endpoint.journal import Journal
from wisangub.endpoint.records import Head
from wisangub.endpoint.setting import journal_of, number_above
from wisangub.refusal import Refusal

from .calls import without_syncs
from .form1 import older
from .test_journal import HEAD, kept, refused


def test_what_another_hand_did_is_seen_at_the_next_record() -> None:
    changes: list[Callable[[str], None]] = [
        os.unlink,
        lambda path: os.truncate(path, 9),
        lambda path: os.rename(path, path + "-"),
    ]
    for change in changes:
        with tempfile.TemporaryDirectory() as folder:
            journal = Journal.opened(f"{folder}/journal", HEAD)
            change(f"{folder}/journal")
            assert "another hand" in refused(lambda: journal.keep([b"tick"]))
            journal.close()


def test_zeros_in_place_of_a_journal_are_refused() -> None:
    with tempfile.TemporaryDirectory() as folder:
        path = pathlib.Path(folder, "journal")
        for size, words in ((len(HEAD.line()) + 11, ""), (512, "is no journal"), (100_000, "is no journal")):
            path.write_bytes(bytes(size))
            assert (words in refused(lambda: kept(str(path)))) if words else kept(str(path)) == []
            assert words == "" or path.read_bytes() == bytes(size)


def test_a_file_of_another_hand_keeps_its_mode() -> None:
    with tempfile.TemporaryDirectory() as folder:
        path = pathlib.Path(folder, "notes")
        path.write_bytes(b"notes\n")
        path.chmod(0o644)
        assert "is no journal" in refused(lambda: kept(str(path)))
        assert path.stat().st_mode & 0o777 == 0o644
        path.write_bytes(b"")
        assert kept(str(path)) == [] and path.stat().st_mode & 0o777 == 0o600


def above(octets: bytes, end: str, aside: int = 0) -> int | str | None:
    """The number that a fresh centre begins with after such a file, of which so many octets lie aside; or why it is
    refused."""
    with tempfile.TemporaryFile() as file:
        file.write(octets)
        file.flush()
        try:
            return number_above("it", file.fileno(), end, aside)
        except Refusal as found:
            return str(found)


def test_a_fresh_centre_begins_above_all_that_a_file_may_have_used() -> None:
    lines = [Head("centre", "bench", 40, form=2).line(), b"blank 1 2 3 127.0.0.1", *[b"tick"] * 50]
    for octets in (records.records(lines), older([Head("centre", "bench", 40).line(), *lines[1:]])):
        assert above(octets, "centre") == 40 + len(octets) // 15 > 40 + len(lines) - 1
        assert above(octets, "centre", 150) == 40 + (len(octets) + 150) // 15
    octets = records.records(lines)
    hole = octets[:120] + bytes(len(octets) - 120)
    assert above(hole, "centre") == above(octets, "centre")
    assert above(b"", "centre") is None and above(bytes(60), "centre") is None
    for other, words in (
        (octets.replace(b"first 40", b"first 10"), "is no journal"),
        (octets[:30], "is no journal"),
        (bytes(512), "is no journal"),
        (records.records([HEAD._replace(form=2).line()]), "of a sign"),
        (older([HEAD.line()]), "of a sign"),
        (records.records([Head("centre", "bench", 2**31 - 1, form=2).line(), *lines[1:]]), "no number of a request"),
    ):
        assert words in str(above(other, "centre")), other


def test_a_first_number_that_an_old_journal_may_have_used_is_refused() -> None:
    head = Head("centre", "bench", 40)
    with without_syncs(), tempfile.TemporaryDirectory() as folder:
        path = pathlib.Path(folder, "journal")
        octets = records.records([head._replace(form=2).line(), *[b"tick"] * 50])
        above = 40 + len(octets) // 15
        for first, is_well in ((above - 1, False), (above, True)):
            path.write_bytes(octets)
            asked = argparse.Namespace(journal=str(path), fresh=True, need_journal=True, first=first)
            try:
                journal = journal_of(asked, head._replace(first=first))
            except Refusal as refused:
                assert not is_well and f"may have used each number below {above}" in str(refused)
                assert path.read_bytes() == octets
            else:
                assert is_well and journal.head.first == above
                journal.close()


def test_a_centre_whose_journal_is_cut_again_and_again_uses_no_number_twice() -> None:
    chance = random.Random(4)
    with without_syncs(), tempfile.TemporaryDirectory() as folder:
        path, head, used = pathlib.Path(folder, "journal"), Head("centre", "bench", 1), 0
        for _ in range(60):
            asked = argparse.Namespace(journal=str(path), fresh=True, need_journal=True)
            journal = journal_of(asked, head)
            assert journal.head.first is not None and journal.head.first > used
            used = journal.head.first - 1
            for _ in range(chance.randrange(12)):
                journal.keep([b"tick"])
                used += 1  # each record may have sent a request of a new number
            journal.close()
            text = path.read_bytes()
            begin = text.find(b"\n") + 1
            path.write_bytes(text[: chance.randrange(begin, len(text) + 1)])
            Journal.opened(str(path), head).close()


def test_each_prefix_of_a_centres_journal_goes_on_with_its_number() -> None:
    head, lines = Head("centre", "bench", 40), [b"blank 1 2 3 127.0.0.1", b"tick", b"datagram 30"]
    octets = records.records([head._replace(form=2).line(), *lines])
    with without_syncs(), tempfile.TemporaryDirectory() as folder:
        path = pathlib.Path(folder, "journal")
        for size in range(len(octets) + 1):
            path.write_bytes(octets[:size])
            ends = octets[:size].count(b"\n")
            assert kept(str(path), head) == lines[: max(0, ends - 1)]
            journal = Journal.opened(str(path), Head("centre", "bench", 7) if ends else head)
            assert journal.head.first == 40
            journal.close()
