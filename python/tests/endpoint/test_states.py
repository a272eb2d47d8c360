"""A journal that begins with a state, of either end: what stands there, what of a cut or changed file is refused, and
that it takes the old one's place whole or not at all."""

import errno
import os
import pathlib
from collections.abc import Callable
from unittest import mock

import pytest

from wisangub.endpoint import records
from wisangub.endpoint.archive import Archive
from wisangub.endpoint.clock import Moment
from wisangub.endpoint.files import NotKept
from wisangub.endpoint.journal import Journal
from wisangub.endpoint.keeper import Keeper
from wisangub.refusal import Refusal

from .calls import CALLS, RefusingCall, killed_in, without_syncs, without_syncs_but
from .ends import CENTRE, SIGN, End, nothing_kept, of_both
from .test_journal import HEAD, NOW, kept, refused


@pytest.fixture(name="path")
def path_of(tmp_path: pathlib.Path) -> str:
    return str(tmp_path / "journal")


@of_both
def test_a_state_stands_in_place_of_the_lines(end: End, path: str) -> None:
    text, lines = end.short(path), end.begun(end.state, with_sets=True)
    journal, base = end.opened(path), records.records(lines)
    assert (journal.state(), journal.sets, kept(path, end.head)) == (end.state, end.sets, end.more)
    assert journal.base == len(base) and journal.head == end.head_of(end.state)
    assert text == base + records.records(end.more, len(lines) + 1, len(lines) + 1)
    anew = Journal.opened(path, end.head)
    anew.exchange(end.other, nothing_kept)
    assert anew.head == end.head_of(end.other)
    anew.close()
    journal = end.opened(path)
    assert (journal.state(), journal.sets, journal.head) == (end.other, end.sets, end.head_of(end.other))
    assert not kept(path, end.head)
    assert os.stat(path).st_mode & 0o777 == 0o600 and os.listdir(os.path.dirname(path)) == ["journal"]


def test_the_next_start_is_told_the_same_time(path: str) -> None:
    with without_syncs():
        rows: list[list[int]] = [[], [3], [3, 60, 7], [60], [59, 1, 1], [200]]
        for steps in rows:
            keeper = Keeper(Journal.opened(path, HEAD))
            keeper.start(NOW, None)
            up = NOW.up
            for seconds in steps:
                up += seconds
                with mock.patch(
                    "wisangub.endpoint.keeper.Moment.at", lambda at: Moment("one", 5000 + int(at), int(at))
                ):
                    keeper.tick(seconds, float(up))
                keeper.heard(by_kept=False)
            assert keeper.is_paid()
            wanted = SIGN.opened_beside(path).last
            keeper.journal.exchange(SIGN.state, nothing_kept)
            keeper.journal.close()
            assert SIGN.opened(path).last == wanted == SIGN.opened_beside(path).last
            assert wanted is not None and wanted.up == up
            os.unlink(path)


@of_both
def test_each_prefix_gives_the_state_and_whole_lines_or_is_refused(end: End, path: str) -> None:
    with without_syncs():
        text = end.short(path)
        base, first = end.opened(path).base, text.index(b"\n") + len(b"\nstate ")
        for size in range(len(text) + 1):
            pathlib.Path(path).write_bytes(text[:size])
            if first <= size < base:
                words = refused(lambda: Journal.opened(path, end.head, accepts=True))
                at = text.rfind(b"\n", 0, size) + 1
                assert f"damaged at octet {at}: the state there is not whole ({end.advice}" in words, (size, words)
                assert pathlib.Path(path).read_bytes() == text[:size]
            elif size >= base:
                journal = end.opened(path)
                assert (journal.state(), journal.sets, journal.last) == (end.state, end.sets, end.last(text[:size]))
                assert kept(path, end.head) == end.more[: text[base:size].count(b"\n")]
        for name in os.listdir(os.path.dirname(path)):
            assert name == "journal" or ".cut-" in name


@of_both
def test_a_changed_octet_is_refused_and_the_file_left_as_it_is(end: End, path: str) -> None:
    with without_syncs():
        text = end.short(path)
        base = end.opened(path).base
        for at in range(0, len(text), 3):
            changed = text[:at] + bytes([text[at] ^ 1]) + text[at + 1 :]
            pathlib.Path(path).write_bytes(changed)
            begin = text.rfind(b"\n", 0, at) + 1
            for accepts in [False, True] if at < base or end is CENTRE else [False]:
                words = refused(lambda: Journal.opened(path, end.head, accepts))
                assert (f"damaged at octet {begin}" if begin else "is no journal") in words, (at, words)
                assert pathlib.Path(path).read_bytes() == changed
        assert os.listdir(os.path.dirname(path)) == ["journal"]


@of_both
def test_records_that_are_exchanged_or_left_out_are_refused(end: End, path: str) -> None:
    lines = end.short(path).splitlines(keepends=True)
    for at in range(1, len(lines) - 2):
        exchanged = [*lines]
        exchanged[at], exchanged[at + 1] = lines[at + 1], lines[at]
        for other in (exchanged, lines[:at] + lines[at + 1 :]):
            pathlib.Path(path).write_bytes(b"".join(other))
            assert "damaged at octet" in refused(lambda: kept(path, end.head))
            assert pathlib.Path(path).read_bytes() == b"".join(other)


START, CLOCK = SIGN.moment
SET = b"set 1.3.6.1.5 INTEGER 7"
OTHERS = [
    (
        SIGN,
        [b"state 2 sign", b"more", b"end"],
        "it begins with 'state 2 sign', and this front end knows 'state 1 sign'",
    ),
    (SIGN, [b"state 1 centre", b"end"], "it begins with 'state 1 centre', and"),
    (SIGN, [*SIGN.state, b"set 1.3.6.1.5 INTEGER x"], "is 'set 1.3.6.1.5 INTEGER x': no sign knows this line"),
    (SIGN, [*SIGN.state, b"set 1.3.6.1.5"], "is 'set 1.3.6.1.5': no sign knows this line"),
    (SIGN, [*SIGN.state, SET + b" number 0 9"], "is 'set 1.3.6.1.5 INTEGER 7 number 0 9': no sign knows this line"),
    (SIGN, [*SIGN.state, b"hello", CLOCK, b"ticks 1"], "record 7 at octet"),
    (SIGN, [*SIGN.state, START, b"ticks 5", CLOCK, b"ticks 1"], "is 'ticks 5': no sign knows this line"),
    (SIGN, [*SIGN.state, b"clock 1 2"], "is 'clock 1 2': no sign knows this line"),
    (SIGN, [*SIGN.state, START, CLOCK, SET], "no sign knows this line"),
    (SIGN, [*SIGN.state, START, CLOCK, *SIGN.state], "is 'state 1 sign': no sign knows this line"),
    (SIGN, [START, CLOCK, *SIGN.state], "record 4 at octet"),
    (SIGN, [START, CLOCK, SET], "no sign knows this line"),
    (
        CENTRE,
        [b"state 2 centre", b"more", b"end"],
        "it begins with 'state 2 centre', and this front end knows 'state 1 centre'",
    ),
    (CENTRE, [b"state 1 sign", b"end"], "it begins with 'state 1 sign', and"),
    (CENTRE, [*CENTRE.state, SET], "is 'set 1.3.6.1.5 INTEGER 7': no centre knows this line"),
    (CENTRE, [*CENTRE.state, b"clock 1 2"], "is 'clock 1 2': no centre knows this line"),
    (CENTRE, [*CENTRE.state, *CENTRE.state], "is 'state 1 centre': no centre knows this line"),
    (CENTRE, [b"tick", *CENTRE.state], "record 3 at octet"),
    (CENTRE, [*CENTRE.state, b"tick", b"end"], "is 'end': no centre knows this line"),
    (CENTRE, [*CENTRE.state[:-1], b"tick"], f"the state there is not whole ({CENTRE.advice}"),
]


@pytest.mark.parametrize("end, lines, words", OTHERS)
def test_what_no_state_is_or_stands_elsewhere_is_refused_by_name(
    end: End, lines: list[bytes], words: str, path: str
) -> None:
    text = records.records([end.head._replace(form=2).line(), *lines])
    pathlib.Path(path).write_bytes(text)
    for accepts in (False, True):
        assert words in refused(lambda: Journal.opened(path, end.head, accepts))
        assert pathlib.Path(path).read_bytes() == text
    assert os.listdir(os.path.dirname(path)) == ["journal"]


@pytest.mark.parametrize("name", CALLS)
@of_both
def test_killed_at_each_call_there_is_one_whole_journal_and_it_is_the_same_end(
    end: End, name: str, tmp_path: pathlib.Path
) -> None:
    for at in range(1, 20):
        folder = tmp_path / str(at)
        folder.mkdir()
        with without_syncs_but(name):
            if not killed_at(end, folder, name, at):
                return


def killed_at(end: End, folder: pathlib.Path, name: str, at: int) -> bool:
    """Whether shortening made so many of these calls before it was killed at the last of them; what is left is the old
    journal or the new one."""
    path, cut_off = folder / "journal", folder / "kept"
    cut_off.mkdir()
    text, anew = end.made(str(path)), records.records(end.begun(end.state))
    (folder / "journal.new").write_bytes(b"of an earlier kill")
    journal, archive = Journal.opened(str(path), end.head), Archive(str(cut_off))
    with killed_in(name, at, folder) as count:
        journal.exchange(end.state, lambda: archive.keep(str(path)))
    is_old = path.read_bytes() == text
    assert is_old or path.read_bytes() == anew
    assert kept(str(path), end.head) == (end.lines if is_old else [])
    assert end.opened(path).state() == ([] if is_old else end.state)
    again = Journal.opened(str(path), end.head)  # the next one goes through, and nothing is in the folder twice
    again.exchange(end.state, lambda: archive.keep(str(path)))
    again.close()
    found = sorted(os.listdir(cut_off))
    assert len(found) == (1 if is_old else 2) and (cut_off / found[0]).read_bytes() == text
    assert path.read_bytes() == anew
    return count[0] >= at


@pytest.mark.parametrize("error", (errno.ENOSPC, errno.EIO, errno.EACCES, errno.EROFS))
@pytest.mark.parametrize(
    "name, at",
    [("open", 0), ("open", 1), ("open", 2), ("write", 0), ("fsync", 0), ("link", 0), ("fsync", 1), ("rename", 0)],
)
@of_both
def test_where_the_disk_refuses_the_old_journal_stays_in_force(
    end: End, path: str, name: str, at: int, error: int
) -> None:
    text, folder = end.made(path), pathlib.Path(path).parent
    (folder / "kept").mkdir()
    journal, archive = Journal.opened(path, end.head), Archive(str(folder / "kept"))
    with mock.patch(f"os.{name}", RefusingCall(name, at, error)), pytest.raises(NotKept, match=os.strerror(error)):
        journal.exchange(end.state, lambda: archive.keep(path))
    assert pathlib.Path(path).read_bytes() == text and sorted(os.listdir(folder)) == ["journal", "kept"]
    assert journal.head == end.head._replace(form=2)
    journal.keep([b"tick"])
    journal.exchange(end.state, lambda: archive.keep(path))
    journal.keep(end.more)
    journal.close()
    assert kept(path, end.head) == end.more and end.opened(path).state() == end.state
    assert len(os.listdir(folder / "kept")) == 1


@of_both
def test_a_folder_that_is_not_synced_ends_the_front_end(end: End, path: str) -> None:
    end.made(path)
    journal = Journal.opened(path, end.head)
    with mock.patch("os.fsync", RefusingCall("fsync", 1, errno.EIO)), pytest.raises(Refusal) as told:
        journal.exchange(end.state, nothing_kept)
    journal.close()
    assert told.value.status == 1 and "what is on the disk is not known" in str(told.value)
    assert not isinstance(told.value, NotKept)


@of_both
def test_a_torn_end_that_the_disk_let_stand_is_cut_off_before_it_is_shortened(end: End, path: str) -> None:
    text = end.made(path) + b"blank 1 6"
    pathlib.Path(path).write_bytes(text)
    with mock.patch("wisangub.endpoint.journal.kept_aside", side_effect=NotKept("the disk is full", 1)):
        journal = Journal.opened(path, end.head, is_patient=True)
        assert not journal.is_ready
        with pytest.raises(NotKept, match="the disk is full"):
            journal.exchange(end.state, nothing_kept)
        assert pathlib.Path(path).read_bytes() == text
    journal.exchange(end.state, nothing_kept)
    journal.close()
    assert pathlib.Path(path).read_bytes() == records.records(end.begun(end.state))


@of_both
def test_the_state_of_another_description_is_refused(end: End, path: str) -> None:
    text = end.short(path)
    words = refused(lambda: Journal.opened(path, end.head._replace(digest="0" * 64), accepts=True))
    assert "is the journal of another description" in words and pathlib.Path(path).read_bytes() == text


@of_both
def test_another_hands_file_is_not_replaced(end: End, path: str) -> None:
    end.made(path)
    journal = Journal.opened(path, end.head)
    os.unlink(path)
    pathlib.Path(path).write_bytes(b"another's")
    assert "another hand" in refused(lambda: journal.exchange(end.state, nothing_kept))
    journal.close()
    assert pathlib.Path(path).read_bytes() == b"another's"


def cannot_link(error: int) -> Callable[..., None]:
    def link(*_: object) -> None:
        raise OSError(error, os.strerror(error))

    return link


@pytest.mark.parametrize("has_links", (True, False))
def test_what_is_cut_off_is_kept_under_the_date_and_a_number(path: str, has_links: bool) -> None:
    folder = pathlib.Path(path).parent / "kept"
    folder.mkdir()
    (folder / "journal.notes").write_text("another file")
    archive, journal, olds = Archive(str(folder)), Journal.opened(path, HEAD), []
    journal.keep([START, CLOCK])
    with mock.patch("os.link", os.link if has_links else cannot_link(errno.EXDEV)):
        for at in range(12):
            journal.keep([b"datagram 30%02x" % at])
            olds.append(pathlib.Path(path).read_bytes())
            journal.exchange(SIGN.state, lambda: archive.keep(path))
    journal.close()
    names = [name for name in os.listdir(folder) if name != "journal.notes"]
    names.sort(key=lambda name: int(name.rpartition("-")[2]))
    assert [int(name.rpartition("-")[2]) for name in names] == list(range(1, 13))
    assert all(name.startswith("journal.20") for name in names)
    assert [(folder / name).read_bytes() for name in names] == olds
    assert {(folder / name).stat().st_mode & 0o777 for name in names} == {0o600}


def test_other_files_of_an_archive_count_for_none(tmp_path: pathlib.Path) -> None:
    """Of a journal whose name has blanks; signd takes the same for its own."""
    path, folder = tmp_path / "my  journal", tmp_path / "kept here"
    folder.mkdir()
    path.write_text("a journal")
    others = ("-7 ", "- 7", "-7.new", " -7", "-", f"-{10**18}")
    for end in others:
        (folder / f"{path.name}.2026-11-30T120000{end}").write_text("another file")
    (folder / f"my.{path.name}.2026-11-30T120000-9").write_text("another file")
    (folder / f"{path.name}.2026-11-30T120000-{10**17}").write_text("an older one")
    name = Archive(str(folder)).keep(str(path))
    assert name.startswith(f"{folder}/my  journal.20") and name.endswith(f"-{10**17 + 1}")
    assert Archive(str(folder)).keep(str(path)) == name


@pytest.mark.parametrize("name, at", [("open", 2), ("write", 1), ("fsync", 1), ("rename", 0)])
def test_where_a_copy_is_refused_no_part_of_one_is_left(path: str, name: str, at: int) -> None:
    folder, journal = pathlib.Path(path).parent / "kept", Journal.opened(path, HEAD)
    folder.mkdir()
    journal.keep([START, CLOCK])
    text, archive = pathlib.Path(path).read_bytes(), Archive(str(folder))
    with mock.patch("os.link", cannot_link(errno.EXDEV)):
        with mock.patch(f"os.{name}", RefusingCall(name, at, errno.ENOSPC)), pytest.raises(NotKept):
            journal.exchange(SIGN.state, lambda: archive.keep(path))
        assert not os.listdir(folder) and pathlib.Path(path).read_bytes() == text
        journal.exchange(SIGN.state, lambda: archive.keep(path))
    journal.close()
    assert [one.read_bytes() for one in folder.iterdir()] == [text]


def test_an_archive_is_a_folder(path: str) -> None:
    pathlib.Path(path).write_text("")
    for name in (path, f"{path}-none"):
        assert refused(lambda: Archive(name)) == f"--archive {name} is no folder"
