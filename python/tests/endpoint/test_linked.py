"""A journal whose path is a symbolic link: the link stays, and all that is written is the file that it leads to, or
stands beside that."""

import argparse
import os
import pathlib
from collections.abc import Iterator
from unittest import mock

import pytest

from wisangub.endpoint.archive import Archive
from wisangub.endpoint.files import Place, opened
from wisangub.endpoint.journal import Journal
from wisangub.endpoint.keeper import Keeper
from wisangub.endpoint.setting import journal_of
from wisangub.endpoint.shortening import Shortening
from wisangub.output import LOG
from wisangub.snmp import wire

from .ends import SIGN
from .form1 import older
from .test_journal import HEAD, LINES, NOW, kept, made, refused
from .test_shortening import Sign, Taken
from .with_centres import refused as refused_centre
from .with_objects import COUNTER
from .with_objects import refused as refused_start
from .with_objects import served


class Linked:
    """A link in a folder of links, to a file on what may be another disk, by way of another link."""

    def __init__(self, folder: pathlib.Path, is_relative: bool) -> None:
        self.links, self.disk = folder / "links", folder / "disk"
        self.links.mkdir()
        self.disk.mkdir()
        self.path, self.real = self.links / "sign", self.disk / "journal"
        (self.links / "way").symlink_to("../disk/journal" if is_relative else self.real)
        self.path.symlink_to("way" if is_relative else self.links / "way")

    @property
    def others(self) -> list[str]:
        """The names beside the file that the link leads to."""
        return sorted(name for name in os.listdir(self.disk) if name != "journal")

    def stands(self) -> bool:
        """Whether the links are as they were, and lead to a file."""
        names = sorted(os.listdir(self.links))
        return (
            self.path.is_symlink() and self.real.is_file() and not self.real.is_symlink() and names == ["sign", "way"]
        )


@pytest.fixture(name="linked", params=(False, True), ids=("absolute", "relative"))
def linked_of(request: pytest.FixtureRequest, tmp_path: pathlib.Path) -> Linked:
    return Linked(tmp_path, request.param)


@pytest.fixture(name="told")
def told_of() -> Iterator[list[str]]:
    told: list[str] = []
    with mock.patch.object(LOG, "info", told.append):
        yield told


def asked(linked: Linked, **more: object) -> argparse.Namespace:
    return argparse.Namespace(journal=str(linked.path), need_journal=True, **more)


def test_a_link_stays_where_its_journal_is_shortened(linked: Linked, tmp_path: pathlib.Path, told: list[str]) -> None:
    (tmp_path / "kept").mkdir()
    keeper = Keeper(Journal.opened(str(linked.path), HEAD))
    keeper.start(NOW, None)
    for _ in range(2):
        for line in LINES:
            keeper.keep([line])
        before = linked.real.stat()
        with mock.patch("signal.signal"):
            shortening = Shortening(1, Taken(), Archive(str(tmp_path / "kept")), None)
        shortening.is_asked = True
        shortening.turn(Sign([*SIGN.state, b"ok"]), keeper)
        assert linked.stands() and linked.real.stat().st_ino != before.st_ino and not linked.others
    keeper.journal.close()
    assert kept(str(linked.path)) == [] and Journal.opened(str(linked.real), HEAD).state() == SIGN.state
    assert [name[:8] for name in sorted(os.listdir(tmp_path / "kept"))] == ["journal."] * 2
    assert all(line.startswith(f"{linked.path}: shortened from") for line in told) and len(told) == 2


def test_a_link_stays_where_its_journal_is_put_aside(linked: Linked, told: list[str]) -> None:
    text = made(str(linked.path))
    journal = journal_of(asked(linked, fresh=True), HEAD)
    journal.keep([b"tick"])
    journal.close()
    (aside,) = linked.others
    assert linked.stands() and (linked.disk / aside).read_bytes() == text and kept(str(linked.path)) == [b"tick"]
    assert told == [f"{linked.path}: put aside as {linked.disk / aside}"]


def test_form_1_is_written_anew(linked: Linked, told: list[str]) -> None:
    text = older([HEAD.line(), NOW.start(), NOW.clock(), *LINES])
    linked.real.write_bytes(text)
    assert kept(str(linked.path)) == LINES
    assert linked.stands() and linked.others == ["journal.form1"]
    assert (linked.disk / "journal.form1").read_bytes() == text and told[0].startswith(f"{linked.path}: written anew")


def test_a_torn_end_is_cut_away(linked: Linked, told: list[str]) -> None:
    text = made(str(linked.path))
    linked.real.write_bytes(text[:-3])
    assert kept(str(linked.path)) == LINES[:-1]
    assert linked.stands() and len(linked.others) == 1 and linked.others[0].startswith("journal.cut-")
    assert told[0].startswith(f"{linked.path}: ")
    # which counts for the numbers of a centre too
    assert Place.of(str(linked.path)).real == str(linked.real)


@pytest.mark.parametrize("is_fresh", (False, True))
def test_a_link_to_nothing_has_the_file_made_there(linked: Linked, is_fresh: bool) -> None:
    journal = journal_of(asked(linked, fresh=is_fresh), HEAD)
    journal.keep([b"tick"])
    journal.close()
    assert linked.stands() and not linked.others and kept(str(linked.real)) == [b"tick"]


def test_one_front_end_by_either_name(linked: Linked) -> None:
    for one, other in ((linked.path, linked.real), (linked.real, linked.path), (linked.path, linked.path)):
        journal = Journal.opened(str(one), HEAD)
        for open_other in (
            lambda: opened(Place.of(str(other))),
            lambda: journal_of(argparse.Namespace(journal=str(other), need_journal=True, fresh=True), HEAD),
        ):
            assert refused(open_other) == f"{other}: another front end holds this journal"
        journal.keep([NOW.start(), NOW.clock()])
        journal.exchange(SIGN.state, lambda: None)
        assert refused(lambda: opened(Place.of(str(other)))) == f"{other}: another front end holds this journal"
        journal.close()
    assert linked.stands()


@pytest.mark.parametrize("is_there", (False, True))
def test_no_other_file_is_what_takes_the_journals_place(linked: Linked, is_there: bool) -> None:
    """By its name, and beside what the journal leads to: it would be gone with the first shortening."""
    for beside, journal in ((f"{linked.real}.new", linked.path), (f"{linked.links}/one.new", linked.links / "one")):
        if is_there:
            pathlib.Path(beside).write_bytes(b"its own")
        for what, option, refuse in (
            ("log", "--log", refused_start),
            ("description", "--sign", refused_start),
            ("file of objects", "--objects", refused_start),
            ("program", "--signtool", refused_start),
            ("log", "--log", refused_centre),
            ("description", "--sign", refused_centre),
            ("program", "--signtool", refused_centre),
        ):
            why = f"{beside} cannot be the {what} and the file beside the journal\n"
            assert refuse("--journal", str(journal), option, beside) == (2, why), what
        assert not journal.exists() and (not is_there or pathlib.Path(beside).read_bytes() == b"its own")


def test_a_link_that_leads_elsewhere_is_another_hands(linked: Linked) -> None:
    for is_moved in (False, True):
        journal = Journal.opened(str(linked.path), HEAD)
        elsewhere = linked.disk / "elsewhere"
        if is_moved:  # the file itself has another name, and the link leads to it
            linked.real.rename(elsewhere)
        linked.path.unlink()
        linked.path.symlink_to(elsewhere)
        words = refused(lambda: journal.keep([b"tick"]))
        assert words.startswith(f"{linked.path}: another hand moved or changed it")
        assert refused(lambda: journal.exchange(SIGN.state, lambda: None)).startswith(f"{linked.path}: another hand")
        journal.close()
        linked.path.unlink()
        linked.path.symlink_to(linked.real)


def test_what_is_no_journal_is_told_by_the_path_that_was_given(linked: Linked) -> None:
    linked.real.write_bytes(b"notes\n")
    words = f"{linked.path} is no journal: its first record is not whole"
    assert refused(lambda: Journal.opened(str(linked.path), HEAD)) == words
    linked.real.unlink()
    linked.disk.rmdir()
    assert refused(lambda: Journal.opened(str(linked.path), HEAD)) == f"{linked.path}: No such file or directory"
    (linked.links / "way").unlink()
    (linked.links / "way").symlink_to(linked.path)
    for is_fresh in (False, True):
        words = refused(lambda: journal_of(asked(linked, fresh=is_fresh), HEAD))
        assert words == f"{linked.path}: Too many levels of symbolic links"


def test_a_front_end_over_the_model(linked: Linked) -> None:
    words = ("--journal", str(linked.path), "--no-ticks")
    with served(*words) as front_end:
        front_end.count(range(1, 4))
        front_end.hang_up(f"{linked.path}: shortened from")
        front_end.count(range(4, 6))
        status, said = refused_start("--journal", str(linked.real))
        assert (status, said) == (2, f"{linked.real}: another front end holds this journal\n")
        front_end.process.kill()
    assert linked.stands() and not linked.others
    with served(*words) as front_end:
        assert front_end.get(COUNTER) == [(wire.INTEGER, 5)] and front_end.end() == 0
