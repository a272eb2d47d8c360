"""A journal's file: begun, cut, refused, put aside."""

import contextlib
import functools
import os
import pathlib
import tempfile
from typing import Callable, Iterator
from unittest import mock

from wisangub.endpoint import reading, records
from wisangub.endpoint.clock import Moment
from wisangub.endpoint.files import NotKept, Place, opened
from wisangub.endpoint.journal import Journal
from wisangub.endpoint.keeper import Keeper
from wisangub.endpoint.owed import MOST_EXACT
from wisangub.endpoint.records import Head
from wisangub.refusal import Refusal

from .calls import CALLS, killed_in, without_syncs
from .form1 import older

HEAD = Head("sign", "bench")
LINES = [b"datagram 30%02x" % at for at in range(5)]
NOW = Moment("one", 1000, 10)


def refused(do: Callable[[], object]) -> str:
    """The words of a refusal."""
    try:
        do()
    except Refusal as found:
        return str(found)
    return ""


def kept(path: str, head: Head = HEAD) -> list[bytes]:
    """The lines of a journal that is opened anew."""
    journal = Journal.opened(path, head)
    lines = [line for some in journal.lines() for line in some]
    os.close(journal.file)
    return lines


def made(path: str) -> bytes:
    """A journal with these lines: its octets."""
    journal = Journal.opened(path, HEAD)
    journal.keep([NOW.start(), NOW.clock()])
    for line in LINES:
        journal.keep([line])
    os.close(journal.file)
    return pathlib.Path(path).read_bytes()


def test_each_prefix_gives_the_lines_that_are_whole() -> None:
    with without_syncs(), tempfile.TemporaryDirectory() as folder:
        path = f"{folder}/journal"
        text = made(path)
        for size in range(len(text) + 1):
            pathlib.Path(path).write_bytes(text[:size])
            found = kept(path)
            assert found == LINES[: len(found)]
            assert len(found) == max(0, text[:size].count(b"\n") - 3)
            assert kept(path) == found
            for name in os.listdir(folder):
                if name != "journal":
                    os.unlink(f"{folder}/{name}")


def test_a_changed_record_is_refused_and_left_as_it_is() -> None:
    with without_syncs(), tempfile.TemporaryDirectory() as folder:
        path = f"{folder}/journal"
        text = made(path)
        for at in range(0, len(text), 3):
            changed = text[:at] + bytes([text[at] ^ 1]) + text[at + 1 :]
            pathlib.Path(path).write_bytes(changed)
            words = refused(lambda: kept(path))
            begin = text.rfind(b"\n", 0, at) + 1
            wanted = [f"damaged at octet {begin}:", "--accept-damage"] if begin else ["is no journal"]
            assert all(word in words for word in wanted)
            assert pathlib.Path(path).read_bytes() == changed
        assert os.listdir(folder) == ["journal"]


def test_damage_that_is_accepted_is_put_aside() -> None:
    with tempfile.TemporaryDirectory() as folder:
        path = f"{folder}/journal"
        text = made(path)
        ends = [at for at in range(1, len(text) + 1) if text[at - 1 : at] == b"\n"]
        changed = text[: ends[4] + 5] + b"!" + text[ends[4] + 6 :]
        pathlib.Path(path).write_bytes(changed)
        journal = Journal.opened(path, HEAD, accepts=True)
        journal.keep([b"tick"])
        journal.close()
        assert kept(path) == [*LINES[:2], b"tick"]
        assert pathlib.Path(path).read_bytes().startswith(text[: ends[4]])
        aside = [name for name in os.listdir(folder) if name != "journal"]
        assert len(aside) == 1 and aside[0].startswith("journal.cut-")
        assert pathlib.Path(folder, aside[0]).read_bytes() == changed[ends[4] :]
        assert pathlib.Path(folder, aside[0]).stat().st_mode & 0o777 == 0o600
        pathlib.Path(path).write_bytes(changed)
        kept_twice = Journal.opened(path, HEAD, accepts=True)
        kept_twice.close()
        assert len(os.listdir(folder)) == 3


@contextlib.contextmanager
def noted(*names: str) -> Iterator[list[str]]:
    """Which of these calls of the system are made, in their order."""
    done: list[str] = []

    def told(name: str, call: Callable[..., object]) -> Callable[..., object]:
        def telling(*words: object) -> object:
            done.append(name)
            return call(*words)

        return telling

    with contextlib.ExitStack() as stack:
        for name in names:
            stack.enter_context(mock.patch(f"os.{name}", told(name, getattr(os, name))))
        yield done


def test_what_is_cut_off_is_on_the_disk_before_it_is_cut() -> None:
    with tempfile.TemporaryDirectory() as folder:
        text = made(f"{folder}/journal")
        pathlib.Path(folder, "journal").write_bytes(text[:-3])
        with noted("fsync", "ftruncate", "write") as done:
            assert kept(f"{folder}/journal") == LINES[:-1]
        assert done == ["write", "fsync", "fsync", "ftruncate", "fsync", "fsync"]


def test_what_is_written_anew_is_on_the_disk_before_it_has_its_name() -> None:
    with tempfile.TemporaryDirectory() as folder:
        pathlib.Path(folder, "journal").write_bytes(older([HEAD.line(), NOW.start(), NOW.clock(), *LINES]))
        with noted("fsync", "link", "rename", "write") as done:
            assert kept(f"{folder}/journal") == LINES
        assert done == ["write", "fsync", "link", "rename", "fsync"]


def test_a_damaged_journal_of_a_centre_is_refused_since_its_numbers_are_not_known() -> None:
    with tempfile.TemporaryDirectory() as folder:
        head = Head("centre", "bench", 5)
        text = records.records([head._replace(form=2).line(), b"blank 1 2 3 127.0.0.1", b"tick", b"tick"])
        pathlib.Path(folder, "journal").write_bytes(text[:-20] + b"!" + text[-19:])
        for accepts in (False, True):
            words = refused(lambda: Journal.opened(f"{folder}/journal", head, accepts))
            assert "--fresh begins above all numbers" in words, words


def test_a_line_that_no_end_knows_is_refused_by_name() -> None:
    with tempfile.TemporaryDirectory() as folder:
        path, head = pathlib.Path(folder, "journal"), HEAD._replace(form=2).line()
        unknown = (
            b"hello world",
            b"ticks 12x",
            b"ticks 4294967296",
            b"power-back 4294967296",
            b"blank 1 2 3 127.0.0.1",
        )
        for line in unknown:
            for text in (records.records([head, b"ticks 5", line]), older([HEAD.line(), b"ticks 5", line])):
                path.write_bytes(text)
                words = refused(lambda: kept(str(path)))
                at = text.index(line)
                assert f"record 3 at octet {at} is {line.decode()!r}: no sign knows this line" in words, words
                assert path.read_bytes() == text


def test_a_journal_of_form_1_is_written_anew_and_kept_as_it_was() -> None:
    with tempfile.TemporaryDirectory() as folder:
        path = pathlib.Path(folder, "journal")
        lines = [HEAD.line(), NOW.start(), NOW.clock(), *LINES, b"ticks 3"]
        for at, more in enumerate((b"", b"datagram 30", b"")):
            path.write_bytes(older(lines) + more)
            assert kept(str(path)) == [*LINES, b"ticks 3"]
            name = "journal.form1" + (f"-{at + 1}" if at else "")
            assert pathlib.Path(folder, name).read_bytes() == older(lines) + more
            assert path.read_bytes() == records.records([HEAD._replace(form=2).line(), *lines[1:]])
            assert path.stat().st_mode & 0o777 == 0o600
            assert kept(str(path)) == [*LINES, b"ticks 3"] and len(os.listdir(folder)) == 2 + at


def test_a_journal_of_form_1_that_is_damaged_is_refused() -> None:
    with tempfile.TemporaryDirectory() as folder:
        path = pathlib.Path(folder, "journal")
        text = older([HEAD.line(), NOW.start(), NOW.clock(), *LINES])
        for changed in (text[:-3] + b"!" + text[-2:], text[:120] + bytes(30) + text[150:], text[:-1] + b"\x0b"):
            path.write_bytes(changed)
            assert "damaged at octet" in refused(lambda: kept(str(path)))
            assert path.read_bytes() == changed and os.listdir(folder) == ["journal"]
            journal = Journal.opened(str(path), HEAD, accepts=True)
            journal.close()
            assert pathlib.Path(folder, "journal.form1").read_bytes() == changed
            pathlib.Path(folder, "journal.form1").unlink()


def test_killed_at_each_call_of_writing_anew_there_is_one_whole_journal() -> None:
    text = older([HEAD.line(), NOW.start(), NOW.clock(), *LINES])
    for name in CALLS:
        for at in range(1, 20):
            if not killed_at(text, name, at):
                break


def killed_at(text: bytes, name: str, at: int) -> bool:
    """Whether a front end made so many of these calls before it was killed at the last of them; what it leaves is
    whole."""
    with tempfile.TemporaryDirectory() as folder:
        path = pathlib.Path(folder, "journal")
        path.write_bytes(text)
        pathlib.Path(folder, "journal.new").write_bytes(b"of an earlier kill")
        with killed_in(name, at, pathlib.Path(folder)) as count:
            kept(str(path))
        anew = records.records([HEAD._replace(form=2).line(), NOW.start(), NOW.clock(), *LINES])
        assert path.read_bytes() in (text, anew)
        assert kept(str(path)) == LINES
        asides = [one for one in os.listdir(folder) if one.startswith("journal.form1")]
        assert asides == ["journal.form1"] and pathlib.Path(folder, asides[0]).read_bytes() == text
    return count[0] >= at


def test_another_file_is_refused_and_left_as_it_is() -> None:
    with tempfile.TemporaryDirectory() as folder:
        path = f"{folder}/journal"
        for text in (b"notes", b"notes\n", b"notes\nmore\n", b"journal 1 sign\n"):
            pathlib.Path(path).write_bytes(text)
            assert "is no journal" in refused(lambda: kept(path))
            assert pathlib.Path(path).read_bytes() == text
        assert (
            refused(lambda: kept(folder))
            and refused(lambda: kept(f"{folder}/none/journal"))
            and refused(lambda: kept("/dev/null"))
        )


def test_a_name_that_is_written_beside_a_journal_is_no_journals() -> None:
    words = " is no name of a journal: what ends in .new is written beside one, and replaced"
    with tempfile.TemporaryDirectory() as folder:
        path, link = f"{folder}/journal.new", f"{folder}/link"
        os.symlink(path, link)
        for name in (path, link):
            assert refused(lambda: kept(name)) == name + words
        assert os.listdir(folder) == ["link"]
        made(f"{folder}/journal")
        os.rename(f"{folder}/journal", path)
        for name in (path, link):
            assert refused(lambda: kept(name)) == name + words
        link = f"{folder}/link.new"
        os.symlink(f"{folder}/journal", link)
        assert refused(lambda: kept(link)) == link + words


def test_what_differs_is_named() -> None:
    rows = [
        (Head("centre", "bench", 1), "its end is sign"),
        (Head("sign", "0" * 64), "another description"),
        (Head("sign", "bench", rules=2), "its rules is 1"),
    ]
    with tempfile.TemporaryDirectory() as folder:
        path = pathlib.Path(folder, "journal")
        path.write_bytes(records.records([HEAD._replace(form=3).line()]))
        assert "its form is 3, and this front end's 2" in refused(lambda: kept(str(path)))
        path.unlink()
        made(str(path))
        for head, words in rows:
            assert words in refused(functools.partial(kept, f"{folder}/journal", head))
        assert kept(f"{folder}/journal") == LINES


def test_one_front_end_a_journal() -> None:
    with tempfile.TemporaryDirectory() as folder:
        file = opened(Place.of(f"{folder}/journal"))
        assert "another front end holds" in refused(lambda: opened(Place.of(f"{folder}/journal")))
        assert os.fstat(file).st_mode & 0o777 == 0o600
        os.close(file)


def test_an_old_file_is_put_aside_whole() -> None:
    with tempfile.TemporaryDirectory() as folder:
        text = made(f"{folder}/journal")
        journal = Journal.fresh(Place.of(f"{folder}/journal"), HEAD)
        journal.keep([b"tick"])
        os.close(journal.file)
        assert kept(f"{folder}/journal") == [b"tick"]
        aside = [name for name in os.listdir(folder) if name != "journal"]
        assert len(aside) == 1 and pathlib.Path(folder, aside[0]).read_bytes() == text


def test_lines_are_refused_of_a_file_that_is_closed_or_was_made_shorter() -> None:
    for kept_as_read in (0, reading._SHORT):
        with tempfile.TemporaryDirectory() as folder, mock.patch.object(reading, "_SHORT", kept_as_read):
            path = f"{folder}/journal"
            text = made(path)
            journal = Journal.opened(path, HEAD)
            assert [line for some in journal.lines() for line in some] == LINES
            os.truncate(path, len(text) - 1)
            assert refused(journal.lines) == f"{path}: another hand made it shorter: its lines are not read"
            journal.close()
            assert refused(journal.lines) == f"{path}: it is not open: its lines are not read"


def test_a_start_without_its_clock_counts_for_nothing() -> None:
    with tempfile.TemporaryDirectory() as folder:
        path = f"{folder}/journal"
        text = made(path)
        number = text.count(b"\n") + 1
        more = records.records([Moment("two", 2000, 5).start(), b"power-lost"], number)
        pathlib.Path(path).write_bytes(text + more)
        journal = Journal.opened(path, HEAD)
        assert journal.last == NOW and journal.size == len(text) and journal.number == number
        os.close(journal.file)
        starts = records.records([NOW.start()] * 2000, number)
        pathlib.Path(path).write_bytes(text + starts)
        assert kept(path) == LINES and pathlib.Path(path).read_bytes() == text


def test_seconds_and_polls_in_a_row_are_one_record() -> None:
    with tempfile.TemporaryDirectory() as folder:
        path = f"{folder}/journal"
        keeper = Keeper(Journal.opened(path, HEAD))
        assert keeper.start(NOW, None) == []
        for seconds, is_heard in ((3, True), (4, True), (1, False), (2, False)):
            keeper.tick(seconds, 10.0)
            if is_heard:
                keeper.heard(by_kept=False)
                keeper.heard(by_kept=False)
        keeper.keep([b"datagram 30"])
        keeper.heard(by_kept=True)
        keeper.heard(by_kept=False)
        keeper.tick(5, 10.0)
        os.close(keeper.journal.file)
        assert kept(path) == [b"ticks 3", b"heard", b"ticks 4", b"heard", b"ticks 3", b"datagram 30"]


def test_a_record_of_the_clock_goes_in_each_minute() -> None:
    with tempfile.TemporaryDirectory() as folder:
        path = pathlib.Path(folder, "journal")
        keeper = Keeper(Journal.opened(str(path), HEAD))
        keeper.start(NOW, None)
        for second in range(1, 131):
            keeper.tick(1, 10.0 + second)
        keeper.journal.close()
        lines = [line.partition(b" #")[0] for line in path.read_bytes().splitlines()]
        assert [line for line in lines if line.startswith(b"ticks")] == [b"ticks 60", b"ticks 60"]
        assert [line.split()[2] for line in lines if line.startswith(b"clock")] == [b"10", b"70", b"130"]
        after = Journal.opened(str(path), HEAD)
        assert after.last is not None and after.last.up == 130
        after.close()


class Refusing(Journal):
    """A journal whose disk takes no record."""

    def append(self, lines: list[bytes], synced: bool) -> None:
        raise NotKept("the disk is full", 1)


def test_seconds_that_could_not_be_recorded_go_with_the_next_record() -> None:
    with tempfile.TemporaryDirectory() as folder:
        path = f"{folder}/journal"
        keeper = Keeper(Journal.opened(path, HEAD))
        keeper.journal.__class__ = Refusing
        for seconds in (30, 20):
            keeper.tick(seconds, 10.0)
            assert not keeper.keep([b"datagram 31"])
        keeper.heard(by_kept=False)
        keeper.tick(2, 10.0)
        keeper.journal.__class__ = Journal
        assert keeper.keep([b"datagram 32"])
        os.close(keeper.journal.file)
        assert kept(path) == [b"ticks 50", b"heard", b"ticks 2", b"datagram 32"]


def test_lines_that_wait_for_a_disk_are_written_part_by_part() -> None:
    with tempfile.TemporaryDirectory() as folder:
        path = f"{folder}/journal"
        keeper = Keeper(Journal.opened(path, HEAD))
        keeper.journal.__class__ = Refusing
        for at in range(20 * MOST_EXACT):
            keeper.tick(7, 10.0)
            keeper.heard(by_kept=False)
        assert len(keeper.journal.owed.first) == MOST_EXACT
        wanted = [b"ticks 7", b"heard"] * (MOST_EXACT // 2)
        keeper.journal.__class__ = Half
        assert not keeper.keep([b"datagram 31"])
        assert len(keeper.journal.owed.first) == MOST_EXACT and keeper.journal.owed.polls
        keeper.journal.__class__ = Journal
        assert keeper.keep([b"datagram 32"]) and not keeper.journal.owed
        keeper.journal.close()
        lines = kept(path)
        assert lines[:MOST_EXACT] == wanted and lines[-1] == b"datagram 32"
        assert sum(int(line[6:]) for line in lines if line.startswith(b"ticks")) == 7 * 20 * MOST_EXACT
        assert all(int(line[6:]) < 60 for line in lines if line.startswith(b"ticks"))


class Half(Journal):
    """A journal whose disk takes two parts, and then no record."""

    parts = 2

    def append(self, lines: list[bytes], synced: bool) -> None:
        assert len(lines) <= MOST_EXACT
        self.parts -= 1
        if self.parts < 0:
            raise NotKept("the disk is full", 1)
        super().append(lines, synced)
