"""The journals over which starts are measured: as long as they should be, whole, and what a front end reads of them."""

import itertools
import pathlib

import start_times

from trials.front_ends import starts, year
from wisangub.endpoint.clock import Moment
from wisangub.endpoint.journal import Journal
from wisangub.endpoint.records import Head
from wisangub.endpoint.shortening import MOST

HEAD = Head("sign", "bench")
SMALL = (start_times.TOP / "signs/gantry.sign").read_bytes().replace(b"\nrows 64 16\n", b"\nrows 3 2\n")


def test_an_aged_sign_has_a_text_in_each_row_and_a_journal_as_long_as_it_may_be(tmp_path: pathlib.Path) -> None:
    path, sign = tmp_path / "journal", start_times.aged(SMALL)
    year.write(HEAD, path, starts.longest(sign, Moment.now()))
    assert MOST - 2000 < path.stat().st_size < MOST
    journal = Journal.opened(str(path), HEAD)
    rows = [line.split(b" ") for line in journal.state() if line.startswith((b"changeable ", b"volatile "))]
    assert [row[:3] for row in rows] == [
        [name, b"%d" % number, b"4"]
        for name, count in ((b"changeable", 3), (b"volatile", 2))
        for number in range(1, count + 1)
    ]
    assert {len(row[3]) for row in rows} == {1024} and {len(row[4]) for row in rows} == {254}
    assert sum(map(len, journal.lines())) > 10_000
    journal.close()


def test_a_journal_of_form_1_is_read_and_written_anew(tmp_path: pathlib.Path) -> None:
    path, lines = tmp_path / "journal", [*year.year(Moment.now(), 200)]
    assert start_times.write_older(HEAD, path, iter(lines), 10**6) == len(lines) + 1
    assert path.stat().st_size > 200 * start_times._OF_A_MINUTE and path.read_bytes().startswith(b"journal 1 sign ")
    journal = Journal.opened(str(path), HEAD)
    handed = [*itertools.chain.from_iterable(journal.lines())]
    journal.close()
    is_same = handed == [line for line in lines if not line.startswith((b"start ", b"clock "))]
    assert is_same, "each line is handed over"  # thousands, of which nobody reads the difference
    assert (tmp_path / "journal.form1").is_file() and path.read_bytes().startswith(b"journal 2 sign ")


def test_it_is_about_as_long_as_asked(tmp_path: pathlib.Path) -> None:
    path = tmp_path / "journal"
    start_times.write_older(HEAD, path, year.year(Moment.now(), 10_000), 10**6)
    assert 10**6 <= path.stat().st_size < 2 * 10**6
