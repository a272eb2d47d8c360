"""What the time without a process was."""

from wisangub.endpoint.clock import MOST_MADE_UP, SET, Moment, down, running
from wisangub.refusal import Refusal

THEN = 1_700_000_000  # a wall clock that was set
LAST = Moment("one", THEN, 500)
LONGEST = [b"power-lost", b"power-back 4294967295"]
ROWS: list[tuple[str, Moment, str | None, list[bytes]]] = [
    ("the process died for no second", Moment("one", THEN, 500), None, []),
    ("for ten seconds", Moment("one", THEN + 10, 510), None, [b"ticks 10"]),
    ("ten seconds, and the wall clock was set meanwhile", Moment("one", THEN + 8_000_000, 510), None, [b"ticks 10"]),
    ("for longer than is made up", Moment("one", THEN + 1_000_000, 1_000_500), None, [b"ticks %d" % MOST_MADE_UP]),
    ("the power was lost", Moment("two", THEN + 60, 20), None, [b"power-lost", b"power-back 60"]),
    ("the power was lost, and the clock went back", Moment("two", THEN - 1, 20), None, LONGEST),
    ("the power was lost, and the clock is of 1970", Moment("two", 10, 20), None, LONGEST),
    ("a restart, and the clock went back", Moment("two", THEN - 1, 20), "process", [b"ticks %d" % MOST_MADE_UP]),
    ("the power was lost for longer than a number", Moment("two", THEN + 2**33, 20), None, LONGEST),
    ("a restart that was no loss of power", Moment("two", THEN + 60, 20), "process", [b"ticks 60"]),
    ("the wall clock went back meanwhile", Moment("one", 10, 507), None, [b"ticks 7"]),
    ("the wall clock went forward meanwhile", Moment("one", THEN + 1_000_000, 507), None, [b"ticks 7"]),
    ("the clock of the machine went back", Moment("one", THEN, 20), None, []),
    ("no time passed", Moment("one", THEN, 500), None, []),
    (
        "a loss of power that the machine outlived",
        Moment("one", THEN + 7, 507),
        "power",
        [b"power-lost", b"power-back 7"],
    ),
]


def test_the_lines_of_the_time_without_a_process() -> None:
    for name, now, overruled, lines in ROWS:
        assert down(LAST, now, overruled) == lines, name


def test_a_sign_whose_power_was_off_has_it_again() -> None:
    for name, now, overruled, lines in ROWS:
        found = down(LAST, now, overruled, has_power=False)
        assert found[-1].startswith(b"power-back ") and (lines[:1] != [b"power-lost"] or found == lines), name
    assert down(LAST, Moment("one", THEN + 10, 510), None, has_power=False) == [b"power-back 10"]
    assert down(LAST, Moment("one", THEN, 1_000_500), None, has_power=False) == [b"power-back 1000000"]


def test_a_moment_is_read_as_it_is_written() -> None:
    assert Moment.of(LAST.start() + b" #00000000", LAST.clock() + b" #00000000\n") == LAST
    assert LAST.later(3) == Moment("one", THEN + 3, 503)


def test_records_that_tell_no_moment_are_refused() -> None:
    for start, clock in (
        (b"start one 1 2 #00000000", b"clock 1 #00000000\n"),
        (b"start one 1 2 #00000000", b"clock x 2 #00000000\n"),
        (b"start \xff 1 2 #00000000", b"clock 1 2 #00000000\n"),
    ):
        try:
            Moment.of(start, clock)
            found = ""
        except Refusal as refused:
            found = str(refused)
        assert "tell no moment" in found, clock


def test_where_no_boot_has_an_id_less_time_since_it_is_another_boot() -> None:
    last = Moment("-", THEN, 500)
    assert down(last, Moment("-", THEN + 60, 560), None) == [b"ticks 60"]
    assert down(last, Moment("-", THEN + 60, 20), None) == [b"power-lost", b"power-back 60"]
    assert down(last, Moment("-", THEN + 60, 20), "process") == [b"ticks 60"]


def test_a_moment_is_of_the_seconds_that_a_sign_was_told() -> None:
    now = Moment.now()
    before = Moment.at(running() - 100)
    assert now.boot == before.boot and now.up - before.up in (99, 100) and now.wall - before.wall in (99, 100, 101)


def test_a_clock_that_was_never_set_tells_no_loss() -> None:
    first = Moment("one", 100, 90)
    for now in (Moment("two", 200, 20), Moment("two", 100, 20), Moment("two", THEN, 20)):
        assert down(first, now, None) == LONGEST
    assert down(Moment("one", SET, 500), Moment("two", SET + 5, 20), None) == [b"power-lost", b"power-back 5"]
