"""Values of rows as what they are, and the parts of statements that several tables share."""

from typing import Collection, Sequence

from .connection import Row, Value

CLOCK = "{clock}"
SLACK = 1.0  # seconds by which a time may be ahead where no clock jumped: it was written as another one was read
LEAST_NUMBER = -(2**31)  # of a request


def whole(value: Value) -> int:
    """A number that is never missing."""
    assert isinstance(value, (int, float))
    return int(value)


def whole_or_none(value: Value) -> int | None:
    return None if value is None else whole(value)


def time_of(value: Value) -> float:
    """A time that is never missing, in seconds since 1970."""
    assert isinstance(value, (int, float))
    return float(value)


def time_or_none(value: Value) -> float | None:
    return None if value is None else time_of(value)


def text_or_none(value: Value) -> str | None:
    return None if value is None else str(value)


def texts(rows: Sequence[Row]) -> list[str]:
    """The first column, of texts."""
    return [str(row[0]) for row in rows]


def places(values: Collection[object]) -> str:
    """A place for each value."""
    return ", ".join("?" * len(values))
