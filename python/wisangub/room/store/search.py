"""Looking for words among rows, the newest first, within bounds: no request reads a whole table at once."""

import itertools
from typing import Callable, Iterator, Sequence, TypeVar

_Row = TypeVar("_Row")
Slice = tuple[Sequence[_Row], int | None]  # rows, and the number below which it goes on, none where it does not
FEW = 50  # rows beside a page that are looked at before an index is asked
SLICE = 2000  # rows that are read at once
MOST_SEEN = 20_000  # rows that are looked at for one page


def _slices(
    ask: Callable[[int | None, int], Sequence[_Row]],
    number: Callable[[_Row], int],
    before: int | None,
    most: int,
    indexed: Callable[[int], Iterator[Slice[_Row]] | None],
) -> Iterator[Slice[_Row]]:
    """All rows, a page first and a few more; then those that an index has, where it has them."""
    seen = 0
    for size in itertools.chain((most + 1, FEW), itertools.repeat(SLICE)):
        rows = ask(before, size)
        if len(rows) < size:
            yield rows, None
            return
        before, seen = number(rows[-1]), seen + size
        yield rows, before
        if seen >= MOST_SEEN:
            return
        if size == FEW and (found := indexed(before)) is not None:
            yield from found
            return


def search(
    ask: Callable[[int | None, int], Sequence[_Row]],
    number: Callable[[_Row], int],
    matches: Callable[[_Row], bool],
    before: int | None,
    most: int,
    indexed: Callable[[int], Iterator[Slice[_Row]] | None] = lambda before: None,
) -> tuple[list[_Row], int | None]:
    """At most so many rows that match, of those with numbers below one, as `ask` has them; and the number below which
    it goes on, none where nothing more is there. `indexed` has of the rows below a number all that may match."""
    found: list[_Row] = []
    for rows, below in _slices(ask, number, before, most, indexed):
        for row in rows:
            if matches(row):
                if len(found) == most:
                    return found, before
                found.append(row)
            before = number(row)
        before = below
    return found, before
