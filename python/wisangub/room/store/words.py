"""Which commands have words in what they have shown, and which lines of the audit in what they say, by an index: of
PostgreSQL of `command_words(line)` and `audit_words(what)`, of SQLite tables of FTS5, where that is there
(039_words.sql, 040_audit_words.sql). A word of which something stands anywhere is found by the end of it that begins
so. What is found so is looked at again; nothing is missed that stands in a line.
"""

import heapq
import itertools
from dataclasses import replace
from typing import Callable, Iterable, Iterator, Sequence, TypeVar

from . import search
from .connection import Database, Value
from .ends import ANY, LONGEST, SHORTEST, WORD
from .history import AuditWanted, Entry, audited
from .queries import CommandView, Wanted, commands
from .search import Slice
from .values import texts, whole

_Row = TypeVar("_Row")
_Candidates = Callable[[int, int], list[int] | None]  # the newest numbers below one, so many at most
_FIRST, _AT_ONCE = 400, 200  # numbers that are asked for first, and rows
_MOST_SIGNS = 20  # whose commands are looked at one by one, since a word stands in their names
# what pages say of commands whatever their text is
_SAID = (
    *("publish", "blank", "show", "another", "command", "in", "nothing", "accepted"),
    *("permanent", "changeable", "volatile", "memory", "what", "was", "shown", "before"),
)
# and of commands in the audit
_SAID_OF_IT = (
    *_SAID,
    *("without", "end", "min", "activation", "priority", "while", "with", "beacon", "pixel", "service"),
)


def _looked_for(find: str, said_of_all: Sequence[str] = _SAID) -> list[str]:
    """The words that an index can look for, the longest first."""
    found = {word for word in WORD.findall(find.lower()) if len(word) >= SHORTEST and max(word) <= "\xff"}
    return sorted(
        (word for word in found if not any(word in said for said in said_of_all)), key=lambda word: -len(word)
    )


def _outcomes(database: Database) -> list[str]:
    """How commands failed, each once, by its index."""
    next_one = "SELECT min(outcome) FROM commands WHERE outcome <> 'accepted'"
    rows = database.run(
        f"WITH RECURSIVE each_one (outcome) AS ({next_one} UNION ALL SELECT ({next_one} AND outcome > each_one.outcome)"
        " FROM each_one WHERE each_one.outcome IS NOT NULL) SELECT outcome FROM each_one WHERE outcome IS NOT NULL"
    )
    return texts(rows)


def _newest(database: Database, column: str, values: Sequence[Value], before: int, most: int) -> list[list[int]]:
    """For each value of a column the newest commands that have it."""
    failed = " AND outcome <> 'accepted'" if column == "outcome" else ""
    sql = f"SELECT id FROM commands WHERE {column} = ? AND id < ?{failed} ORDER BY id DESC LIMIT ?"
    return [[whole(number) for number, in database.run(sql, value, before, most)] for value in values]


def _spelled(database: Database, words: Sequence[str]) -> str:
    """All of the words, as the database's index takes them."""
    return database.and_words.join(database.a_word.format(word[:LONGEST]) for word in words)


def _in_texts(database: Database, words: Sequence[str], before: int, most: int) -> list[int]:
    rows = database.run(database.with_words, _spelled(database, words), before, most)
    return [whole(number) for number, in rows]


def candidates(database: Database, find: str, before: int, most: int) -> list[int] | None:
    """The newest commands below a number in which all of the words may stand, so many at most; None where it were
    better to look at all of them."""
    words = _looked_for(find)
    if not words or not database.has_words():
        return None
    signs = [(whole(sign), str(name).lower()) for sign, name in database.run("SELECT id, name FROM signs")]
    outcomes = [(outcome, outcome.lower()) for outcome in _outcomes(database)]
    of_signs = {word: [sign for sign, name in signs if word in name] for word in words}
    of_outcomes = {word: [outcome for outcome, said in outcomes if word in said] for word in words}
    in_texts = [word for word in words if not of_signs[word] and not of_outcomes[word]]
    if in_texts:
        return _in_texts(database, in_texts, before, most)
    word = min(words, key=lambda word: len(of_signs[word]))
    if len(of_signs[word]) > _MOST_SIGNS:
        return None
    found = [_in_texts(database, [word], before, most)]
    found += _newest(database, "sign", of_signs[word], before, most)
    found += _newest(database, "outcome", of_outcomes[word], before, most)
    return list(itertools.islice(_once(heapq.merge(*found, reverse=True)), most))


def audit_candidates(database: Database, find: str, before: int, most: int) -> list[int] | None:
    """The newest lines of the audit below a number in which all of the words may stand, so many at most; None where it
    were better to look at all of them."""
    words = _looked_for(find, _SAID_OF_IT)
    if not words or not database.has_words("audit_words"):
        return None
    spelled = f"({_spelled(database, words)}){database.or_words}{database.one_word.format(ANY)}"
    return [whole(number) for number, in database.run(database.with_audit_words, spelled, before, most)]


def slices(database: Database, wanted: Wanted, find: str, before: int) -> Iterator[Slice[CommandView]] | None:
    """The commands that are wanted, of those below a number in which the words may stand, for `search`."""
    return _begun(
        lambda below, most: candidates(database, find, below, most),
        lambda numbers: commands(database, replace(wanted, numbers=numbers, before=None, most=_AT_ONCE)),
        before,
    )


def audit_slices(database: Database, wanted: AuditWanted, find: str, before: int) -> Iterator[Slice[Entry]] | None:
    """The same of the audit."""
    return _begun(
        lambda below, most: audit_candidates(database, find, below, most),
        lambda numbers: audited(database, replace(wanted, numbers=numbers, before=None, most=_AT_ONCE)),
        before,
    )


def _begun(
    newest: _Candidates, rows: Callable[[Sequence[int]], Sequence[_Row]], before: int
) -> Iterator[Slice[_Row]] | None:
    first = newest(before, _FIRST)
    return None if first is None else _slices(newest, rows, first)


def _slices(
    newest: _Candidates, rows: Callable[[Sequence[int]], Sequence[_Row]], found: list[int]
) -> Iterator[Slice[_Row]]:
    most = _FIRST
    while len(found) == most:
        yield from _parts(rows, found, found[-1])
        if most == search.MOST_SEEN:
            return
        most = search.MOST_SEEN
        found = newest(found[-1], most) or []
    yield from _parts(rows, found, None)


def _parts(
    rows: Callable[[Sequence[int]], Sequence[_Row]], found: Sequence[int], below: int | None
) -> Iterator[Slice[_Row]]:
    """Those of some numbers that are wanted; where it goes on after the last of them."""
    for at in range(0, len(found), _AT_ONCE):
        part = found[at : at + _AT_ONCE]
        yield rows(part), part[-1] if at + _AT_ONCE < len(found) else below
    if not found:
        yield [], below


def _once(numbers: Iterable[int]) -> Iterator[int]:
    """Of equal ones that follow one another the first."""
    return (number for number, _ in itertools.groupby(numbers))
