"""The rules of an agency: what texts are for, each purpose with priority and row; words that may not be shown."""

from dataclasses import dataclass

from wisangub.refusal import Refusal
from wisangub.room.plain import forbidden_in

from .audit import note
from .connection import Database, Row, Taken
from .values import texts, whole

LEAST, MOST = 1, 254  # priorities of purposes: 255 is given by hand alone, with a warning
_MOST_NAME = 64


@dataclass(frozen=True)
class Purpose:
    """What a text is for. `priority` is that of the text while it is shown and of its activation, `number` the row of
    the changeable memory."""

    id: int
    name: str
    priority: int
    number: int


def purposes(database: Database) -> list[Purpose]:
    """All, the most urgent first."""
    rows = database.run("SELECT id, name, priority, number FROM purposes ORDER BY priority DESC, name")
    return list(map(_purpose, rows))


def purpose(database: Database, number: int) -> Purpose | None:
    rows = database.run("SELECT id, name, priority, number FROM purposes WHERE id = ?", number)
    return _purpose(rows[0]) if rows else None


def _purpose(row: Row) -> Purpose:
    return Purpose(whole(row[0]), str(row[1]), whole(row[2]), whole(row[3]))


def name_of(word: str, what: str) -> str:
    """A name as it is kept; refused where it is none."""
    name = " ".join(word.split())
    if not 1 <= len(name) <= _MOST_NAME or not name.isprintable():
        raise Refusal(f"{what} has 1 to {_MOST_NAME} printable characters")
    return name


def _checked(name: str, priority: int, number: int) -> str:
    if not LEAST <= priority <= MOST:
        raise Refusal(f"a purpose has a priority from {LEAST} to {MOST}: 255 is given by hand alone")
    if not 1 <= number <= 255:
        raise Refusal("a purpose has a row from 1 to 255")
    return name_of(name, "a purpose's name")


def add_purpose(database: Database, name: str, priority: int, number: int, who: str) -> None:
    name = _checked(name, priority, number)
    try:
        with database.transaction():
            database.run("INSERT INTO purposes (name, priority, number) VALUES (?, ?, ?)", name, priority, number)
            note(database, who, f"purpose {name} has priority {priority} and row {number}")
    except Taken:
        raise Refusal(f"there is a purpose {name} already") from None


def change_purpose(database: Database, row: int, name: str, priority: int, number: int, who: str) -> None:
    name = _checked(name, priority, number)
    try:
        with database.transaction():
            if not database.run(
                "UPDATE purposes SET name = ?, priority = ?, number = ? WHERE id = ? RETURNING id",
                name,
                priority,
                number,
                row,
            ):
                raise Refusal("there is no such purpose any more")
            note(database, who, f"purpose {name} has priority {priority} and row {number}")
    except Taken:
        raise Refusal(f"there is a purpose {name} already") from None


def remove_purpose(database: Database, row: int, who: str) -> None:
    """Refused where a text of the library is for it."""
    try:
        with database.transaction():
            rows = database.run("DELETE FROM purposes WHERE id = ? RETURNING name", row)
            for (name,) in rows:
                note(database, who, f"purpose {name} is removed")
    except Taken:
        raise Refusal("texts of the library are for it: give them another purpose first") from None


def words(database: Database) -> list[str]:
    """Words that may not be shown."""
    return texts(database.run("SELECT word FROM forbidden_words ORDER BY word"))


def forbid(database: Database, word: str, who: str) -> None:
    kept = name_of(word, "a word").lower()
    with database.transaction():
        if database.run("INSERT INTO forbidden_words (word) VALUES (?) ON CONFLICT DO NOTHING RETURNING word", kept):
            note(database, who, f"“{kept}” may not be shown")


def allow(database: Database, word: str, who: str) -> None:
    with database.transaction():
        if database.run("DELETE FROM forbidden_words WHERE word = ? RETURNING word", word):
            note(database, who, f"“{word}” may be shown again")


def refused(word: str) -> str:
    """Why a text with this word is refused."""
    return f"“{word}” may not be shown"


def check(text: bytes, forbidden: list[str]) -> None:
    """Refuses a text with a word that may not be shown."""
    if (found := forbidden_in(text, forbidden)) is not None:
        raise Refusal(refused(found[1]))
