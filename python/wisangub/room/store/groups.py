"""Groups of signs, and what users may in each."""

import hashlib
from dataclasses import dataclass
from typing import Iterable

from wisangub.refusal import Refusal

from .audit import note
from .connection import Database, Row, Taken
from .rights import Level
from .rules import name_of
from .values import texts, whole

KINDS = ("route", "region", "group")  # that are made; `all` is there
_ALL = "all"


@dataclass(frozen=True)
class Group:
    """A group with the rows of its signs, and who may what in it."""

    id: int
    name: str
    kind: str
    signs: frozenset[int] = frozenset()
    rights: tuple[tuple[str, Level], ...] = ()

    @property
    def has_all(self) -> bool:
        """Whether every sign is in it, without being named."""
        return self.kind == _ALL

    @property
    def shown(self) -> str:
        """A digest of its signs, by which a page says what it showed."""
        return _digest(self.signs)


def _digest(signs: Iterable[int]) -> str:
    return hashlib.sha256(repr(sorted(signs)).encode()).hexdigest()


def listed(database: Database) -> list[Group]:
    """All: that of all signs first, then by kind and name."""
    signs: dict[int, set[int]] = {}
    for group, sign in database.run("SELECT of_group, sign FROM group_members"):
        signs.setdefault(whole(group), set()).add(whole(sign))
    rights: dict[int, list[tuple[str, Level]]] = {}
    for group, name, level in database.run("SELECT of_group, name, level FROM rights ORDER BY name"):
        rights.setdefault(whole(group), []).append((str(name), Level(whole(level))))
    rows = database.run(
        "SELECT id, name, kind FROM sign_groups ORDER BY CASE WHEN kind = 'all' THEN 0 ELSE 1 END, kind, name"
    )
    return [_group(row, frozenset(signs.get(whole(row[0]), ())), rights.get(whole(row[0]), [])) for row in rows]


def _group(row: Row, signs: frozenset[int], rights: list[tuple[str, Level]]) -> Group:
    return Group(whole(row[0]), str(row[1]), str(row[2]), signs, tuple(rights))


def names_of_signs(database: Database) -> dict[int, list[str]]:
    """The names of the groups that each sign is in."""
    found: dict[int, list[str]] = {}
    for sign, name in database.run(
        "SELECT sign, name FROM group_members JOIN sign_groups ON sign_groups.id = of_group ORDER BY name"
    ):
        found.setdefault(whole(sign), []).append(str(name))
    return found


def _named(database: Database, number: int, may_be_all: bool = False) -> str:
    """The name of a group that may be changed so."""
    rows = database.run("SELECT name, kind FROM sign_groups WHERE id = ?", number)
    if not rows or str(rows[0][1]) == _ALL and not may_be_all:
        raise Refusal("there is no such group that could be changed so")
    return str(rows[0][0])


def add(database: Database, name: str, kind: str, who: str) -> int:
    """A group without signs: its number."""
    held = name_of(name, "a group's name")
    if kind not in KINDS:
        raise Refusal(f"a group is a {', '.join(KINDS)}")
    try:
        with database.transaction():
            rows = database.run("INSERT INTO sign_groups (name, kind) VALUES (?, ?) RETURNING id", held, kind)
            note(database, who, f"{kind} {held} is made")
            return whole(rows[0][0])
    except Taken:
        raise Refusal(f"there is a group {held} already") from None


def remove(database: Database, number: int, who: str) -> None:
    """Takes a group away, and what users may by it."""
    with database.transaction(is_alone=True):
        name = _named(database, number)
        database.run("DELETE FROM rights WHERE of_group = ?", number)
        database.run("DELETE FROM group_members WHERE of_group = ?", number)
        database.run("DELETE FROM sign_groups WHERE id = ?", number)
        note(database, who, f"group {name} is removed")


def change_signs(
    database: Database, number: int, signs: frozenset[int], known: frozenset[int], who: str, shown: str | None = None
) -> None:
    """The group has these of the known signs, and keeps those of other fleets. Refused where it has others than
    somebody has seen, where that is said."""
    with database.transaction(is_alone=True):
        name = _named(database, number)
        had = {whole(row[0]) for row in database.run("SELECT sign FROM group_members WHERE of_group = ?", number)}
        if shown not in (None, _digest(had)):
            raise Refusal("the signs of this group were changed meanwhile: look at them again")
        new, gone = (signs & known) - had, (had & known) - signs
        database.run_all(
            "INSERT INTO group_members (of_group, sign) VALUES (?, ?)", [(number, sign) for sign in sorted(new)]
        )
        database.run_all(
            "DELETE FROM group_members WHERE of_group = ? AND sign = ?", [(number, sign) for sign in sorted(gone)]
        )
        for sign in sorted(new | gone):
            of = texts(database.run("SELECT name FROM signs WHERE id = ?", sign))[0]
            note(database, who, f"group {name}: {of} is {'in it' if sign in new else 'no longer in it'}")


def give(database: Database, number: int, name: str, level: Level, who: str) -> None:
    """What a user may in a group."""
    try:
        with database.transaction():
            group = _named(database, number, may_be_all=True)
            if level is Level.NOTHING:
                database.run("DELETE FROM rights WHERE name = ? AND of_group = ?", name, number)
            else:
                database.run(
                    "INSERT INTO rights (name, of_group, level) VALUES (?, ?, ?)"
                    " ON CONFLICT (name, of_group) DO UPDATE SET level = excluded.level",
                    name,
                    number,
                    int(level),
                )
            note(database, who, f"user {name} may in group {group}: {level.words}")
    except Taken:
        raise Refusal(f"there is no user {name}") from None
