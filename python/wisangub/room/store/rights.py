"""Who may do what on which sign: a role bounds it, and what a user may in the groups of the sign decides."""

import enum
from dataclasses import dataclass, field
from typing import Iterable, Mapping

from wisangub.refusal import Refusal

from . import library
from .connection import Database
from .rules import MOST
from .shown_by import text_of
from .users import Role
from .values import texts, whole


class Level(enum.IntEnum):
    """Each may what the ones before may: see a sign; also blank it, and show approved texts; also show any text."""

    NOTHING, SEE, APPROVED, PUBLISH = range(4)

    @property
    def words(self) -> str:
        return ("nothing", "see", "approved texts", "any text")[self]


_BY_ROLE = {Role.READER: Level.SEE, Role.OPERATOR: Level.PUBLISH, Role.ADMINISTRATOR: Level.PUBLISH}


@dataclass(frozen=True)
class Rights:
    """What somebody may: `most` by his role, `everywhere` on all signs, `of` on single ones, by their rows."""

    most: Level = Level.NOTHING
    everywhere: Level = Level.NOTHING
    of: Mapping[int, Level] = field(default_factory=dict)

    def level(self, sign: int) -> Level:
        return min(self.most, max(self.everywhere, self.of.get(sign, Level.NOTHING)))

    def may_see(self, sign: int) -> bool:
        return self.level(sign) >= Level.SEE

    def may_command(self, sign: int) -> bool:
        return self.level(sign) >= Level.APPROVED

    @property
    def commands_some(self) -> bool:
        """Whether there may be a sign that he commands."""
        return min(self.most, max([self.everywhere, *self.of.values()])) >= Level.APPROVED

    @property
    def sees_all(self) -> bool:
        """Whether he sees every sign that there is."""
        return min(self.most, self.everywhere) >= Level.SEE

    def seen(self, signs: Iterable[int]) -> frozenset[int]:
        """Those of the signs that he may see."""
        return frozenset(filter(self.may_see, signs))


def of_user(database: Database, name: str) -> Rights:
    """What a user may now; who may not log in may nothing. An administrator may everything, since he gives rights."""
    rows = database.run("SELECT role FROM users WHERE name = ? AND disabled = 0", name)
    if not rows:
        return Rights()
    role = Role.of(str(rows[0][0]))
    if role is Role.ADMINISTRATOR:
        return Rights(Level.PUBLISH, Level.PUBLISH)
    everywhere = database.run(
        "SELECT max(rights.level) FROM rights JOIN sign_groups ON sign_groups.id = rights.of_group"
        " WHERE rights.name = ? AND sign_groups.kind = 'all'",
        name,
    )
    of = database.run(
        "SELECT group_members.sign, max(rights.level) FROM rights"
        " JOIN group_members ON group_members.of_group = rights.of_group WHERE rights.name = ?"
        " GROUP BY group_members.sign",
        name,
    )
    return Rights(
        _BY_ROLE[role],
        Level(whole(everywhere[0][0] or 0)),
        {whole(sign): Level(whole(level)) for sign, level in of},
    )


def need(database: Database, who: str, sign: int, level: Level = Level.APPROVED) -> Level:
    """What a user may on a sign; refused where it is less than this. One that he may not see is not named."""
    found = of_user(database, who).level(sign)
    if found < level:
        raise _refusal(database, who, sign, "do this") if found else Refusal(f"a sign: {who} may not do this")
    return found


def check(database: Database, who: str, lines: Iterable[tuple[int, str]]) -> None:
    """Refuses commands for signs that a user may not give there. A sign that he may not see is not named."""
    rights = of_user(database, who)
    for sign, refused in refusals(database, who, lines).items():
        raise refused if rights.may_see(sign) else Refusal(f"a sign: {who} may not command it")


def refusals(database: Database, who: str, lines: Iterable[tuple[int, str]]) -> dict[int, Refusal]:
    """Why a user may not give a command to a sign, of those that he may not: the sign's name stands in it."""
    rights, found = of_user(database, who), {}
    for sign, line in lines:
        level = rights.level(sign)
        if level < Level.APPROVED:
            found[sign] = _refusal(database, who, sign, "command it")
        elif level < Level.PUBLISH and not _is_approved(database, sign, line):
            words = "show more than approved texts, by the priority of their purpose"
            found[sign] = _refusal(database, who, sign, words)
    return found


def _refusal(database: Database, who: str, sign: int, what: str) -> Refusal:
    names = texts(database.run("SELECT name FROM signs WHERE id = ?", sign))
    return Refusal(f"{names[0] if names else 'a sign'}: {who} may not {what}")


def _is_approved(database: Database, sign: int, line: str) -> bool:
    """Whether a command blanks a sign, or shows a text that is approved for its kind or that it is made with, and no
    priority is above that of a purpose."""
    words = line.split(" ")
    try:
        if words[0] == "blank":
            return int(words[3]) <= MOST
        if words[0] == "activate":
            code = bytes.fromhex(words[1])
            is_made_with = code[3] == 2
            return code[2] <= MOST and (is_made_with or _purpose(database, sign, line) is not None)
        if words[0] == "publish":
            greatest = _purpose(database, sign, line)
            return greatest is not None and max(int(words[7]), int(words[9])) <= greatest
    except (ValueError, IndexError):
        pass  # it is none of the pages' commands
    return False


def _purpose(database: Database, sign: int, line: str) -> int | None:
    """The greatest priority of a purpose that the text of a command is approved for on this sign."""
    return library.priority_of(database, text_of(database, sign, line), sign)
