"""The library: texts by folder and name, and for which kinds of signs each is approved."""

import hashlib
from dataclasses import dataclass

from wisangub.refusal import Refusal

from . import rules
from .audit import note
from .connection import Database, Row, Taken
from .values import texts, time_of, whole, whole_or_none

_MOST_TEXT = 512  # octets
_CHANGED = "this text was changed meanwhile: look at it again"
_TEXTS = """
SELECT texts.id, texts.folder, texts.name, texts.text, texts.purpose, purposes.name, texts.written_by, texts.written_at
FROM texts JOIN purposes ON purposes.id = texts.purpose
"""


@dataclass(frozen=True)
class Written:
    """What somebody writes into the library; a text without a folder has the name of none."""

    folder: str
    name: str
    text: bytes
    purpose: int

    def checked(self, forbidden: list[str]) -> "Written":
        """As it is kept; refused where something is not in order."""
        if not self.text:
            raise Refusal("a text of the library shows something")
        if len(self.text) > _MOST_TEXT:
            raise Refusal(f"a text has at most {_MOST_TEXT} octets")
        rules.check(self.text, forbidden)
        folder = rules.name_of(self.folder, "a folder's name") if self.folder.strip() else ""
        return Written(folder, rules.name_of(self.name, "a text's name"), self.text, self.purpose)


@dataclass(frozen=True)
class Approval:
    """For which kind of signs (room/fleet.py, Sign.kind), by whom and when."""

    kind: str
    by: str
    at: float


@dataclass(frozen=True)
class Text:
    """A text of the library."""

    id: int
    folder: str
    name: str
    text: bytes
    purpose: int
    purpose_name: str
    by: str
    at: float
    approvals: tuple[Approval, ...] = ()

    @property
    def called(self) -> str:
        return f"{self.folder} / {self.name}" if self.folder else self.name

    @property
    def shown(self) -> str:
        """A digest of what can be written anew, by which a page says what it showed."""
        return hashlib.sha256(repr((self.folder, self.name, self.text, self.purpose)).encode()).hexdigest()

    @property
    def kinds(self) -> set[str]:
        """The kinds of signs that it is approved for."""
        return {one.kind for one in self.approvals}


def _text(row: Row, approvals: list[Approval]) -> Text:
    return Text(
        whole(row[0]),
        str(row[1]),
        str(row[2]),
        bytes.fromhex(str(row[3])),
        whole(row[4]),
        str(row[5]),
        str(row[6]),
        time_of(row[7]),
        tuple(approvals),
    )


def listed(database: Database) -> list[Text]:
    """All, by folder and name."""
    of: dict[int, list[Approval]] = {}
    for text, kind, by, at in database.run("SELECT text, kind, approved_by, approved_at FROM approvals ORDER BY kind"):
        of.setdefault(whole(text), []).append(Approval(str(kind), str(by), time_of(at)))
    rows = database.run(f"{_TEXTS} ORDER BY texts.folder, texts.name")
    return [_text(row, of.get(whole(row[0]), [])) for row in rows]


def found(database: Database, number: int) -> Text | None:
    rows = database.run(f"{_TEXTS} WHERE texts.id = ?", number)
    if not rows:
        return None
    approvals = database.run(
        "SELECT kind, approved_by, approved_at FROM approvals WHERE text = ? ORDER BY kind", number
    )
    return _text(rows[0], [Approval(str(kind), str(by), time_of(at)) for kind, by, at in approvals])


def kinds_of(database: Database, text: bytes) -> set[str]:
    """The kinds of signs that this very text is approved for, under whatever name."""
    return set(
        texts(
            database.run(
                "SELECT DISTINCT kind FROM approvals JOIN texts ON texts.id = approvals.text WHERE texts.text = ?",
                text.hex(),
            )
        )
    )


def add(database: Database, written: Written, who: str) -> int:
    """A new text, approved for nothing yet: its number."""
    held = written.checked(rules.words(database))
    try:
        with database.transaction():
            rows = database.run(
                "INSERT INTO texts (folder, name, text, purpose, written_by, written_at)"
                " VALUES (?, ?, ?, ?, ?, {clock}) RETURNING id",
                held.folder,
                held.name,
                held.text.hex(),
                held.purpose,
                who,
            )
            note(database, who, f"library: {_called(held)} is written: {held.text.decode('latin-1')!r}")
            return whole(rows[0][0])
    except Taken:
        raise Refusal("there is a text of this name in the folder already, or no such purpose") from None


def change(
    database: Database, number: int, written: Written, who: str, may_approve: bool, shown: str | None = None
) -> None:
    """Writes a text anew, as somebody has seen it where that is said, which ends its approvals; an approved one is
    changed by who may approve alone."""
    held = written.checked(rules.words(database))
    try:
        with database.transaction(is_alone=True):
            _let(database, number, may_approve, shown)
            database.run("DELETE FROM approvals WHERE text = ?", number)
            database.run(
                "UPDATE texts SET folder = ?, name = ?, text = ?, purpose = ?, written_by = ?, written_at = {clock}"
                " WHERE id = ?",
                held.folder,
                held.name,
                held.text.hex(),
                held.purpose,
                who,
                number,
            )
            note(database, who, f"library: {_called(held)} is written anew: {held.text.decode('latin-1')!r}")
    except Taken:
        raise Refusal("there is a text of this name in the folder already, or no such purpose") from None


def remove(database: Database, number: int, who: str, may_approve: bool, shown: str | None = None) -> None:
    """Takes a text away, as somebody has seen it where that is said; an approved one by who may approve alone."""
    with database.transaction(is_alone=True):
        text = _let(database, number, may_approve, shown)
        database.run("DELETE FROM approvals WHERE text = ?", number)
        database.run("DELETE FROM texts WHERE id = ?", number)
        note(database, who, f"library: {text.called} is removed")


def _let(database: Database, number: int, may_approve: bool, shown: str | None) -> Text:
    """The text, for who may change it, and has seen it as it is."""
    text = found(database, number)
    if text is None:
        raise Refusal("there is no such text any more")
    if text.approvals and not may_approve:
        raise Refusal("this text is approved: an administrator changes it")
    if shown not in (None, text.shown):
        raise Refusal(_CHANGED)
    return text


def approve(database: Database, number: int, text: bytes, kind: str, who: str) -> None:
    """Approves a text, as somebody has seen it, for a kind of signs; who calls has found that it fits them."""
    rules.check(text, rules.words(database))
    with database.transaction(is_alone=True):
        held = found(database, number)
        if held is None or held.text != text:
            raise Refusal(_CHANGED)
        if database.run(
            "INSERT INTO approvals (text, kind, approved_by, approved_at) VALUES (?, ?, ?, {clock})"
            " ON CONFLICT DO NOTHING RETURNING kind",
            number,
            kind,
            who,
        ):
            note(database, who, f"library: {held.called} is approved for signs of kind {kind}")


def withdraw(database: Database, number: int, kind: str, who: str) -> None:
    """Ends an approval."""
    with database.transaction():
        if database.run("DELETE FROM approvals WHERE text = ? AND kind = ? RETURNING kind", number, kind):
            held = found(database, number)
            name = held.called if held else number
            note(database, who, f"library: {name} is no longer approved for signs of kind {kind}")


def _called(held: Written) -> str:
    return f"{held.folder} / {held.name}" if held.folder else held.name


def priority_of(database: Database, text: bytes, sign: int) -> int | None:
    """The greatest priority of the purposes of a text, as far as it is approved for the kind of a sign."""
    rows = database.run(
        "SELECT max(purposes.priority) FROM texts JOIN purposes ON purposes.id = texts.purpose"
        " JOIN approvals ON approvals.text = texts.id JOIN signs ON signs.kind = approvals.kind"
        " WHERE texts.text = ? AND signs.id = ?",
        text.hex(),
        sign,
    )
    return whole_or_none(rows[0][0])
