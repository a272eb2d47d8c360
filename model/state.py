"""What a sign holds, and its rows: their names, what they are asked, the end of their validation."""

import copy
from dataclasses import dataclass, replace

from . import layout
from .codes import BLANK, BLANK_1, CHANGEABLE, CURRENT, NOBODY, PERMANENT, VOLATILE, MessageId, checksum
from .description import ERROR, MODIFYING, VALID, VALIDATING, Description, Row

MODIFY, VALIDATE, NOT_USE = 6, 7, 8
CENTRAL, POWER_RECOVERY, COMMUNICATIONS_LOSS, POWER_LOSS, END_DURATION = 8, 10, 12, 13, 14
NONE = 2


@dataclass(frozen=True)
class Shown:
    """What is shown, as it was activated; the defaults are those of then."""

    text: bytes
    owner: bytes
    beacon: int
    pixel: int
    priority: int
    mode: int
    address: bytes
    remaining: int | None  # seconds; None: no end
    source: MessageId
    defaults: tuple[int, ...]

    def crc(self) -> int:
        """Its checksum, 0 where it is blank."""
        return 0 if self.source.memory == BLANK else checksum(self.text, self.beacon, self.pixel)


class State:
    """All that a sign holds. What it shows, reads and is told work on it (Showing, Objects, Changes)."""

    def __init__(self, described: Description) -> None:
        self.described, self.face = described, described.face
        self.reader, self.writer, self.swapped = described.reader, described.writer, described.swapped
        self.defaults = list(self.face.defaults)
        self.rows = {
            PERMANENT: [replace(row, status=VALID) for row in described.permanent],
            CHANGEABLE: [Row() for _ in range(described.changeable)],
            VOLATILE: [Row() for _ in range(described.volatile)],
        }
        blank = BLANK_1.octets(self.swapped)
        self.own = {place: blank for place in (8, 9, 12, 14, 15)}
        self.short_loss = self.silence_limit = self.silence = 0
        self.verdict, self.activate_error = NONE, NONE
        self.syntax, self.syntax_at = NONE, 0
        self.last_code = self.refused_code = bytes(12)
        self.power = True
        self.shown = self.kept = self.blank_shown(BLANK_1, POWER_RECOVERY)

    def copied(self) -> "State":
        """As it is now: what a request may change is another's. Nobody changes what is shown once it is made."""
        made = copy.copy(self)
        made.rows = {memory: [replace(row) for row in rows] for memory, rows in self.rows.items()}
        made.defaults, made.own = [*self.defaults], {**self.own}
        return made

    def put_back(self, before: "State") -> None:
        """As it was."""
        self.__dict__ |= before.__dict__

    def row(self, memory: int, number: int) -> Row | None:
        """The row of this name, blank ones and what is shown too; None where there is none."""
        if memory == BLANK and 1 <= number <= 255:
            return Row(priority=number, status=VALID)
        if memory == CURRENT and number == 1:
            shown = self.shown
            return Row(shown.text, shown.owner, shown.beacon, shown.pixel, shown.priority, VALID)
        if memory in self.rows and 1 <= number <= len(self.rows[memory]):
            return self.rows[memory][number - 1]
        return None

    def known_row(self, memory: int, number: int) -> Row:
        """The row of this name, which there is."""
        row = self.row(memory, number)
        assert row is not None
        return row

    def blank_shown(self, source: MessageId, mode: int) -> Shown:
        """A blank message, activated so."""
        return Shown(b"", b"", 0, 0, 1, mode, NOBODY, None, source, tuple(self.defaults))

    def is_validating(self) -> bool:
        """Whether a row is being validated."""
        return any(row.status == VALIDATING for rows in self.rows.values() for row in rows)

    def ask(self, memory: int, number: int, asked: int) -> bool:
        """Whether the table takes what a row is asked; then it has done it."""
        row = self.known_row(memory, number)
        if asked == MODIFY and row.status != VALIDATING:
            row.status = MODIFYING
        elif asked == NOT_USE and row.status != VALIDATING:
            self.rows[memory][number - 1] = Row()
        elif asked == VALIDATE and row.status in (MODIFYING, VALID, ERROR) and not self.is_validating():
            row.status = VALIDATING
        else:
            return False
        return True

    def settle(self) -> None:
        """The row that is being validated is valid or in error."""
        for rows in self.rows.values():
            for row in rows:
                if row.status == VALIDATING:
                    _, fault = layout.laid_out(self.face, self.defaults, row.text)
                    if row.beacon and not self.described.beacons:
                        self.verdict, fault = 3, None
                    elif row.pixel and not self.described.pixels:
                        self.verdict, fault = 4, None
                    else:
                        self.verdict = 5 if fault else NONE
                    self.syntax, self.syntax_at = fault or (NONE, 0)
                    row.status = VALID if self.verdict == NONE else ERROR
