"""The objects of a sign: the names of their instances in order, and what each reads."""

import bisect

from . import wire
from .codes import BLANK, CHANGEABLE, CURRENT, NO_END, PERMANENT, VOLATILE
from .description import NOT_USED, VALID
from .state import State

DMS = (1, 3, 6, 1, 4, 1, 1206, 4, 2, 3)


class Objects:
    """The objects of a sign, each with its name, its tag and what it reads."""

    def __init__(self, state: State) -> None:
        self.state = state
        self.names = self.instances()

    def instances(self) -> list[wire.Name]:
        """All names, in order."""
        scalars = (
            [(2, 3), (2, 4)]
            + [(4, n) for n in (1, 2, 3, 4, 5, 6, 7, 8, 9, 11)]
            + [(5, n) for n in (1, 2, 3, 4, 5, 6, 7)]
        )
        after = [(5, 9)] + [(6, n) for n in (3, 4, 5, 6, 7, 8, 9, 10, 12, 13, 14, 15, 17, 18, 19, 24)]
        rows = [
            (memory, n + 1) for memory in (PERMANENT, CHANGEABLE, VOLATILE) for n in range(len(self.state.rows[memory]))
        ]
        rows += [(CURRENT, 1)] + [(BLANK, n) for n in range(1, 256)]
        cells = [(5, 8, 1, column, *row) for column in range(1, 10) for row in rows]
        found: list[wire.Name] = [DMS + (*name, 0) for name in scalars]
        return found + [DMS + cell for cell in cells] + [DMS + (*name, 0) for name in after]

    def after(self, name: wire.Name) -> wire.Name | None:
        """The first name that stands behind this one; None behind the last."""
        at = bisect.bisect_right(self.names, name)
        return self.names[at] if at < len(self.names) else None

    def value(self, name: wire.Name) -> wire.Tagged | None:
        """The value of an instance, with its tag; None where there is no such instance."""
        if name[: len(DMS)] != DMS:
            return None
        rest = name[len(DMS) :]
        if len(rest) == 6 and rest[:3] == (5, 8, 1):
            return self.cell(*rest[3:])
        if len(rest) != 3 or rest[2] != 0:
            return None
        held = self.scalars().get((rest[0], rest[1]))
        if isinstance(held, int):
            return wire.INTEGER, held
        return None if held is None else (wire.ADDRESS if rest[:2] == (6, 6) else wire.OCTETS, held)

    def scalars(self) -> dict[tuple[int, int], int | bytes]:
        """What each scalar reads, by the last two numbers of its name."""

        def count(memory: int, status: int) -> int:
            return sum(row.status == status for row in self.state.rows[memory])

        shown = self.state.shown
        remaining = NO_END if shown.remaining is None else (shown.remaining + 59) // 60
        held: dict[tuple[int, int], int | bytes]
        held = {
            (2, 3): self.state.face.height,
            (2, 4): self.state.face.width,
            (4, 11): 3,
            (5, 1): len(self.state.rows[PERMANENT]),
            (5, 2): count(CHANGEABLE, VALID),
            (5, 3): len(self.state.rows[CHANGEABLE]),
            (5, 4): 512 * count(CHANGEABLE, NOT_USED),
            (5, 5): count(VOLATILE, VALID),
            (5, 6): len(self.state.rows[VOLATILE]),
            (5, 7): 512 * count(VOLATILE, NOT_USED),
            (5, 9): self.state.verdict,
            (6, 3): self.state.last_code,
            (6, 4): remaining,
            (6, 5): shown.source.octets(self.state.swapped),
            (6, 6): shown.address,
            (6, 7): shown.mode,
            (6, 10): self.state.short_loss,
            (6, 13): self.state.silence_limit,
            (6, 17): self.state.activate_error,
            (6, 18): self.state.syntax,
            (6, 19): self.state.syntax_at,
            (6, 24): self.state.refused_code,
        }
        held |= {(4, n): self.state.defaults[n - 1] for n in range(1, 10)}
        return held | {(6, place): code for place, code in self.state.own.items()}

    def cell(self, column: int, memory: int, number: int) -> wire.Tagged | None:
        """What a cell of the message table reads; None where there is none."""
        row = self.state.row(memory, number)
        if row is None or not 1 <= column <= 9:
            return None
        crc = row.crc()
        if memory in (CURRENT, BLANK):
            crc = self.state.shown.crc() if memory == CURRENT else 0
        if self.state.swapped:
            crc = int.from_bytes(crc.to_bytes(2, "little"), "big")
        held = (memory, number, row.text, row.owner, crc, row.beacon, row.pixel, row.priority, row.status)[column - 1]
        return (wire.INTEGER, held) if isinstance(held, int) else (wire.OCTETS, held)
