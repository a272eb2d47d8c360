"""What a sign shows: activations, seconds, losses of power."""

from dataclasses import replace

from . import layout
from .codes import BLANK, BLANK_1, CHANGEABLE, CURRENT, NO_END, NOBODY, PERMANENT, VOLATILE, Activation, MessageId
from .description import MODIFYING, VALID, VALIDATING, Row
from .multi import Fault
from .state import COMMUNICATIONS_LOSS, END_DURATION, POWER_LOSS, POWER_RECOVERY, Shown, State


class Showing:
    """What a sign shows, and what changes that: activations, seconds, and losses of power."""

    def __init__(self, state: State) -> None:
        self.state = state

    def cause(self, code: Activation, shown: Shown) -> tuple[int | None, Fault | None]:
        """Why an activation is refused, with the fault of a text; (None, None) where it is accepted."""
        named = code.id
        if named.memory not in (PERMANENT, CHANGEABLE, VOLATILE, CURRENT, BLANK):
            return 5, None
        row = self.state.row(named.memory, named.number)
        if row is None:
            return 6, None
        if row.status != VALID:
            return 4, None
        if named.memory != BLANK:
            crc = shown.crc() if named.memory == CURRENT else row.crc()
            if named.crc != crc:
                return 7, None
        if code.priority < shown.priority:
            return 3, None
        if named.memory != CURRENT:
            _, fault = layout.laid_out(self.state.face, self.state.defaults, row.text)
            if fault:
                return 8, fault
        return None, None

    def put_up(self, code: Activation, mode: int) -> Shown:
        """What is shown once the code is accepted."""
        remaining = None if code.minutes == NO_END else code.minutes * 60
        if code.id.memory == CURRENT:
            return replace(self.state.shown, mode=mode, address=code.address, remaining=remaining)
        row = self.state.known_row(code.id.memory, code.id.number)
        return Shown(
            row.text,
            row.owner,
            row.beacon,
            row.pixel,
            row.priority,
            mode,
            code.address,
            remaining,
            code.id,
            tuple(self.state.defaults),
        )

    def refuse(self, code: Activation, cause: int, fault: Fault | None) -> None:
        """Keeps why an activation was refused."""
        self.state.activate_error, self.state.refused_code = cause, code.octets(self.state.swapped)
        if fault:
            self.state.syntax, self.state.syntax_at = fault

    def activate_own(self, place: int, mode: int, kept: Shown | None = None) -> None:
        """A code that the sign activates itself."""
        octets = self.state.own[place]
        if octets[0] == CURRENT:
            self.state.shown = replace(kept or self.state.shown, mode=mode, remaining=None)
            return
        code = Activation(NO_END, 255, MessageId.of(octets, self.state.swapped), NOBODY)
        cause, fault = self.cause(code, self.state.shown)
        if cause is None:
            self.state.shown = self.put_up(code, mode)
        else:
            self.refuse(code, cause, fault)
            self.state.shown = self.state.blank_shown(BLANK_1, mode)

    # --- events ---------------------------------------------------------------------------------------------------

    def tick(self) -> None:
        """A second passes."""
        if not self.state.power:
            return
        self.state.settle()
        if self.state.shown.remaining is not None:
            if self.state.shown.remaining <= 1:
                self.activate_own(15, END_DURATION)
            else:
                self.state.shown = replace(self.state.shown, remaining=self.state.shown.remaining - 1)
        limit = 60 * self.state.silence_limit
        if self.state.silence < limit:
            self.state.silence += 1
            if self.state.silence == limit:
                self.activate_own(12, COMMUNICATIONS_LOSS)

    def ticks(self, seconds: int) -> None:
        """So many seconds; where one leaves all as it is, so do those after it."""
        for _ in range(seconds):
            before = (self.state.shown, self.state.silence, self.state.is_validating())
            self.tick()
            if before == (self.state.shown, self.state.silence, False):
                return

    def heard(self) -> None:
        """What a Get that is answered leaves."""
        if self.state.power:
            self.state.silence = 0

    def power_lost(self) -> None:
        """The power is gone: what is shown is kept, and what is to be shown without it is activated."""
        if self.state.power:
            self.state.kept = self.state.shown
            self.activate_own(14, POWER_LOSS)
            self.state.power = False

    def power_back(self, seconds: int) -> None:
        """The power is back after so many seconds."""
        if self.state.power:
            return
        self.state.rows[VOLATILE] = [Row() for _ in self.state.rows[VOLATILE]]
        for row in self.state.rows[CHANGEABLE]:
            if row.status == VALIDATING:
                row.status = MODIFYING
        self.state.silence, self.state.power = 0, True
        is_short = self.state.short_loss > 0 and seconds <= self.state.short_loss
        self.activate_own(8 if is_short else 9, POWER_RECOVERY, self.state.kept)
