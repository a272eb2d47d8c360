"""What a SET writes to a sign, and what it commands."""

from collections.abc import Callable
from dataclasses import replace
from typing import Any

from . import wire
from .codes import CHANGEABLE, NO_END, VOLATILE, Activation
from .description import MODIFYING
from .objects import DMS, Objects
from .showing import Showing
from .state import CENTRAL, END_DURATION, NONE, State

Change = tuple[str, Any, Any]  # the kind of what is written, where it goes, and what it is
_Commanded = tuple[int, Change]  # the binding that commands, and what
Answer = tuple[int, int, Activation | None]  # the error-status, the index, and the activation that was accepted


class Refused(Exception):
    """A SET is refused: the error-status at this binding."""

    def __init__(self, status: int) -> None:
        super().__init__(status)
        self.status = status


class Changes:
    """What the bindings of a SET write, command, and are refused with."""

    def __init__(self, state: State, showing: Showing, objects: Objects) -> None:
        self.state, self.showing, self.objects = state, showing, objects

    def change(self, name: wire.Name, value: wire.Tagged, is_writer: bool) -> Change:
        """What a binding writes: (kind, ..) with its range looked at; raises what it is refused with."""
        tag, held = value
        rest = name[len(DMS) :] if name[: len(DMS)] == DMS else ()
        if not is_writer or self.objects.value(name) is None:
            raise Refused(wire.NO_SUCH_NAME)

        def number(least: int, most: int) -> int:
            if tag != wire.INTEGER or not least <= held <= most:
                raise Refused(wire.BAD_VALUE)
            return int(held)

        def octets(least: int, most: int) -> bytes:
            if tag != wire.OCTETS or not least <= len(held) <= most:
                raise Refused(wire.BAD_VALUE)
            return bytes(held)

        if len(rest) == 6:
            column, memory, row = rest[3], rest[4], rest[5]
            if memory not in (CHANGEABLE, VOLATILE) or column in (1, 2, 5):
                raise Refused(wire.NO_SUCH_NAME)
            if column == 9:
                return "command", "status", (memory, row, number(6, 8))
            read: dict[int, Callable[[], int | bytes]] = {
                3: lambda: octets(0, 512),
                4: lambda: octets(0, 127),
                6: lambda: number(0, 1),
                7: lambda: number(0, 1),
                8: lambda: number(1, 255),
            }
            return (
                "field",
                {3: "text", 4: "owner", 6: "beacon", 7: "pixel", 8: "priority"}[column],
                (memory, row, read[column]()),
            )
        place = rest[:2]
        if place[0] == 4 and place[1] <= 9:
            least, most = {1: (0, 9), 2: (0, 9), 5: (1, 255), 6: (2, 4), 7: (2, 4)}.get(place[1], (0, 255))
            written = number(least, most)
            if place[1] == 5 and self.state.face.font(written) is None:
                raise Refused(wire.BAD_VALUE)
            return "default", place[1] - 1, written
        if place == (6, 3):
            return "command", "activate", octets(12, 12)
        if place == (6, 4):
            return "command", "remaining", number(0, 65535)
        if place in ((6, 10), (6, 13)):
            return "number", "short_loss" if place[1] == 10 else "silence_limit", number(0, 65535)
        if place[0] == 6 and place[1] in self.state.own:
            return "own", place[1], octets(5, 5)
        raise Refused(wire.NO_SUCH_NAME)

    def set(self, message: wire.Message) -> Answer:
        """Writes what the bindings ask for: all of it, or nothing."""
        changes: list[Change] = []
        command: _Commanded | None = None
        for at, (name, value) in enumerate(message.bindings, 1):
            try:
                change = self.change(name, value, message.community == self.state.writer)
                if name in (earlier for earlier, _ in message.bindings[: at - 1]):
                    raise Refused(wire.GENERAL)
                if change[0] == "command":
                    if command is not None:
                        raise Refused(wire.GENERAL)
                    command = (at, change)
                elif change[0] == "field" and self.state.known_row(*change[2][:2]).status != MODIFYING:
                    raise Refused(wire.GENERAL)
            except Refused as refused:
                return refused.status, at, None
            changes.append(change)
        before = self.state.copied()
        self.assign(changes)
        return self.carry_out(command, before)

    def assign(self, changes: list[Change]) -> None:
        """Writes the fields of rows, the defaults, the times and the codes."""
        for kind, what, held in changes:
            if kind == "field":
                setattr(self.state.row(*held[:2]), what, held[2])
            elif kind == "default":
                self.state.defaults[what] = held
            elif kind == "number":
                setattr(self.state, what, held)
            elif kind == "own":
                self.state.own[what] = held

    def carry_out(self, command: _Commanded | None, before: State) -> Answer:
        """Does what is commanded; where that is refused, the sign is as before."""
        if command is None:
            return wire.NO_ERROR, 0, None
        at, (_, what, held) = command
        if what == "status":
            if not self.state.ask(*held):
                self.state.put_back(before)
                return wire.GENERAL, at, None
        elif what == "remaining":
            if held:
                self.state.shown = replace(self.state.shown, remaining=None if held == NO_END else 60 * held)
            else:
                self.showing.activate_own(15, END_DURATION)
        else:
            code = Activation.of(held, self.state.swapped)
            cause, fault = self.showing.cause(code, self.state.shown)
            if cause is not None:
                self.state.put_back(before)
                self.showing.refuse(code, cause, fault)
                return wire.GENERAL, at, None
            self.state.shown = self.showing.put_up(code, CENTRAL)
            self.state.activate_error, self.state.last_code = NONE, held
            return wire.NO_ERROR, 0, code
        return wire.NO_ERROR, 0, None
