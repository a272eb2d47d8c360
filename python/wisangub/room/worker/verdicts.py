"""What signs found wrong with messages: each is asked after a command of it ended with its row in error."""

from collections import deque
from functools import partial

from wisangub.endpoint import verdict
from wisangub.endpoint.asking import Values
from wisangub.room.fleet import Sign
from wisangub.room.store.commands import Command
from wisangub.room.store.store import Store
from wisangub.snmp.mib import Mib

from .gets import Gets


class Verdicts:
    """The Gets for what was found, one of a sign at a time."""

    def __init__(self, store: Store, signs: dict[int, Sign], gets: Gets, mib: Mib, program: str) -> None:
        self.store, self.signs, self.gets, self.mib, self.program = store, signs, gets, mib, program
        self.asked = verdict.names(mib)
        self.wanted: deque[tuple[int, Command]] = deque()  # by the worker, whose thread may be another one
        self.to_ask: list[tuple[int, Command]] = []
        self.said: list[tuple[int, str]] = []

    def want(self, sign_id: int, command: Command | None) -> None:
        """Has the sign asked, where a command of it ended so."""
        if command is not None:
            self.wanted.append((sign_id, command))

    def begin(self) -> None:
        """Sends a Get to each sign that is to be asked; a sign that is no more is let be."""
        while self.wanted:
            self.to_ask.append(self.wanted.popleft())
        if not self.to_ask:
            return
        first = dict(reversed(self.to_ask))
        numbers = self.store.readings.numbers([sign_id for sign_id in first if sign_id in self.signs])
        self.to_ask = [
            (sign_id, command) for sign_id, command in self.to_ask if command != first[sign_id] and sign_id in numbers
        ]
        for sign_id, number in numbers.items():
            if (sign := self.signs.get(sign_id)) is not None:
                self.gets.begin(sign, number, self.asked, partial(self.end, sign, first[sign_id]))

    def end(self, sign: Sign, command: Command, values: Values | str) -> None:
        """What came of it; where the sign said nothing, nothing is said."""
        words = (
            "" if isinstance(values, str) else verdict.words(self.mib, values, command.line, self.program, sign.text)
        )
        if words:
            self.said.append((command.id, words))

    def keep(self) -> None:
        """Puts what was said since the last time into the database."""
        said, self.said = self.said, []
        self.store.commands.because(said)
