"""Hostile requests to a live sign that has objects beside its own: each answer is the model's, and so are the objects
that were set and the whole walk at the end."""

import functools
import random

from model import coprocess, text, wire
from model.agent import Agent
from wisangub.process.coprocess import CoProcess

from .. import agents

_MOST_TOLD = 10


class Exchange:
    """A co-process with so many objects, and the model of it, which is handed the same lines."""

    def __init__(self, program: str, seed: int, size: int) -> None:
        self.process, self.model = CoProcess(program, ["sign"]), Agent(text.bench())
        self.answer = functools.partial(coprocess.sign_answer, self.model)
        self.is_known, self.failed = agents.knows(self.process, "objects"), 0
        has_fonts = self.is_known and agents.has_fonts(self.process, size)
        if has_fonts:
            self.model.show_fonts()
        self.firmware = agents.Firmware(random.Random(seed + size), has_fonts)
        self.requests = agents.Requests(seed + size, self.firmware)
        if self.is_known:
            for line in self.firmware.published(size):
                self.send(line)

    def send(self, line: str) -> str:
        """The last line of the answer, which has to be the model's."""
        found, wanted = self.process.send(line), coprocess.answered(self.answer, line.encode())
        if found != wanted:
            self.failed += 1
            if self.failed <= _MOST_TOLD:
                print(f"{line[:300]}: {found}, the model {wanted}")
        return found[-1]

    def run(self, count: int) -> bool:
        """So many requests, and the whole walk: whether all was as in the model."""
        answered = sum(
            self.send(f"datagram {self.requests.datagram().hex() or '-'}") != "dropped" for _ in range(count)
        )
        self.send("objects")
        name: wire.Name | None = (0, 0)
        steps = 0
        while name is not None:
            asked = wire.Message(wire.GET_NEXT, b"public", 1, bindings=[(name, (wire.NULL, b""))])
            self.send(f"datagram {wire.written(asked).hex()}")
            steps, name = steps + 1, self.model.objects.after(name)
        print(f"{count} hostile requests to a sign with objects, {answered} answers, and a walk of {steps} steps")
        self.end()
        return self.failed == 0

    def end(self) -> None:
        """No more lines come."""
        self.process.end()
