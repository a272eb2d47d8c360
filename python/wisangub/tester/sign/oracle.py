"""The oracle: our own sign, which is the program as a co-process, or what answers the same lines in its place."""

import os
from typing import Protocol

from wisangub.process.coprocess import CoProcess
from wisangub.process.places import TOP
from wisangub.refusal import Refusal

from .described import Bad, ended

_MODEL = TOP / "model/signtool"  # what `model` stands for


class Oracle(Protocol):
    """A sign that is asked in octets, and that may be begun anew."""

    def restart(self) -> None:
        """The sign as it is made."""

    def datagram(self, octets: bytes) -> bytes | None:
        """The reply, or None where nothing is sent."""

    def tick(self) -> None:
        """A second passes."""

    def power(self, seconds: int) -> None:
        """The power is lost, and back after so many seconds."""

    def end(self) -> None:
        """It is needed no more."""


class CoProcessOracle:
    """The program `signtool sign --sign`, spoken to line by line. Raises Bad where it makes no sign of the description,
    and Refusal where it ends or does not answer as signtool does."""

    def __init__(self, program: str, description: bytes) -> None:
        self._program = program
        self._description, wrong = ended(description)
        self._process: CoProcess | None = None
        self.restart()
        if wrong:
            self.end()
            raise Bad(wrong)

    def restart(self) -> None:
        self.end()
        self._process = CoProcess(self._program, ["sign"], self._description)
        try:
            self._process.write(self._description + b"state\n")
            first = self._process.lines(1)[0]
        except Refusal as fault:
            self.end()
            raise Refusal(f"{self._program} does not answer as signtool does: {fault}") from None
        if not first.startswith(b"shown "):
            self.end()
            raise Bad(first.decode("latin-1"))
        self._process.lines(1)

    def lines(self, line: bytes) -> list[bytes]:
        """The whole answer to a line."""
        assert self._process is not None
        return self._process.ask(line)

    def datagram(self, octets: bytes) -> bytes | None:
        words = self.lines(b"datagram " + (octets.hex().encode() or b"-"))[-1].split()
        if words[0] == b"dropped":
            return None
        if words[0] not in (b"reply", b"accepted"):
            raise Refusal(f"the program {self._program} answered {words!r}")
        return bytes.fromhex(words[-1].decode())

    def tick(self) -> None:
        self.lines(b"tick")

    def power(self, seconds: int) -> None:
        self.lines(b"power-lost")
        self.lines(b"power-back %d" % seconds)

    def end(self) -> None:
        if self._process is not None:
            self._process.end()
        self._process = None


def program_of(named: str) -> str:
    """Where the program of this name is; "model" stands for model/signtool. Raises FileNotFoundError."""
    program = str(_MODEL) if named == "model" else named
    if not os.access(program, os.X_OK):
        raise FileNotFoundError(f"no program at {program}: tools/build.py builds it; --signtool model does without")
    return program


def made(named: str, description: bytes) -> CoProcessOracle:
    """The oracle of this program; "model" stands for the model as a co-process."""
    return CoProcessOracle(program_of(named), description)
