"""The questions of a centre's front end to a sign, which are no part of the centre's conversation."""

from wisangub.process.description import communities_of
from wisangub.snmp.mib import Mib

from . import verdict
from .asking import once
from .log import Log
from .sockets import Address, Waiting


class Questions:
    """To the sign of a description, with its reading community."""

    def __init__(self, program: str, description: bytes | None) -> None:
        self.program, self.description = program, description
        self.reader, self.mib = communities_of(description)[0], Mib.read()
        self.names = verdict.names(self.mib)

    def verdict(self, to: Address, waiting: Waiting, number: int, line: str, log: Log | None) -> str:
        """What the sign found wrong with the row of the command `line`; nothing where it does not answer in a second.
        The Get has a request's number below 0 that no other one has."""
        values = once(to, waiting, self.reader, number, self.names, log)
        return "" if values is None else verdict.words(self.mib, values, line, self.program, self.description)
