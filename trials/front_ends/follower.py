"""The model beside a journal: what the file says, read anew here, and the sign that its lines leave."""

import pathlib
import re
import zlib
from typing import Callable

from model import text
from model.sign import Sign

from .bench import Trial
from .manager import Manager, Name

_RECORD = re.compile(rb"(.*) #([1-9][0-9]*) ([1-9][0-9]*) ([0-9a-f]{8})", re.DOTALL)


def records_of(octets: bytes, begin: int, number: int) -> tuple[list[bytes], int, int]:
    """The lines of the whole records of a journal from an octet on, the first with this number, by docs/JOURNAL.md,
    with the octet after them and the number of the next."""
    found: list[bytes] = []
    while (end := octets.find(b"\n", begin)) != -1:
        shape = _RECORD.fullmatch(octets[begin:end])
        if shape is None or int(shape[2]) != number or not 1 <= int(shape[3]) <= number:
            break
        if int(shape[4], 16) != zlib.crc32(octets[begin : end - 8]):
            break
        found.append(shape[1])
        begin, number = end + 1, number + 1
    return found, begin, number


def lines_of(octets: bytes) -> list[bytes]:
    """The lines of all whole records of a journal."""
    return records_of(octets, 0, 1)[0]


class Follower:
    """The model of a sign that is handed what its journal has, as it grows; and what was asked of the sign
    meanwhile."""

    def __init__(self, path: pathlib.Path, description: bytes | None = None) -> None:
        self.path = path
        self.sign = Sign(text.bench() if description is None else text.described(description))
        self.names: list[Name] = self.sign.objects.names
        self.seen, self.number = b"", 1  # the whole records that were looked at, and the number of the next
        self.asked: list[tuple[bytes, bool]] = []  # datagrams that are no Gets, and whether each was answered
        self.at = 0  # of these, how many the journal has or will never have

    def ask(self, manager: Manager, many: list[bytes], patience: float) -> list[bytes | None]:
        """Asks a sign, all at once, and remembers it."""
        replies = manager.exchange_all(many, patience)
        self.asked += [(octets, reply is not None) for octets, reply in zip(many, replies)]
        return replies

    def surely(self, manager: Manager, octets: bytes, is_over: Callable[[], bool]) -> bool:
        """Asks a sign that may not answer, and remembers it: whether it did."""
        is_answered = manager.surely(octets, is_over) is not None
        self.asked.append((octets, is_answered))
        return is_answered

    def catch_up(self, trial: Trial, name: str) -> None:
        """The file still begins as it did; what was answered is in it, in its order; nothing is in it that was not
        asked. The model is handed what is new."""
        octets = self.path.read_bytes()
        trial.holds(f"{name}: the journal begins as it did", octets.startswith(self.seen), self.path)
        new, end, self.number = records_of(octets, len(self.seen), self.number)
        self.seen = octets[:end]
        self.follow(trial, name, new)
        for octets, is_answered in self.asked[self.at :]:
            trial.holds(f"{name}: what was answered is in the journal", not is_answered, octets.hex())
        self.at = len(self.asked)

    def follow(self, trial: Trial, name: str, new: list[bytes]) -> None:
        """Nothing is in these lines that was not asked. The model is handed them."""
        wanted = [bytes.fromhex(line[9:].decode()) for line in new if line.startswith(b"datagram ")]
        for octets in wanted:
            while self.at < len(self.asked) and self.asked[self.at][0] != octets:
                trial.holds(
                    f"{name}: what was answered is in the journal",
                    not self.asked[self.at][1],
                    self.asked[self.at][0].hex(),
                )
                self.at += 1
            if not trial.holds(f"{name}: what is in the journal was asked", self.at < len(self.asked), octets.hex()):
                break
            self.at += 1
        for line in new:
            self.take(line)

    def take(self, line: bytes) -> None:
        """What a line leaves."""
        word, _, rest = line.partition(b" ")
        if word == b"datagram":
            self.sign.receive(b"" if rest == b"-" else bytes.fromhex(rest.decode()))
        elif word == b"ticks":
            self.sign.showing.ticks(int(rest))
        elif word == b"tick":
            self.sign.tick()
        elif word == b"heard":
            self.sign.showing.heard()
        elif word == b"power-lost":
            self.sign.showing.power_lost()
        elif word == b"power-back":
            self.sign.showing.power_back(int(rest))
        else:
            assert word in (b"journal", b"start", b"clock"), line

    def compare(self, trial: Trial, name: str, manager: Manager) -> None:
        """The sign has the value that the model has, of each instance."""
        found = manager.values(self.names)
        wanted = {one: self.sign.objects.value(one) for one in self.names}
        other = [
            (".".join(map(str, one)), found.get(one), wanted[one])
            for one in self.names
            if found.get(one) != wanted[one]
        ]
        trial.holds(f"{name}: the whole walk is the model's", not other, other[:5])
