"""A sign that is driven: a centre's co-process where the sign's lines left it, a socket, and the next line's number."""

import dataclasses
import socket
import time
from dataclasses import dataclass
from typing import Sequence

from wisangub.endpoint.centre_front_end import COMMANDS
from wisangub.endpoint.commands import MOST_LINE
from wisangub.endpoint.endings import is_in_error
from wisangub.endpoint.records import Head
from wisangub.endpoint.sockets import connected, received, sent
from wisangub.endpoint.texts import ended
from wisangub.process import description
from wisangub.process.coprocess import CoProcess
from wisangub.process.leaving import Leaving
from wisangub.refusal import Refusal, reason
from wisangub.room.fleet import Sign
from wisangub.room.output import LOG
from wisangub.room.store.commands import Command
from wisangub.room.store.lines import Journal, Line, News, above
from wisangub.room.store.store import Store
from wisangub.snmp.mib import Mib

from .steps import Steps

MOST_LINES = 1000  # of a centre; one that is idle after more gives way to a new one
_MOST_LATE = 1000  # datagrams that came while no job was under way and are let go at once
PACE = 0.01  # seconds from one line of a sign to the next at least: python/wisangub/room/store/backup.py counts on it
CHANGED = "failed: the sign's description changed while it was under way"
RESTORED = (
    "unknown: the sign's numbers began anew, since the database was restored from a copy or the sign has an"
    " address that another one had, while it was under way"
)


class Lost(Exception):
    """The line's number is taken: another worker drives this sign."""


@dataclass(frozen=True)
class Left:
    """Where a sign's lines left it: those of its last centre, and the command that was under way, with its line's
    number. What is begun is asked for after the lines, so that one whose line is not among them is seen to be newer."""

    journal: Journal
    begun: tuple[Command, int] | None

    @staticmethod
    def of(store: Store, signs: Sequence[int]) -> "dict[int, Left]":
        """Of many signs."""
        journals = store.lines.of_all(signs)
        begun = store.commands.begun_of(signs)
        return {sign: Left(journal, begun.get(sign)) for sign, journal in journals.items()}


def is_command(line: str) -> bool:
    """Whether it is one line, and begins as a command of a centre does; the centre judges the rest."""
    is_plain = line.isascii() and not set(line) & {"\n", "\r", "\0"}
    return is_plain and line.split(" ")[0] in COMMANDS and len(line) <= MOST_LINE


class Session:
    """From a lease on until there is nothing to do. Its co-process begins as it is made, beside those of others, and
    `stand` waits for it. A line is offered, inserted under its number by whoever has the session, handed over, and
    answered: python/wisangub/room/worker/carry.py has the order."""

    command: Command | None = None
    out: bytes | None = None
    is_busy = is_ticked = False
    most_lines = MOST_LINES
    in_error: Command | None = None  # that ended since the sign found its row in error

    def __init__(
        self, store: Store, sign_id: int, sign: Sign, worker: str, program: str, mib: Mib, left: "Left | None" = None
    ) -> None:
        self.store, self.sign_id, self.sign, self.mib = store, sign_id, sign, mib
        self.left = left or Left.of(store, [sign_id])[sign_id]
        self.worker, self.program = worker, program
        self.ledger: set[str] = set()
        self.steps = Steps(mib)
        self.head, begun_at, self.lines = self.centre()
        self.number, self.count = begun_at + 1 + len(self.lines), len(self.lines)
        self.process = self.started()

    def stand(self) -> News:
        """Has the co-process where the lines left it: what came of them, which is to be kept before the next line. What
        cannot be begun is closed."""
        self.ready_at = time.monotonic() + PACE
        try:
            self.process.answered_first(self.sign.name)
            self.udp_socket = connected(self.sign.host, self.sign.port)
            return self.go_on(self.lines)
        except BaseException:
            self.close()
            raise
        finally:
            self.lines = []

    # ---- a centre

    def centre(self) -> tuple[Head, int, list[bytes]]:
        """Which centre goes on, the number of the line that says so, and the lines that it was handed. The first one
        begins with the fleet's number; another description, other rules, or a database that was restored from a copy
        want another centre, above all numbers of the one before."""
        first, least, lines = self.left.journal
        head = Head("centre", self.sign.digest, max(self.sign.first, least))
        if not lines:
            return self._begun_anew(head, first, "")
        found = Head.of(lines[0])
        if found is None or found.first is None:
            raise Refusal(f"{self.sign.name}: line {first} is no beginning of a centre")
        if head._replace(first=found.first) == found and found.first >= least:
            return found, first, lines[1:]
        number = max(above(found, len(lines) - 1), self.sign.first, least)
        why = RESTORED if found.first < least else CHANGED
        return self._begun_anew(head._replace(first=number), first + len(lines), why)

    def _begun_anew(self, head: Head, number: int, why: str) -> tuple[Head, int, list[bytes]]:
        """A centre without lines; what was under way with one before it is over."""
        if not self.store.lines.replace(Line(self.sign_id, number, head.line(), is_first=True), self.worker, why):
            raise Lost
        self.left = dataclasses.replace(self.left, begun=None)
        return head, number, []

    def started(self) -> CoProcess:
        """The co-process of the head, which has not answered yet."""
        assert self.head.first is not None
        process = CoProcess(self.program, ["centre"], description.with_first(self.sign.text, self.head.first))
        try:
            process.ask_first(b"status last", self.sign.name)
        except BaseException:
            process.end()
            raise
        return process

    def go_on(self, lines: list[bytes]) -> News:
        """Where the lines left it. Nothing of it goes out; the last answer tells whether a command was refused."""
        begun = self.left.begun
        if begun is not None and begun[1] >= self.number:
            raise Lost  # it was begun after the lines were read
        self.command = begun[0] if begun else None
        self.process.replay([lines[:-1]])
        is_of_command = begun is not None and begun[1] == self.number - 1
        self.process.write(b"".join(line + b"\n" for line in (*lines[-1:], b"status")))
        answer = self.process.lines(1)[0] if lines else b""
        return self.look(answer.decode("latin-1") if is_of_command else "")

    # ---- lines

    def offer(self, is_due: bool, waiting: dict[int, Command] | None = None, is_heard: bool = True) -> Line | None:
        """The line that is next: a tick that is due, a datagram that waits, or the next command where no job is under
        way; None where there is none. After a tick a datagram that waits comes before the next one, so that a worker
        that is slow takes no reply for a silence. `waiting`: the next commands of many signs, where they were asked
        for already; `is_heard`: whether something may wait at the socket."""
        if not self.is_busy:
            return self._beginning(waiting)
        heard = received(self.udp_socket) if is_heard and (self.is_ticked or not is_due) else None
        self.is_ticked = heard is None and is_due
        if heard is not None:
            return Line(self.sign_id, self.number, b"datagram " + (heard[0].hex().encode() or b"-"))
        return Line(self.sign_id, self.number, b"tick") if is_due else None

    def _beginning(self, waiting: dict[int, Command] | None) -> Line | None:
        """The next command, or before it a new centre, above all numbers, where the lines of this one grew long."""
        command = self.store.commands.next(self.sign_id) if waiting is None else waiting.get(self.sign_id)
        while command is not None and not is_command(command.line):
            self.store.commands.end(command.id, "bad line")
            command = self.store.commands.next(self.sign_id)
        if command is None:
            return None
        if self.count >= self.most_lines:
            head = self.head._replace(first=above(self.head, self.count))
            return Line(self.sign_id, self.number, head.line(), is_first=True)
        for _ in range(_MOST_LATE):  # what comes while no job is under way answers nothing
            if received(self.udp_socket) is None:
                break
        self.command = command
        return Line(self.sign_id, self.number, command.line.encode(), command.id)

    def hand(self, line: Line) -> None:
        """Hands over a line that is in the database under its number."""
        self.ready_at = time.monotonic() + PACE
        self.number, self.count = line.number + 1, self.count + 1
        if line.command is not None:
            self.steps = Steps(self.mib)
        if line.is_first:
            head = Head.of(line.text)
            assert head is not None
            self.process.end()
            self.head, self.count, self.ledger = head, 0, set()
            self.process = self.started()
            self.process.answered_first(self.sign.name)
            self.process.write(b"status\n")
        else:
            self.process.write(line.text + b"\nstatus\n")

    def answered(self, line: Line) -> News:
        """What came of the line."""
        answer = b"" if line.is_first else self.process.lines(1)[0]
        self.out = bytes.fromhex(answer[5:].decode()) if answer.startswith(b"send ") else None
        self.steps.see(self.out)
        return self.look(answer.decode("latin-1"))

    def look(self, answer: str) -> News:
        """What is new in the ledger, and how a command ended: from the answer to a `status` that was handed over."""
        is_busy, last, *ledger = [line.decode("latin-1") for line in self.process.until(b"ok")]
        self.is_busy = is_busy == "busy"
        of = None if self.command is None else self.command.id
        news = News(self.sign_id, [line for line in ledger if line not in self.ledger], of)
        self.ledger = set(ledger)
        if self.command is not None and not self.is_busy:
            is_refused = answer.split(" ")[0] in ("refused", "bad")
            news.command = self.command.id
            news.how = answer if is_refused else ended(self.mib, last).removeprefix("last ")
            self.in_error = self.command if is_in_error(news.how) else self.in_error
            self.command = None
        return news

    def step(self) -> tuple[int, int] | None:
        """The step that the command has come to, and the command, where it is another than before."""
        step = self.steps.taken()
        return None if step is None or self.command is None else (step, self.command.id)

    def taken_in_error(self) -> Command | None:
        """The command of whose row the sign can say what is wrong, once."""
        command, self.in_error = self.in_error, None
        return command

    def send(self) -> None:
        """What goes out for the last line, to the sign."""
        octets, self.out = self.out, None
        fault = None if octets is None else sent(self.udp_socket, octets)
        if fault is not None:
            LOG.warning(f"{self.sign.name}: a request is lost: {reason(fault)}")

    def close(self, leaving: Leaving | None = None) -> None:
        """Ends the co-process, or has it leave with others. The lines stay."""
        if leaving is None:
            self.process.end()
        else:
            leaving.add(self.process)
        udp_socket: socket.socket | None = getattr(self, "udp_socket", None)
        if udp_socket is not None:
            udp_socket.close()
