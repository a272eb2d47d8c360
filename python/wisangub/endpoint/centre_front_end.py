"""A centre behind a UDP socket: an operator's commands, each carried out until the centre is idle."""

import math
import socket
import time
from typing import Iterable

from wisangub.output import LOG
from wisangub.process.coprocess import CoProcess
from wisangub.refusal import Refusal, reason
from wisangub.snmp import wire
from wisangub.snmp.mib import Mib

from . import endings
from .files import NotKept
from .journal import Journal
from .log import Log
from .printing import MOMENT, PRINTED
from .questions import Questions
from .shortening import Shortening, Synced
from .sockets import Address, Strays, Waiting, named, received, sent
from .texts import ended, published

COMMANDS = ("publish", "blank", "activate")
_MOST_LATE = 1000  # datagrams that are let go at once


def last_command(chunks: Iterable[list[bytes]]) -> str:
    """The last command of a journal's lines: the one that is under way where a centre is busy at a start."""
    found = b""
    for lines in chunks:
        found = next((line for line in reversed(lines) if line.split(b" ")[0].decode("latin-1") in COMMANDS), found)
    return found.decode("latin-1")


class CentreFrontEnd:
    """`tick` is the time from tick to tick, `wait` how long a command may take, in seconds. `questions` are those to a
    sign that found a row in error. A journal is shortened where there is one."""

    def __init__(
        self,
        centre: CoProcess,
        udp_socket: socket.socket,
        journal: Journal | None,
        log: Log | None,
        tick: float,
        wait: float,
        questions: Questions | None = None,
        shortening: Shortening | None = None,
    ) -> None:
        self.centre, self.udp_socket, self.journal, self.log = centre, udp_socket, journal, log
        self.every, self.wait, self.mib = tick, wait, Mib.read()
        self.to: Address = udp_socket.getpeername()
        self.waiting, self.questions, self.shortening = Waiting(), questions, shortening
        self.strays = Strays(udp_socket)
        self.line, self.heard = "", b""  # the last command, and the last datagram that was handed over
        self.is_busy = self.has_job()

    def status(self) -> list[str]:
        """Whether it is busy, how the last job ended, and the ledger."""
        return [line.decode("latin-1") for line in self.centre.ask(b"status")[:-1]]

    def has_job(self) -> bool:
        """Whether a job is under way; the ledger, which grows, is not asked for."""
        return self.centre.ask(b"status last")[0] == b"busy"

    def turn(self) -> float:
        """Between two lines the journal is shortened, where it is long or that is asked for: each line before is handed
        over, and what goes out with it was sent. The seconds that it took, in which nothing is heard. What was printed
        and not taken is taken, or waits on."""
        PRINTED.turn()
        begun = time.monotonic()
        if self.shortening and self.journal:
            self.shortening.turn(self.centre, Synced(self.journal))
        return time.monotonic() - begun

    def hand(self, line: bytes) -> bytes:
        """Records a line, hands it over, and sends what goes out: the answer. A centre that sends is busy."""
        if self.journal:
            self.journal.keep([line])
        answer = self.centre.hand([line])[0]
        self.is_busy = answer.startswith(b"send ")
        if self.is_busy:
            self.send(bytes.fromhex(answer[5:].decode()))
        else:
            self.is_busy = self.has_job()
        return answer

    def send(self, octets: bytes) -> None:
        """Sends a datagram."""
        fault = sent(self.udp_socket, octets)
        if fault is not None:
            LOG.info(f"a request is lost: {reason(fault)}")
        if self.log:
            self.log.datagram("out", self.to, octets)

    def carry_on(self, wait: float) -> bool:
        """Hands over ticks and replies until the centre is idle; False where that takes longer, or it is stopped."""
        begun = time.monotonic()
        ends, due = begun + wait, begun + self.every
        while self.is_busy:
            due += self.turn()
            now = time.monotonic()
            if now >= ends or self.waiting.is_stopped:
                return False
            try:
                due = self.step(now, due, ends)
            except NotKept:
                due = max(due, time.monotonic() + self.every)
        return True

    def step(self, now: float, due: float, ends: float) -> float:
        """A tick that is due, or a reply: when the next tick is due."""
        if now >= due:
            self.hand(b"tick")
            return due + self.every
        self.waiting.until(
            [self.udp_socket.fileno(), self.strays.socket.fileno()],
            min(due - now, ends - now, PRINTED.pause or math.inf),
        )
        self.log_strays()
        heard = received(self.udp_socket)
        if heard is not None:
            if self.log:
                self.log.datagram("in", self.to, heard[0])
            self.hand(b"datagram " + (heard[0].hex().encode() or b"-"))
            self.heard = heard[0]
        return due

    def log_strays(self) -> None:
        """Says of replies from elsewhere that they came: the centre takes what its sign's address sends alone."""
        for sender in self.strays.senders():
            where = f"{named(sender)}, and not from {named(self.to)}: it is not taken"
            LOG.info(f"a reply came from {where}; is the sign behind an address translation?")
            if self.log:
                self.log.event("from elsewhere", sender)

    def finish(self, before: list[str], wait: float) -> bool:
        """Carries on, and prints how the job ended with the ledger's lines that are new: whether it was accepted."""
        is_done = self.carry_on(wait)
        if not is_done:
            why = "stopped" if self.waiting.is_stopped else f"given up after {wait:g} seconds"
            PRINTED.print(f"{why}: the job is not done")
        now, known = self.status(), set(before[2:])
        self.show([*now[:2], *(line for line in now[2:] if line not in known)])
        if is_done:
            self.explain(now[1])
        return is_done and now[1] == "last accepted"

    def explain(self, how: str) -> None:
        """Says of a job that failed at which step that was, and what the sign says of a row in error. The reply that
        ended the job has the number of the job's last request."""
        said, ending = "", wire.spelled(self.heard)
        if self.questions and ending is not None and ending.number > 0 and endings.is_in_error(how):
            said = self.questions.verdict(self.to, self.waiting, -ending.number, self.line, self.log)
        if words := endings.explained(how, named(self.to), said):
            LOG.info(words)

    def show(self, lines: list[str]) -> None:
        """Prints lines of a status."""
        PRINTED.print("\n".join(ended(self.mib, line) for line in lines), MOMENT)

    def carry_out(self, line: str) -> bool:
        """Whether a line of the operator's was in order, and ended accepted if it was a command."""
        if line == "status":
            self.show(self.status())
            return True
        try:
            command = published(line) if line.split(" ")[0] == "publish-text" else line
        except Refusal as refused:
            PRINTED.print(f"bad line: {refused}")
            return False
        if command.split(" ")[0] not in COMMANDS:
            PRINTED.print("bad line")
            return False
        return self.command(command)

    def command(self, command: str) -> bool:
        """Whether a command was accepted. One that finds a job not done waits for its end, however long that takes."""
        before = self.status()
        if self.is_busy:
            self.finish(before, math.inf)
            before = self.status()
        if self.waiting.is_stopped:
            return False
        self.late()
        if self.log:
            self.log.event("command", None, {"line": command})
        self.line = command
        try:
            answer = self.hand(command.encode("utf-8")).decode("latin-1")
        except NotKept as refused:
            PRINTED.print(f"not begun: it cannot be recorded: {refused}")
            return False
        if answer.split(" ")[0] in ("refused", "bad"):
            PRINTED.print(answer)
            return False
        return self.finish(before, self.wait)

    def rest(self) -> None:
        """At the end of an operator's lines, where nothing is under way, a reader takes what waits in his time."""
        while PRINTED.is_waiting and not self.waiting.is_stopped:
            self.waiting.until([], PRINTED.pause)
            PRINTED.turn()

    def late(self) -> None:
        """What comes while no job is under way answers nothing, and is let go."""
        for _ in range(_MOST_LATE):
            heard = received(self.udp_socket)
            if heard is None:
                break
            if self.log:
                self.log.datagram("late", self.to, heard[0])
        self.log_strays()
