"""What a worker does, round after round: leases and lines; reader.py has its readings. program.py is the program."""

import contextlib
import os
import secrets
import socket
import time
from dataclasses import dataclass
from typing import Iterator

from wisangub.endpoint.sockets import Waiting, readable
from wisangub.process.leaving import Leaving
from wisangub.refusal import Refusal
from wisangub.room.addresses import AGAIN
from wisangub.room.fleet import Sign
from wisangub.room.options import GIVE_UP
from wisangub.room.output import LOG
from wisangub.room.store.database import Failed, Taken, check_known
from wisangub.room.store.lines import News
from wisangub.room.store.store import Store
from wisangub.snmp.mib import Mib

from .carry import Offer, carry
from .files import most_driven
from .late import Late
from .reader import Reader
from .session import MOST_LINES, Left, Lost, Session
from .where import Where

_BEGUN_AT_ONCE = 32  # sessions that are begun in one round, so that those that stand are not kept waiting
_ENDS = 2.0  # seconds from one look for commands that waited for too long to the next


@dataclass(frozen=True)
class Pace:
    """Seconds from tick to tick, of a lease, from one look for work to the next; signs driven at once, since each waits
    for two ticks or more, and Gets; seconds from one lookup of a name to the next; lines of a centre after which an
    idle sign gets a new one; seconds after which a command that waits for its turn is given up."""

    tick: float = 1.0
    lease: float = 10.0
    look: float = 0.2
    most: int = 1000
    gets: int = 200
    again: float = AGAIN
    lines: int = MOST_LINES
    give_up: float = GIVE_UP


class Worker:
    """Sessions by the rows of their signs, and when each one's next tick is due. `beside` is another connection, over
    which signs are read by a thread of their own; without it that is done between two rounds."""

    def __init__(
        self,
        store: Store,
        signs: dict[int, Sign],
        program: str,
        pace: Pace,
        waiting: Waiting,
        beside: Store | None = None,
    ) -> None:
        self.store, self.program, self.pace, self.waiting = store, program, pace, waiting
        self.where = Where(store, signs, pace.again)
        self.where.look()
        self.signs = self.where.signs  # that do not stand still
        self.most = most_driven(pace.most)
        self.name = f"{socket.gethostname()}:{os.getpid()}:{secrets.token_hex(4)}"
        self.mib = Mib.read()
        self.reader = Reader(beside or store, self.signs, program, self.mib, pace.look, pace.gets)
        self.is_reading_beside = beside is not None
        self.sessions: dict[int, Session] = {}
        self.ticks: dict[int, float] = {}
        self.to_release: set[int] = set()
        self.leaving = Leaving()
        self.fault = ""  # what the database said last, which is said once
        self.refused: Refusal | None = None  # why it ends by itself
        self.next_look = self.next_renewal = self.next_end = 0.0
        self.late = Late(store.commands, pace.give_up)
        store.readings.anew(list(self.signs))

    def run(self) -> None:
        """Until it is stopped, or a newer program has the database."""
        if self.is_reading_beside:
            self.reader.start()
        while not self.waiting.is_stopped and self.refused is None:
            self.guarded_round()
        for sign_id in list(self.sessions):
            self.drop(sign_id)
        try:
            self.release()
        except (Failed, Taken) as fault:
            LOG.warning(f"the database: {fault}")
        self.leaving.wait()
        self.reader.stop()
        self.where.close()
        if self.refused is not None:
            raise self.refused

    def guarded_round(self) -> None:
        """A round; a database that does not answer is asked again later."""
        try:
            self.round()
            if self.fault:
                LOG.info("the database answers again")
            self.fault = ""
        except Refusal as refused:
            self.refused = refused
        except (Failed, Taken) as fault:
            if str(fault) != self.fault:
                LOG.warning(f"the database: {fault}")
            self.fault = str(fault)
            self.waiting.until([], self.pace.look)

    def round(self) -> None:
        """What is due, what is heard, and the next commands."""
        self.leaving.look()
        now = time.monotonic()
        if now >= self.next_renewal:
            self.next_renewal = now + self.pace.lease / 3
            check_known(self.store.database)
            self.renew()
        if now >= self.next_look:
            self.next_look = now + self.pace.look
            self.look()
        if not self.is_reading_beside:
            self.reader.round()
        self.wait()
        self.carry()

    def look(self) -> None:
        """Signs that are elsewhere, commands that waited for too long, and signs that have work."""
        self._move()
        now = time.monotonic()
        if now >= self.next_end:
            self.next_end = now + _ENDS
            self.late.give_up()
        self.lease()

    # ---- lines

    def wait(self) -> None:
        """Until something is due or heard."""
        now = time.monotonic()
        udp_sockets = [
            session.udp_socket.fileno()
            for session in self.sessions.values()
            if session.is_busy and session.ready_at <= now
        ]
        due = [self.next_look, self.next_renewal]
        for sign_id, session in self.sessions.items():
            if session.ready_at > now or not session.is_busy:
                due.append(session.ready_at)
            due.append(max(self.ticks[sign_id], session.ready_at))
        self.waiting.until(udp_sockets, max(0.0, min(due) - now))

    def carry(self) -> None:
        """The next line of each sign that has one; a sign without work is let go."""
        offers: list[Offer] = []
        now = time.monotonic()
        ready = [one for one in self.sessions.items() if one[1].ready_at <= now]
        waiting = self.store.commands.next_of([sign_id for sign_id, session in ready if not session.is_busy])
        heard = readable([session.udp_socket for _, session in ready if session.is_busy])
        for sign_id, session in ready:
            line = session.offer(now >= self.ticks[sign_id], waiting, session.udp_socket.fileno() in heard)
            if line is not None:
                offers.append((session, line))
                self._tick_later(sign_id, line.text, now)
            elif not session.is_busy:
                self.drop(sign_id)
        if offers:
            self.carried(offers)
        self.release()

    def _tick_later(self, sign_id: int, line: bytes, now: float) -> None:
        """The next tick is one after the last, or after the line that a command begins with; ticks that were missed do
        not come in a row."""
        if line == b"tick":
            self.ticks[sign_id] = max(self.ticks[sign_id] + self.pace.tick, now + self.pace.tick / 2)
        elif not self.sessions[sign_id].is_busy:
            self.ticks[sign_id] = now + self.pace.tick

    def carried(self, offers: list[Offer]) -> None:
        """Carries lines; where it is not known what the database did, their lines say where the next worker goes
        on."""
        try:
            carry(self.store, self.name, offers, self.dropped)
            for session, _ in offers:
                self.reader.verdicts.want(session.sign_id, session.taken_in_error())
        except (Failed, Taken):
            for session, _ in offers:
                self.drop(session.sign_id)
            raise

    def dropped(self, session: Session, fault: Exception | None) -> None:
        """A session that is no more: where something failed, its lease keeps others from it for a while."""
        if fault is not None:
            LOG.warning(f"{session.sign.name}: {fault}")
        self.drop(session.sign_id, is_released=fault is None)

    # ---- leases

    def _move(self) -> None:
        """Lets signs go that stand still from now on, or are at another address: they begin again where they are."""
        for sign_id in self.where.look():
            self.drop(sign_id)

    def lease(self) -> None:
        """Takes signs that have work and that nobody drives; looks again soon where there are more of them."""
        room = min(_BEGUN_AT_ONCE, self.most - len(self.sessions))
        free = [
            sign_id
            for sign_id in self.store.leases.with_work()
            if sign_id in self.signs and sign_id not in self.sessions
        ]
        leased = self.store.leases.take(free[: max(0, room)], self.name, self.pace.lease)
        self.begin(Left.of(self.store, sorted(leased)))
        if len(free) > room and room > 0 and leased:
            self.next_look = 0.0

    def begin(self, left: dict[int, Left]) -> None:
        """Sessions where the signs' lines left them: their co-processes begin at the same time, and what came of the
        lines is kept in one transaction."""
        begun: list[Session] = []
        for sign_id, one in left.items():
            with self._beginning(sign_id):
                sign = self.signs[sign_id]
                begun.append(Session(self.store, sign_id, sign, self.name, self.program, self.mib, one))
        came: list[News] = []
        for session in begun:
            with self._beginning(session.sign_id):
                came.append(session.stand())
                session.most_lines = self.pace.lines
                self.sessions[session.sign_id], self.ticks[session.sign_id] = session, time.monotonic() + self.pace.tick
        self.kept(came)

    def kept(self, came: list[News]) -> None:
        """Keeps what came of lines that sessions began with; where that fails, the next worker does it."""
        try:
            if some := [news for news in came if news.is_some]:
                self.store.lines.keep(some)
        except (Failed, Taken):
            for news in came:
                self.drop(news.sign)
            raise
        for news in came:
            self.reader.verdicts.want(news.sign, self.sessions[news.sign].taken_in_error())

    @contextlib.contextmanager
    def _beginning(self, sign_id: int) -> Iterator[None]:
        """A sign that cannot be begun is kept from all until its lease ends."""
        try:
            yield
        except Lost:
            self.to_release.add(sign_id)
        except (Refusal, Failed, Taken, OSError) as fault:
            LOG.warning(f"{self.signs[sign_id].name}: {fault}")

    def renew(self) -> None:
        """Lets signs go whose lease ran out, and keeps the others."""
        kept = self.store.leases.renew(list(self.sessions), self.name, self.pace.lease)
        for sign_id in set(self.sessions) - kept:
            self.drop(sign_id)

    def drop(self, sign_id: int, is_released: bool = True) -> None:
        """Ends a session; its lines stay, and another worker may go on at once, or when the lease ends."""
        session = self.sessions.pop(sign_id, None)
        self.ticks.pop(sign_id, None)
        if session is not None:
            session.close(self.leaving)
        if is_released:
            self.to_release.add(sign_id)

    def release(self) -> None:
        """Lets signs go, all at once; again later where the database did not do it."""
        rows = sorted(self.to_release - set(self.sessions))
        self.store.leases.release(rows, self.name)
        self.to_release.clear()
