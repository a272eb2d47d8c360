"""Each request of vectors/ as it stands and in every form of its lengths, one at a time: its front end's parts are
let go where they are after the reply, its co-process is killed, and what the journal brings back is looked at."""

import contextlib
import io
import pickle
import signal
import time
from typing import Any, Iterator

from model import text, wire
from model.sign import Sign
from wisangub.endpoint.clock import Moment
from wisangub.endpoint.journal import Journal
from wisangub.endpoint.keeper import Keeper
from wisangub.endpoint.records import Head
from wisangub.endpoint.sign_front_end import SignFrontEnd
from wisangub.process import description
from wisangub.process.coprocess import CoProcess

from .bench import Trial
from .gets import forms, requests, respelled
from .manager import Name

_NOW = Moment("boot", 1_000_000, 1000)  # of all starts: no second passes
_WHO = description.communities_of(None)  # of the bench sign
_AT_ONCE = 20  # names of a Get
LONG = 100_000  # octets of a journal that is not begun anew yet


class _Wire:
    """What stands in place of a socket: the replies that were sent."""

    def __init__(self) -> None:
        self.sent: list[bytes] = []

    def sendto(self, octets: bytes, _: object) -> None:
        self.sent.append(octets)


class _Spelled:
    """Lives of a sign in this process, each of a request; the model is handed the requests that were answered."""

    def __init__(self, trial: Trial) -> None:
        self.trial, self.count, self.recorded, self.last = trial, 0, 0, "no request"
        self.sign = Sign(text.bench())
        self.names: list[Name] = self.sign.objects.names
        self.walk = [self.get(at) for at in range(0, len(self.names), _AT_ONCE)]
        self.anew()

    def get(self, at: int) -> bytes:
        """A Get of some of the names, as a line."""
        asked = [(name, (wire.NULL, b"")) for name in self.names[at : at + _AT_ONCE]]
        return b"datagram " + wire.written(wire.Message(wire.GET, b"admin", 1 + at, 0, 0, asked)).hex().encode()

    def anew(self) -> None:
        """A new journal of a new sign."""
        self.path, self.sign = str(self.trial.new_folder() / "journal"), Sign(text.bench())
        self.state, self.values = b"", dict[Name, wire.Tagged | None]()
        self.replies: list[bytes] = []

    def started(self) -> tuple[CoProcess, Keeper]:
        """A sign where the journal left it."""
        with contextlib.redirect_stderr(io.StringIO()):
            journal = Journal.opened(self.path, Head("sign", "bench"))
        process = CoProcess(self.trial.program, ["sign"])
        process.begin(b"state", "a sign")
        process.replay(journal.lines())
        keeper = Keeper(journal)
        keeper.start(_NOW, None)
        return process, keeper

    def killed(self, process: CoProcess, keeper: Keeper) -> None:
        """A kill: nothing is ended well, and the file is let go as it is."""
        process.process.send_signal(signal.SIGKILL)
        process.process.wait()
        for file in (process.process.stdin, process.process.stdout):
            assert file is not None
            file.close()
        self.recorded = keeper.journal.size
        keeper.journal.close()

    def life(self, name: str, made: bytes) -> None:
        """A request, and what the sign before it is by the whole walk."""
        if self.recorded > LONG:
            self.anew()
        process, keeper = self.started()
        self.look(process)
        wires: Any = _Wire()
        front_end = SignFrontEnd(process, wires, keeper, None, 1000.0, is_quiet=True, communities=_WHO)
        front_end.answer([(made, ("127.0.0.1", 1))])
        wanted, _ = self.sign.receive(made)
        name = f"{made.hex()}, {name}"
        if wires.sent != ([] if wanted is None else [wanted]):
            self.trial.holds(f"{name}: the reply", False, (wires.sent, wanted))
        self.killed(process, keeper)
        self.last = name
        self.count += 1

    def look(self, process: CoProcess) -> None:
        """The walk is the model's: looked at octet by octet where the last request changed the model or the walk."""
        state = pickle.dumps(self.sign)
        values = self.values if state == self.state else {name: self.sign.objects.value(name) for name in self.names}
        replies = process.hand(self.walk)
        if values != self.values or replies != self.replies:
            found: dict[Name, wire.Tagged | None] = {}
            for reply in replies:
                message = wire.spelled(bytes.fromhex(reply.partition(b" ")[2].decode()))
                found |= dict(message.bindings) if message is not None else {}
            other = [(name, found.get(name), values[name]) for name in self.names if found.get(name) != values[name]]
            if other:
                self.trial.holds(f"after {self.last}: the walk", False, other[:3])
        self.state, self.values, self.replies = state, values, replies


def _spellings() -> Iterator[tuple[str, bytes]]:
    """Each request as it stands, and in each form of its lengths in which it is no longer than a datagram may be."""
    for octets, _ in requests():
        yield "as it stands", octets
        for form in forms():
            made = respelled(octets, form)
            if made is not None and len(made) <= wire.MOST_DATAGRAM:
                yield f"with lengths {form}", made


def run(trial: Trial) -> None:
    """All of them; in the short form some."""
    begun, before, spelled = time.monotonic(), trial.failed, _Spelled(trial)
    every = list(_spellings())
    for name, made in trial.chance.sample(every, 100) if trial.is_short else every:
        if spelled.count and trial.is_late():
            break
        spelled.life(name, made)
        if spelled.count % 1000 == 0:
            print(f"{spelled.count} of {len(every)} requests, {time.monotonic() - begun:.0f} s", flush=True)
    process, keeper = spelled.started()
    spelled.look(process)
    spelled.killed(process, keeper)
    trial.holds("each request in each form leaves what the model says", trial.failed == before)
    print(
        f"requests one at a time in forms of their lengths: {spelled.count} kills, {time.monotonic() - begun:.0f} s",
        flush=True,
    )
