"""When a journal is shortened, and how: to the state that its lines came to."""

from __future__ import annotations

import re
import signal
import subprocess
from collections.abc import Callable
from typing import TYPE_CHECKING, Any, NamedTuple, Protocol

from wisangub.output import LOG
from wisangub.process.coprocess import CoProcess
from wisangub.refusal import Refusal

from .clock import running
from .files import NotKept
from .journal import Journal
from .states import parts, set_lines

if TYPE_CHECKING:
    from .archive import Archive
    from .log import Log

MOST = 1_000_000  # octets of a journal, where nothing is said
_AGAIN = 60.0  # seconds after which it is tried again where it was refused
_PATIENCE = 10.0  # seconds that another process may take to go on from a state
_MOST_STATE = 1_048_576  # octets of a state that a process takes: a ledger of some 20,000 entries is longer
_SIZE = re.compile(r"([0-9]{1,12})([kM]?)", re.ASCII)
_TIMES = {"": 1, "k": 1000, "M": 1_000_000}
_OK = b"ok"
_NO_CALL = 2  # the status of a program that does not know a call


def octets_of(word: str) -> int:
    """A number of octets, with k for 1,000 of them and M for 1,000,000; raises Refusal."""
    found = _SIZE.fullmatch(word)
    if found is None or not int(found[1]):
        raise Refusal(f"--keep {word} is no size: a number of octets, perhaps with k or M behind it")
    return int(found[1]) * _TIMES[found[2]]


def _text(lines: list[bytes]) -> bytes:
    return b"".join(b"%b\n" % line for line in lines)


class Trial:
    """Another process of a sign or of a centre, which is handed a state before that counts. `publishing` gives the
    lines that publish objects beside a sign's, as its front end has published them."""

    def __init__(
        self,
        program: str,
        description: bytes | None,
        end: str = "sign",
        publishing: Callable[[], list[bytes]] | None = None,
    ) -> None:
        self.call = [program, end, *(["--sign"] if description is not None else []), "--restore"]
        self.program, self.end, self.description = program, end, description or b""
        self.publishing = publishing

    def fault(self, saved: list[bytes]) -> str:
        """Why it does not go on from what was saved to the same, in words; nothing where it does. It is handed the
        state, what is published, and each value that a manager set, as the next start would be."""
        other = f"another process of the {self.end}"
        state, sets = parts(saved)
        octets, lines = _text(state), [*(self.publishing() if self.publishing else []), *set_lines(sets)]
        if len(octets) > _MOST_STATE:
            return f"the state of the {self.end} has more than {_MOST_STATE} octets: the journal only grows"
        try:
            ended = subprocess.run(
                self.call,
                input=self.description + octets + _text(lines) + b"save\n",
                capture_output=True,
                timeout=_PATIENCE,
                check=False,
            )
        except (OSError, subprocess.TimeoutExpired) as fault:
            return f"{other} is not there: {fault}"
        if ended.stdout == _text([*[_OK] * len(lines), *saved, _OK]):
            return ""
        if ended.returncode == _NO_CALL:
            return f"{self.program} has no call `{self.end} --restore`: the journal only grows"
        told = (ended.stderr or ended.stdout).decode("latin-1").strip().splitlines()
        said = next((line[:80] for line in told if line != "ok"), "")
        return f"{other} does not go on from its state{': ' + said if said else ''}"


class Kept(Protocol):
    """A journal, and whether it has all that its end was handed."""

    @property
    def journal(self) -> Journal:
        ...

    def is_paid(self) -> bool:
        ...


class Synced(NamedTuple):
    """The journal of a centre, whose records do not wait."""

    journal: Journal

    def is_paid(self) -> bool:
        return self.journal.is_paid()


class Shortening:
    """A journal has at most so many octets, but for a state that takes more than half of them. It is shortened at a
    SIGHUP too, when others have seen that. Where it cannot be the old one stays in force, and that is said once."""

    def __init__(self, most: int, trial: Trial, archive: Archive | None, log: Log | None) -> None:
        self.most, self.trial, self.archive, self.log = most, trial, archive, log
        self.is_asked, self.again, self.refused = False, 0.0, ""
        self.others: Any = signal.getsignal(signal.SIGHUP)
        asked: Callable[..., None] = self.asked
        signal.signal(signal.SIGHUP, asked)

    def asked(self, *words: Any) -> None:
        """A SIGHUP came: it is done between two steps."""
        self.is_asked = True
        if callable(self.others):
            self.others(*words)

    def turn(self, process: CoProcess, kept: Kept) -> None:
        """Shortens the journal where it is long, or that is asked for."""
        journal = kept.journal
        if self.is_asked or journal.size > self.most and journal.size > 2 * journal.base and running() >= self.again:
            self.shorten(process, kept)

    def shorten(self, process: CoProcess, kept: Kept) -> None:
        """The state stands in place of the lines, once another process goes on from it to the same."""
        journal, before = kept.journal, kept.journal.size
        is_asked, self.is_asked, self.again = self.is_asked, False, running() + _AGAIN
        try:
            if not kept.is_paid():
                raise NotKept(f"{journal.path}: {journal.refused}", 1)
            state, sets = parts(self.looked_at(process))
            journal.sets.update(sets)  # what no object has now, or firmware published anew, is kept beside these
            journal.exchange(state, lambda: self.archive and self.archive.keep(journal.place.real))
        except NotKept as fault:
            if is_asked or str(fault) != self.refused:
                LOG.info(f"{journal.path} is not shortened: {fault}")
                self.event("not shortened", {"why": str(fault)})
            self.refused = str(fault)
            return
        self.again, self.refused = 0.0, ""
        LOG.info(f"{journal.path}: shortened from {before} to {journal.size} octets")
        self.event("shortened", {"from": before, "octets": journal.size})

    def looked_at(self, process: CoProcess) -> list[bytes]:
        """What the process is saved as; raises NotKept where another process does not go on from that."""
        saved = process.ask(b"save")
        if saved.pop() != _OK:
            raise NotKept("the program has no line `save`", 1)
        fault = self.trial.fault(saved)
        if fault:
            raise NotKept(fault, 1)
        return saved

    def event(self, event: str, fields: dict[str, object]) -> None:
        """An event of the log."""
        if self.log:
            self.log.event(event, None, fields)
