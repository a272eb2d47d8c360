"""A sign of examples/signd.c and the front end wisangub-sign go on from each other's journals."""

from __future__ import annotations

import hashlib
import os
import signal
import time

from model.text import BENCH
from wisangub.endpoint.records import FORM

from . import records
from .front_ends import FrontEnd, settings
from .trial import Trial

LONG = 20000  # records
_MOST_KILLS = 300
MOMENT = [b"start - 1795543676 1", b"clock 1795543676 1"]


def _turns(trial: Trial, kinds: tuple[str, ...], is_killed: bool) -> None:
    """Front ends one after the other over a journal answer as one that was never ended."""
    name = " then ".join(kinds) + (", killed" if is_killed else "")
    journal = trial.folder / f"{len(list(trial.folder.iterdir()))}.journal"
    sets, gets = settings()
    before: list[str] = []
    for turn, kind in enumerate(kinds):
        front_end = FrontEnd(trial, kind, journal)
        if not trial.check(
            f"journal, {name}: {kind} starts", bool(front_end.said), front_end.end()[1] if not front_end.said else ""
        ):
            return
        if turn:
            trial.same(f"journal, {name}: what {kind} reads", [front_end.ask(octets) for octets in gets], before)
        for octets in sets[turn * 8 : turn * 8 + 8]:
            front_end.ask(octets)
        before = [front_end.ask(octets) for octets in gets]
        status, faults = front_end.end(signal.SIGKILL if is_killed else signal.SIGTERM)
        trial.check(f"journal, {name}: {kind} ends", status == (-9 if is_killed else 0), f"exit {status}: {faults}")
    trial.check(f"journal, {name}: replies", all(before), before)


def _digest() -> bytes:
    return hashlib.sha256(BENCH).hexdigest().encode()


def head(form: int = 2) -> bytes:
    """The first line of a journal of the bench sign."""
    return b"journal %d sign rules 1 description %b" % (form, _digest())


def _refusals(trial: Trial) -> None:
    """What is no journal of this sign, or is damaged, is refused; a torn end is put aside."""
    journal = trial.folder / "refused.journal"
    FrontEnd(trial, "signd", journal).end()
    whole = journal.read_bytes()
    first = whole.index(b"\n") + 1
    trial.check("journal: its records", records.lines_of(whole)[0] == head(), whole[:200])
    for name, octets, is_taken in (
        ("torn", whole + b"datagram 30", True),
        ("zeros", whole + b"\0" * (512 - len(whole) % 512), True),
        ("two torn lines", whole + b"x\ny\n", False),
        ("a changed record", whole[: first + 3] + b"x" + whole[first + 4 :], False),
        ("a changed last record", whole[:-20] + b"x" + whole[-19:], False),
        ("a changed last octet", whole[:-1] + b"\x0b", False),
        ("another form", records.journal([head(3), *MOMENT]), False),
        ("a line that no sign knows", records.journal([head(), *MOMENT, b"hello world"]), False),
        ("form 1", records.older([head(1), *MOMENT, b"ticks 5"]), True),
        ("no octets", b"", True),
        ("a part of the first record", whole[:20], True),
    ):
        journal.write_bytes(octets)
        front_end = FrontEnd(trial, "signd", journal)
        status, faults = front_end.end()
        is_so = bool(front_end.said) == is_taken and (status == 0) == is_taken
        trial.check(f"journal, {name}", is_so, f"exit {status}: {faults}")
    aside = [path.read_bytes() for path in sorted(trial.folder.glob("refused.journal.cut-*"))]
    trial.check("journal: what is torn is put aside", b"datagram 30" in aside and len(aside) == 3, aside)
    trial.check("journal: form 1 is kept", (trial.folder / "refused.journal.form1").exists())


def accepted(trial: Trial) -> None:
    """What is damaged is accepted once, and put aside."""
    journal = trial.folder / "accepted.journal"
    octets = records.journal([head(), *MOMENT, b"ticks 5", b"ticks 6", b"ticks 7"]).replace(b"ticks 6", b"ticks 4")
    journal.write_bytes(octets)
    status, faults = FrontEnd(trial, "signd", journal).end()
    place = f"octet {octets.index(b'ticks 4')},"
    trial.check("damage is told by its octet", status == 2 and place in faults and "--accept-damage" in faults, faults)
    front_end = FrontEnd(trial, "signd", journal, "--accept-damage")
    trial.check("damage is accepted", bool(front_end.said) and front_end.end()[0] == 0, front_end.said)
    aside = [path.read_bytes() for path in trial.folder.glob("accepted.journal.cut-*")]
    trial.same("damage is put aside", aside, [octets[octets.index(b"ticks 4") :]])
    lines = records.lines_of(journal.read_bytes())
    trial.check("damage: what is before it stays", lines[3] == b"ticks 5" and lines[4].startswith(b"start "), lines)


def _killed_anew(trial: Trial) -> None:
    """A journal of form 1 is written anew by front ends that are killed at any moment: it is whole in one form, and all
    lines are there. The old file is kept once."""
    journal, older = trial.folder / "anew.journal", trial.folder / "anew.journal.form1"
    lines = [head(1), *MOMENT, *(b"ticks %d" % (1 + number % 7) for number in range(LONG))]
    octets = records.older(lines)
    journal.write_bytes(octets)
    kills = 0
    while kills < _MOST_KILLS and journal.read_bytes() == octets:
        front_end = FrontEnd(trial, "signd", journal, waits=False)
        time.sleep(trial.chance.random() * 0.02 * (1 + kills / 5))
        front_end.end(signal.SIGKILL)
        kills += 1
    found = records.lines_of(journal.read_bytes())
    trial.same("form 1, killed: its lines", found[1 : len(lines)], lines[1:])
    kept = list(trial.folder.glob("anew.journal.form1*"))
    trial.check("form 1, killed: the old file", kept == [older] and older.read_bytes() == octets, kept)
    print(f"a journal of form 1 was written anew after {kills} kills", flush=True)
    status, faults = FrontEnd(trial, "signd", journal).end()
    trial.check("form 1, killed: it goes on", status == 0, faults)


def run(trial: Trial) -> None:
    _turns(trial, ("signd", "signd"), False)
    _turns(trial, ("signd", "signd", "signd"), True)
    _refusals(trial)
    accepted(trial)
    _killed_anew(trial)
    if not os.access(trial.program, os.X_OK):
        trial.skip("journals with the front end", f"there is no program at {trial.program}")
        return
    _turns(trial, ("front end", "signd", "signd"), False)
    _turns(trial, ("front end", "signd"), True)
    if FORM < 2:
        trial.skip("journals of signd with the front end", f"it writes and reads form {FORM}")
        return
    _turns(trial, ("signd", "front end", "signd"), False)
    _turns(trial, ("front end", "signd", "front end"), False)
    _turns(trial, ("signd", "front end", "signd", "front end"), True)
