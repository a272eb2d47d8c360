"""Journals that examples/signd.c or wisangub-sign shortens to the sign's state: each goes on from the other's, with the
objects that managers set, and refuses in the same words."""

from __future__ import annotations

import os
import pathlib
import signal

from model import text, wire
from model.saved import saved
from model.sign import Sign

from . import records
from .front_ends import FrontEnd, settings
from .journals import MOMENT, head
from .objects import LEVEL, Manager, eventually, written_file
from .trial import Trial

_FIRST, _BOTH = b"state 1 sign", ("signd", "front end")
_CONTACT = (1, 3, 6, 1, 2, 1, 1, 4, 0)
_PUBLISHED = (
    "object 1.3.6.1.4.1.1206.4.2.3.7.6.0 INTEGER 3 number 0 15",
    "object 1.3.6.1.2.1.1.4.0 OCTET STRING - octets 0 9",
)
_OPTIONS = (
    (["--keep", "1x"], "--keep 1x is no size: a number of octets, perhaps with k or M behind it\n"),
    (["--keep", "0M"], "--keep 0M is no size: a number of octets, perhaps with k or M behind it\n"),
    (["--archive", "/dev/null"], "--archive /dev/null is no folder\n"),
)


def _lines(path: pathlib.Path) -> list[bytes]:
    return records.lines_of(path.read_bytes())


def _shortens(trial: Trial, front_end: FrontEnd, journal: pathlib.Path) -> None:
    """At a SIGHUP the journal is another file, which begins with a state."""
    before = journal.stat().st_ino
    front_end.process.send_signal(signal.SIGHUP)
    is_another = eventually(lambda: journal.stat().st_ino != before)
    trial.check("shortened at a SIGHUP", is_another and _lines(journal)[1] == _FIRST, journal.read_bytes()[:300])


def _link(folder: pathlib.Path) -> pathlib.Path:
    """A path that leads by a link to a file of another folder, which is not there yet."""
    disk, path = folder.with_suffix(".disk"), folder.with_suffix(".link")
    disk.mkdir()
    path.symlink_to(f"{disk.name}/journal")
    return path


def _turns(trial: Trial, kinds: tuple[str, ...], is_killed: bool, is_linked: bool = False) -> None:
    """Front ends one after the other shorten a journal every few datagrams, and at a SIGHUP: they answer as one that
    was never ended, and all that was cut off is kept. Where its path is a link, that stays, and leads to a file."""
    name = f"shortened, {' then '.join(kinds)}{', killed' * is_killed}{', linked' * is_linked}"
    folder = trial.folder / f"{len(list(trial.folder.iterdir()))}.kept"
    folder.mkdir()
    journal, before = _link(folder) if is_linked else folder.with_suffix(".journal"), list[str]()
    sets, gets = settings()
    for turn, kind in enumerate(kinds):
        front_end = FrontEnd(trial, kind, journal, "--keep", "2k", "--archive", str(folder))
        if not trial.check(f"{name}: {kind} starts", bool(front_end.said), front_end.said or front_end.end()):
            return
        if turn:
            trial.same(f"{name}: what {kind} reads", [front_end.ask(octets) for octets in gets], before)
        for octets in sets[turn * 8 : turn * 8 + 8]:
            front_end.ask(octets)
        _shortens(trial, front_end, journal)
        for octets in sets[:4]:
            front_end.ask(octets)
        before = [front_end.ask(octets) for octets in gets]
        status, faults = front_end.end(signal.SIGKILL if is_killed else signal.SIGTERM)
        is_well = status == (-9 if is_killed else 0) and "shortened from" in faults
        trial.check(f"{name}: {kind} ends", is_well, f"exit {status}: {faults}")
        trial.same(f"{name}: its path behind {kind}", (journal.is_symlink(), journal.is_file()), (is_linked, True))
    if is_linked:
        beside = [path.name for path in folder.with_suffix(".disk").iterdir()]
        trial.same(f"{name}: the file", beside, ["journal"])
    numbers = sorted(int(path.name.rpartition("-")[2]) for path in folder.iterdir())
    trial.same(f"{name}: what was cut off", numbers, list(range(1, len(numbers) + 1)))
    trial.check(f"{name}: replies", all(before), before)


def _sets(turn: int) -> list[str]:
    """What is told of a turn, and stands in the journal, in the order of names."""
    return [
        f"set {'.'.join(map(str, _CONTACT))} OCTET STRING {turn:02x}",
        f"set {'.'.join(map(str, LEVEL))} INTEGER {turn + 4}",
    ]


def _with_objects(trial: Trial, kinds: tuple[str, ...]) -> None:
    """What a manager set of objects is there behind a shortening, and told once; by each kind it is the same records.
    One that has no object now is kept for later."""
    name = f"shortened, objects, {' then '.join(kinds)}"
    path, journal = trial.folder / "short.objects", trial.folder / f"objects {len(kinds)} {kinds[0]}.journal"
    for turn, kind in enumerate(kinds):
        written_file(path, *_PUBLISHED)
        front_end = FrontEnd(trial, kind, journal, "--objects", str(path))
        manager = Manager(front_end)
        if turn:
            trial.same(f"{name}: told by {kind}", manager.told(2), _sets(turn - 1))
            trial.same(f"{name}: there again", manager.value(LEVEL), (LEVEL, (wire.INTEGER, turn + 3)))
        trial.same(f"{name}: set", manager.set(LEVEL, (wire.INTEGER, turn + 4)), 0)
        trial.same(f"{name}: set", manager.set(_CONTACT, (wire.OCTETS, bytes([turn]))), 0)
        _shortens(trial, front_end, journal)
        kept = [line.decode() for line in _lines(journal) if line.startswith(b"set ")]
        trial.same(f"{name}: what {kind} keeps", kept, _sets(turn))
        trial.same(f"{name}: it stays", manager.value(LEVEL), (LEVEL, (wire.INTEGER, turn + 4)))
        front_end.end(signal.SIGKILL)
        written_file(path, "object 1.3.8 Gauge 7")
        front_end = FrontEnd(trial, kind, journal, "--objects", str(path))
        _shortens(trial, front_end, journal)
        status, faults = front_end.end()
        trial.check(f"{name}: without its objects", status == 0 and front_end.more == b"", (status, faults))


def _state(line: bytes, other: bytes) -> tuple[list[bytes], str]:
    """The bench sign's first state with another line in place of one, and how that is refused."""
    lines = [one.encode() for one in saved(Sign(text.bench()).state)]
    at = lines.index(line)
    return [*lines[:at], other, *lines[at + 1 :]], f"state line {at + 1}: no state of this sign"


def _refusals(trial: Trial, kinds: tuple[str, ...]) -> None:
    """What is no state of the sign is refused by its line, and the file stays."""
    later = "it begins with 'state 2 sign', and this front end knows 'state 1 sign'"
    rows: list[tuple[list[bytes], str]] = [
        _state(b"powered 1", b"powered 0"),
        _state(b"silent 0", b"silent"),
        (_state(_FIRST, b"state 2 sign")[0], later),
        ([_FIRST, b"end", b"hello"], "hello"),
        ([_FIRST, b"silent 0"], "damaged at octet "),
    ]
    for at, (lines, words) in enumerate(rows):
        octets = records.journal([head(), *lines, *(MOMENT if lines[-1] == b"end" else [])])
        for kind in kinds:
            path = trial.folder / f"state {at} {kind}.journal"
            path.write_bytes(octets)
            status, faults = FrontEnd(trial, kind, path).end()
            trial.check(f"{kind} refuses {words}", status == 2 and f"{path}: " in faults and words in faults, faults)
            trial.same(f"{kind}, {words}: the file stays", path.read_bytes(), octets)


def _options(trial: Trial, kinds: tuple[str, ...]) -> None:
    """What shortening is asked for wrongly, and what is asked of a journal that is none."""
    journal = trial.folder / "unasked.journal"
    for kind in kinds:
        for words, said in _OPTIONS:
            trial.same(f"{kind} {words}", FrontEnd(trial, kind, journal, *words).end(), (2, said))
            alone = FrontEnd(trial, kind, None, *words).end()
            trial.same(f"{kind} {words} alone", alone, (2, f"{words[0]} is of a --journal FILE\n"))
        for words in (["--need-journal"], ["--accept-damage"], ["--down", "power"]):
            alone = FrontEnd(trial, kind, None, *words).end()
            trial.same(f"{kind} {words} alone", alone, (2, f"{words[0]} is of a --journal FILE\n"))
    trial.check("no journal is begun", not journal.exists())


def run(trial: Trial) -> None:
    has_both = os.access(trial.program, os.X_OK)
    kinds = _BOTH if has_both else _BOTH[:1]
    _turns(trial, ("signd", "signd"), False)
    _turns(trial, ("signd", "signd"), False, is_linked=True)
    _with_objects(trial, ("signd", "signd"))
    _refusals(trial, kinds)
    _options(trial, kinds)
    if not has_both:
        trial.skip("shortened journals with the front end", f"there is no program at {trial.program}")
        return
    _turns(trial, ("front end", "signd", "front end"), False)
    _turns(trial, ("signd", "front end", "signd", "front end"), True)
    _turns(trial, ("signd", "front end", "signd"), False, is_linked=True)
    _with_objects(trial, ("signd", "front end", "signd"))
