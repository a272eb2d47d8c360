"""What both front ends do on their way: options, a journal of a description, and a co-process that is where the
journal left it."""

from __future__ import annotations

import argparse
import mmap
import os
from collections.abc import Callable
from typing import TYPE_CHECKING

from wisangub import __version__
from wisangub.output import LOG
from wisangub.process.coprocess import CoProcess
from wisangub.process.stands import signtool
from wisangub.refusal import Refusal

from .files import NEW, Place, octets_aside, opened
from .journal import Journal
from .reading import first_of, number_behind
from .records import SECTOR, SHORTEST, Head
from .shortening import MOST, Shortening, Trial, octets_of

if TYPE_CHECKING:
    from .log import Log

MOST_NUMBER = 2**31 - 1  # of a request


def options(about: str | None, command: str) -> argparse.ArgumentParser:
    """The options that both front ends have."""
    parser = argparse.ArgumentParser(description=about, formatter_class=argparse.RawDescriptionHelpFormatter)
    version = f"{command} {__version__}"
    parser.add_argument("--version", action="version", version=version, help="the command's name and version")
    parser.add_argument("--signtool", default=signtool(), metavar="PATH", help="the program that answers lines")
    parser.add_argument("--sign", metavar="FILE", help="the description of the sign, as in signs/; else the bench sign")
    parser.add_argument(
        "--journal", metavar="FILE", help="what is handed over is kept here, over the end of the process"
    )
    parser.add_argument("--keep", metavar="SIZE", help="octets of a journal, as 500k; a longer one is shortened; 1M")
    parser.add_argument("--archive", metavar="FOLDER", help="what is cut off a journal that is shortened is kept there")
    parser.add_argument("--fresh", action="store_true", help="puts the journal's file aside and begins anew")
    parser.add_argument("--need-journal", action="store_true", help="ends where the disk takes nothing at a start")
    parser.add_argument("--log", metavar="FILE", help="a line an event is written here; - is standard output")
    parser.add_argument("--json", action="store_true", help="the log's lines are JSON")
    return parser


def checked(asked: argparse.Namespace) -> None:
    """Refuses names without a character, and options that go with none that is there."""
    for name in ("signtool", "sign", "objects", "journal", "keep", "archive", "log", "host", "fast"):
        if getattr(asked, name, None) == "":
            raise Refusal(f"--{name} has no name")
    for option in ("fresh", "accept-damage", "need-journal", "down", "keep", "archive"):
        if getattr(asked, option.replace("-", "_"), None) not in (None, False) and not asked.journal:
            raise Refusal(f"--{option} is of a --journal FILE")
    if asked.json and not asked.log:
        raise Refusal("--json is of a --log FILE")
    read = {"description": asked.sign, "file of objects": getattr(asked, "objects", None)}
    for what, other in {"journal": asked.journal, **read}.items():
        if asked.log and other and _is_same(asked.log, other):
            raise Refusal(f"{asked.log} cannot be the log and the {what}")
    for what, path in {"log": asked.log, **read, "program": asked.signtool}.items():
        if asked.journal and path and _is_beside(path, asked.journal):
            raise Refusal(f"{path} cannot be the {what} and the file beside the journal")


def _is_beside(path: str, journal: str) -> bool:
    """Whether a file stands beside a journal and takes its place, by its name or by that which it leads to."""
    return any(_is_same(path, name + NEW) for name in (journal, os.path.realpath(journal)))


def _is_same(one: str, other: str) -> bool:
    """Whether two names are of one file."""
    try:
        return os.path.samefile(one, other)
    except OSError:
        return os.path.realpath(one) == os.path.realpath(other)


def log_of(asked: argparse.Namespace) -> Log | None:
    """The log that is asked for; raises Refusal where it cannot be written."""
    if not asked.log:
        return None
    from .log import Log  # the words of the MIB take as long as all else of a start

    return Log(asked.log, asked.json)


def number_above(path: str, file: int, end: str, aside: int = 0) -> int | None:
    """A number above all that the centre of a journal used: each of its records sent at most one request of a new
    number, and none is shorter than `tick`; the octets that were cut from it and lie aside count too. Where it begins
    with a state that says the next number, the records are those behind it. None of a sign's, and of a file whose first
    record was never finished."""
    text, size = os.pread(file, SECTOR, 0), os.fstat(file).st_size
    line = first_of(text)
    found = Head.of(line) if line is not None else None
    if found is None and (size >= SECTOR or text.strip(b"\0")):
        raise Refusal(
            f"{path} is no journal: it is not put aside"
            + (", and --first says no number above its own" if end == "centre" else "")
        )
    if found is not None and found.end != end:
        raise Refusal(f"{path} is the journal of a {found.end}: it is not put aside")
    if found is None or found.first is None:
        return None
    first, begins = _behind_state(path, file, size) or (found.first, 0)
    above = max(first, found.first) + (size - begins + aside) // SHORTEST
    if above > MOST_NUMBER:
        raise Refusal(f"{path}: no number of a request is left above those that it may have used")
    return above


def _behind_state(path: str, file: int, size: int) -> tuple[int, int] | None:
    """The number that the state of a centre's journal says, and the octets up to the records behind that state; None
    where it begins with none."""
    with mmap.mmap(file, size, access=mmap.ACCESS_READ) as text:
        return number_behind(path, text)


def journal_of(asked: argparse.Namespace, head: Head) -> Journal:
    """The journal that is asked for."""
    place = Place.of(asked.journal)
    if not asked.fresh or not os.path.lexists(place.real):
        accepts = getattr(asked, "accept_damage", False)
        return Journal.opened(asked.journal, head, accepts, is_patient=not asked.need_journal)
    old = opened(place)
    try:
        above = number_above(asked.journal, old, head.end, octets_aside(place))
        wanted = getattr(asked, "first", None)  # of a centre
        if above is not None and wanted is not None and wanted < above:
            raise Refusal(f"--first {wanted}: {asked.journal} may have used each number below {above}")
        if above is not None and head.first is not None:
            head = head._replace(first=max(above, head.first))
        return Journal.fresh(place, head)
    finally:
        os.close(old)


def shortening_of(
    asked: argparse.Namespace,
    end: str,
    text: bytes | None,
    log: Log | None,
    publishing: Callable[[], list[bytes]] | None = None,
) -> Shortening | None:
    """How the journal is shortened, where there is one, of an end of this description; `publishing` gives the lines
    that publish objects beside a sign's."""
    if not asked.journal:
        return None
    most, archive = MOST if asked.keep is None else octets_of(asked.keep), None
    if asked.archive is not None:
        from .archive import Archive

        archive = Archive(asked.archive)
    return Shortening(most, Trial(asked.signtool, text, end, publishing), archive, log)


def new(asked: argparse.Namespace, end: str, text: bytes | None, state: list[bytes] | None = None) -> CoProcess:
    """A co-process of this description, which goes on from the state of the journal where that has one."""
    process = CoProcess(asked.signtool, [end, "--restore"] if state else [end], text)
    if state:
        process.go_on_from(state, asked.journal)
    process.begin(b"state" if end == "sign" else b"status last", asked.sign or asked.signtool)
    return process


def begun(
    asked: argparse.Namespace,
    end: str,
    text: bytes | None,
    journal: Journal | None,
    before: Callable[[CoProcess], None] | None = None,
) -> CoProcess:
    """The co-process of this description, where the journal left it; `before` hands something over ahead of its lines,
    and behind its state."""
    process = new(asked, end, text, journal.state() if journal else None)
    if before is not None:
        before(process)
    if journal is not None:
        if end == "sign" and process.hand([b"ticks 0"]) != [b"ok"]:
            raise Refusal(f"{asked.signtool} has no line `ticks`, which a journal needs")
        process.replay(journal.lines())
    else:
        LOG.info("nothing is kept: no --journal")
    return process
