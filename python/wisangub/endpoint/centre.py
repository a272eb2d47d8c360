"""A centre over UDP: a front end between a socket and `signtool centre`.

    wisangub-centre --to HOST:PORT [--signtool PATH] [--sign FILE]
        [--journal FILE [--keep SIZE] [--archive FOLDER] [--fresh] [--need-journal]]
        [--first N] [--log FILE|- [--json]] [--tick SECONDS] [--wait SECONDS]

Its standard input has an operator's commands, a line each as in a script: `publish ..`, `blank ..`, `activate ..`. Each
is carried out until the centre is idle, and how it ended is printed with the ledger's lines; one that takes longer than
--wait is given up, and the next one waits for its end. `publish-text 3 1 "LANE CLOSED[nl]1 KM" "me" 0 0 100 65535 255
192.0.2.1` is `publish ..` with its text and its owner as they are read, in quotes (\\" and \\\\ are a quote and a
backslash; a - without quotes is none), each character an octet of ISO 8859-1; `status` prints how things are at any
time. With a journal (docs/JOURNAL.md) a centre goes on where it was; without one its request numbers begin at the
description's, or at --first, which has to be above any that was used. A journal of more than --keep SIZE octets, 1M
where nothing is said, is shortened to the state of the centre, and so it is at a SIGHUP; --archive FOLDER keeps what is
cut off. Lines that nobody takes wait, 1 MB of them, and hold no command up. Standard error names the step of a command
that failed, and says what the sign found wrong with its message, or what may be the cause. The exit status is 0 where
every command ended accepted, 1 where one did not, and 2 where it could not begin.
"""

import wisangub.endpoint.interrupts  # noqa: F401, before all else

import argparse
import math
import sys

from wisangub.output import LOG
from wisangub.process import description
from wisangub.refusal import Refusal, status_of

from . import commands
from .centre_front_end import CentreFrontEnd, last_command
from .journal import Journal
from .printing import PRINTED
from .questions import Questions
from .records import Head
from .setting import MOST_NUMBER, begun, checked, journal_of, log_of, options, shortening_of
from .sockets import connected, host_and_port


def seconds(word: str) -> float:
    """A time above 0."""
    found = float(word)
    if not 0 < found < math.inf:
        raise ValueError
    return found


def _asked_for() -> argparse.Namespace:
    """The options, as far as they go together."""
    words = options(__doc__, "wisangub-centre")
    words.add_argument(
        "--to", required=True, metavar="HOST:PORT", help="where the sign is; an IPv6 address stands in brackets"
    )
    words.add_argument("--first", type=int, metavar="N", help="the number of the first request; else the description's")
    words.add_argument("--tick", type=seconds, default=1.0, metavar="SECONDS", help="from tick to tick")
    words.add_argument("--wait", type=seconds, default=120.0, metavar="SECONDS", help="how long a command may take")
    asked = words.parse_args()
    checked(asked)
    if asked.first is not None and not 0 <= asked.first <= MOST_NUMBER:
        raise Refusal(f"--first {asked.first} is no number of a request: 0 to {MOST_NUMBER}")
    return asked


def _begun_with(journal: Journal, wanted: int | None, is_fresh: bool) -> int:
    """The number that a journal began with; another one is wanted of a new journal alone. One that was shortened does
    not tell the first of all."""
    first = journal.head.first or 0
    is_other = wanted is not None and (wanted > first if journal.base else wanted != first)
    if is_other and not is_fresh:
        raise Refusal(f"--first {wanted}: the journal began with {first}, and goes on where it was")
    return first


def main() -> int:
    asked = _asked_for()
    log = log_of(asked)
    text = description.read(asked.sign)
    shortening = shortening_of(asked, "centre", text, log)  # no state says the first number
    first = description.first_of(text) if asked.first is None else asked.first
    with connected(*host_and_port(asked.to)) as socket:
        journal = journal_of(asked, Head("centre", description.digest(text), first)) if asked.journal else None
        if journal is None:
            LOG.info(f"request numbers begin at {first}: no journal tells which were used")
        elif journal.head.first is not None:
            first = _begun_with(journal, asked.first, asked.fresh)
            if journal.is_new:
                LOG.info(f"{asked.journal}: a new journal, whose request numbers begin at {first}")
        centre = begun(asked, "centre", description.with_first(text, first), journal)
        questions = Questions(asked.signtool, text)
        operator = CentreFrontEnd(centre, socket, journal, log, asked.tick, asked.wait, questions, shortening)
        if operator.is_busy and journal:
            operator.line = last_command([journal.state(), *journal.lines()])
        is_well = operator.finish([], asked.wait) if operator.is_busy else True
        for line in commands.lines(operator.waiting, operator.turn):
            if line is None:
                PRINTED.print("bad line: no UTF-8, or longer than 65536 octets")
            is_well = line is not None and operator.carry_out(line) and is_well
        centre.end()
        operator.rest()
    return 0 if is_well and not operator.waiting.is_stopped else 1


def run() -> int:
    try:
        return status_of(main)
    finally:
        PRINTED.end()


if __name__ == "__main__":
    sys.exit(run())
