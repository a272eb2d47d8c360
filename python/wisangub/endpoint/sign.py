"""A sign on a UDP port: a front end between a socket and `signtool sign`.

    wisangub-sign [--port 1161] [--host 127.0.0.1 | --listen HOST:PORT] [--signtool PATH] [--sign FILE] [--objects FILE]
        [--journal FILE [--keep SIZE] [--archive FOLDER] [--fresh] [--accept-damage] [--need-journal]
            [--down power|process] [--most-recorded N]]
        [--log FILE|- [--json]] [--no-ticks] [--lose N] [--quiet] [--page [PORT]] [--fast [SIGND]]

Each datagram goes to the sign as a line and its reply back to where it came from; each second is a tick. With a journal
the sign goes on where it was (docs/JOURNAL.md); what the time without a process was, a loss of power or seconds, is
told by the kernel's boot id, or by --down. A journal of more than --keep SIZE octets, 1M where nothing is said, is
shortened to the state of the sign, and so it is at a SIGHUP; --archive FOLDER keeps what is cut off. One that is
damaged is refused; with --accept-damage the sign goes on from what is whole of it. Where the disk cannot be written it
goes on from what is there, answers no SET, and says each minute and by its exit status 1 what the next start will not
know; with --need-journal it does not start. Of the writing community --most-recorded N datagrams a second are recorded,
50 where nothing is said. With --lose N every N-th datagram to the sign is lost. What the sign accepts is printed; lines
that nobody takes wait, 1 MB of them, and hold no datagram up. With --objects there are objects beside the sign's, such
as sysDescr.0 or a photocell, as the file has them, which is read again at a SIGHUP; what managers set there is printed
as lines `set NAME VALUE`. With --page a browser of this machine shows the lamps and the last datagrams at
http://127.0.0.1:8161/, and has buttons that take the power, let seconds pass and lose a datagram. With --fast the same
front end in C goes on, examples/signd.c, where it is built and has all that is asked for; else it says what it lacks.
It ends at an interrupt or a SIGTERM, and at a second one or before it is announced at once.
"""

from __future__ import annotations

import wisangub.endpoint.interrupts  # noqa: F401, before all else

import argparse
import sys
from typing import TYPE_CHECKING

from wisangub.process import description
from wisangub.process.coprocess import CoProcess
from wisangub.process.stands import signd
from wisangub.refusal import Refusal, status_of

from .clock import Moment, running
from .keeper import Keeper
from .limit import MOST_RECORDED, Limit
from .page.start import copy_of, page_of, watched
from .printing import PRINTED
from .records import Head
from .setting import MOST_NUMBER, begun, checked, journal_of, log_of, new, options, shortening_of
from .sign_front_end import Heard, SignFrontEnd
from .sockets import Waiting, bound, host_and_port, named

if TYPE_CHECKING:
    from .firmware import Firmware
    from .log import Log

PAGE = 8161  # the port of a page


def _asked_for() -> argparse.Namespace:
    """The options, as far as they go together."""
    words = options(__doc__, "wisangub-sign")
    words.add_argument("--host", default="127.0.0.1", help="an IPv4 or IPv6 address, or a name")
    words.add_argument("--port", type=int, default=1161, help="a UDP port; 0 is one that is free, which is printed")
    words.add_argument("--listen", metavar="HOST:PORT", help="both in one; an IPv6 address stands in brackets")
    words.add_argument(
        "--objects", metavar="FILE", help="objects beside the sign's, as in signs/; read at a SIGHUP too"
    )
    words.add_argument("--accept-damage", action="store_true", help="goes on, and puts the rest aside")
    words.add_argument("--down", choices=("power", "process"), help="what the time without a process was")
    words.add_argument(
        "--most-recorded", type=int, default=MOST_RECORDED, metavar="N", help="of the writing community, in a second"
    )
    words.add_argument("--no-ticks", action="store_true", help="no second passes for the sign")
    words.add_argument("--lose", type=int, default=0, metavar="N", help="each N-th datagram to the sign is lost")
    words.add_argument("--quiet", action="store_true", help="neither where it is nor what it accepts is printed")
    words.add_argument(
        "--page", type=int, nargs="?", const=PAGE, metavar="PORT", help=f"lamps in a browser, at 127.0.0.1:{PAGE}"
    )
    words.add_argument("--fast", nargs="?", const=signd(), metavar="SIGND", help="examples/signd.c goes on instead")
    asked = words.parse_args()
    checked(asked)
    if asked.listen is not None:
        asked.host, asked.port = host_and_port(asked.listen)
    if not 1 <= asked.most_recorded <= MOST_NUMBER:
        raise Refusal(f"--most-recorded {asked.most_recorded} is no number of datagrams: 1 to {MOST_NUMBER}")
    if asked.lose < 0:
        raise Refusal(f"--lose {asked.lose} is no number of datagrams")
    return asked


def has_power(sign: CoProcess) -> bool:
    """Whether the sign's power is on: dmsMsgSourceMode is powerLoss (13) as long as it is off, and never else."""
    return b" mode 13 " not in sign.ask(b"state")[0]


def firmware_of(asked: argparse.Namespace, text: bytes | None, log: Log | None) -> Firmware | None:
    """The objects of a file, where one is asked for."""
    if not asked.objects:
        return None
    from .firmware import Firmware

    return Firmware(asked.objects, lambda: new(asked, "sign", text), log, asked.quiet)


def main() -> int:
    asked = _asked_for()
    if asked.fast is not None:
        from .fast import hand_over

        hand_over(asked)
    log, text = log_of(asked), description.read(asked.sign)
    firmware = firmware_of(asked, text, log)
    shortening = shortening_of(asked, "sign", text, log, firmware.lines if firmware else None)
    with bound(asked.host, asked.port) as udp_socket, page_of(asked) as browsers:
        journal = journal_of(asked, Head("sign", description.digest(text))) if asked.journal else None
        if firmware and journal:
            firmware.sets = journal.sets
        sign = begun(asked, "sign", text, journal, firmware.publish if firmware else None)
        copy, keeper = copy_of(asked, text, journal), Keeper(journal) if journal else None
        up, lines = running(), list[bytes]()
        if keeper:
            lines = keeper.start(Moment.at(up), asked.down, not asked.need_journal, has_power(sign))
        if lines:
            sign.hand(lines)
        at, waiting = udp_socket.getsockname(), Waiting()
        if log:
            log.event("start", at, {"down": b", ".join(lines).decode()} if lines else {})
        who, limit = description.communities_of(text), Limit[Heard](asked.most_recorded)
        with watched(asked, text, sign, copy, lines, browsers) as (watcher, page):
            if not asked.quiet:
                PRINTED.print(f"a sign at {named(at if ':' in at[0] else (asked.host, at[1]))}")
            if page and not asked.quiet:
                PRINTED.print(f"a page at {page}")
            if firmware:
                firmware.tell(sign)
            served = SignFrontEnd(
                sign, udp_socket, keeper, log, up, asked.lose, asked.quiet, who, limit, watcher, firmware, shortening
            )
            is_kept = served.serve(waiting, not asked.no_ticks)
    sign.end()
    if log:
        log.event("end")
    return 0 if is_kept else 1


def run() -> int:
    try:
        return status_of(main)
    finally:
        PRINTED.end()


if __name__ == "__main__":
    sys.exit(run())
