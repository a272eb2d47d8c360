"""A central system under test: wisangub-conform centre --port P --sign DESCRIPTION

Our sign on a UDP port, which answers and ticks as ever and watches who speaks to it: request numbers used again for
other requests, an activation of a row in error or before its checksum was read, a checksum read too early, writes
without a request to modify, rows of others taken, SETs in the reading community, polling faster than a second, storms,
datagrams that a sign drops, refusals that are ignored, and what is asked again after a noSuchName. It ends at an
interrupt, a SIGTERM or after --seconds, and tells what it saw. The exit status is 0 where it saw none of these, 1 where
it did, 3 where it heard nothing, and 2 where it could not begin.
"""

import argparse
import contextlib
import json
import pathlib
import select
import socket
import sys
from types import FrameType
from typing import Callable, Protocol

from wisangub.process.places import SIGNTOOL, add_version, called
from wisangub.refusal import Refusal, reason
from wisangub.snmp import wire
from wisangub.tester.ends import on_end, passed_over
from wisangub.tester.options import above_nothing, port
from wisangub.tester.requests.messages import spelled
from wisangub.tester.requests.objects import Column, Row
from wisangub.tester.requests.steps import get
from wisangub.tester.sign.clock import Clock, RealClock
from wisangub.tester.sign.described import Bad, cause, described
from wisangub.tester.sign.oracle import made
from wisangub.whole import WholeFile

from .watch import Habit, Watch

_MOST_RECEIVED = 65_535
_MINUTE = 60  # ticks


class Answering(Protocol):
    """A sign that is asked in octets."""

    def datagram(self, octets: bytes) -> bytes | None:
        ...

    def tick(self) -> None:
        ...


class Stopped(Exception):
    """It is time to tell what was seen."""


def serve(
    udp_socket: socket.socket,
    sign: Answering,
    clock: Clock,
    watch: Watch,
    seconds: float | None,
    ticked: Callable[[], None] = lambda: None,
) -> None:
    """Answers until it is stopped or so many seconds are over; the sign ticks also under many datagrams. `ticked` is
    called after each tick."""
    begun = clock.now()
    due = begun + 1
    while seconds is None or clock.now() - begun < seconds:
        left = due - clock.now()
        if left <= 0:
            sign.tick()
            watch.ticked()
            ticked()
            due += 1
        elif select.select([udp_socket], [], [], left)[0]:
            octets, sender = udp_socket.recvfrom(_MOST_RECEIVED)
            for row in watch.rows_asked(octets):
                watch.owned(row, _owner(sign, watch.reader, row))
            reply = sign.datagram(octets)
            watch.heard(clock.now() - begun, octets, reply)
            if reply is not None:
                with contextlib.suppress(OSError):  # nobody hears it, as where a sender is forged
                    udp_socket.sendto(reply, sender)


def _owner(sign: Answering, reader: bytes, row: Row) -> bytes:
    """The owner that a row of the sign has; none where there is no such row. The sign answers a request that follows
    at once, so that it counts its silence as if it had not been asked."""
    asked = get(row.cell(Column.OWNER), is_writer=False).octets(1, (reader, reader))
    message = spelled(sign.datagram(asked) or b"")
    held = message.bindings[0][1][1] if message is not None and message.status == wire.NO_ERROR else b""
    return held if isinstance(held, bytes) else b""


def stop(_number: int, _frame: FrameType | None) -> None:
    """The handler of a signal: raises Stopped."""
    raise Stopped


def _as_json(watch: Watch) -> str:
    seen = [
        {"habit": held.habit.value, "moment": round(held.moment, 3), "words": held.words, "octets": held.octets.hex()}
        for held in watch.seen
    ]
    whole = {
        "verdict": watch.verdict().value,
        "requests": watch.requests,
        "again": watch.again,
        "dropped": watch.dropped.total(),
        "dropped_for": dict(watch.dropped),
        "habits": {habit.value: watch.counts[habit] for habit in Habit},
        "seen": seen,
    }
    return json.dumps(whole, indent=1) + "\n"


class Report:
    """The file of --json, if any: whole from the beginning on, and written anew each minute, which no full disk ends.
    Raises OSError where it cannot be written at the beginning, or at the end."""

    def __init__(self, path: pathlib.Path | None, watch: Watch) -> None:
        self._file, self._watch, self._ticks = WholeFile(path) if path else None, watch, 0

    def write(self) -> None:
        if self._file is not None:
            self._file.write(_as_json(self._watch))

    def ticked(self) -> None:
        self._ticks += 1
        if self._ticks % _MINUTE == 0:
            with contextlib.suppress(OSError):
                self.write()


def _arguments() -> argparse.ArgumentParser:
    parser = argparse.ArgumentParser(
        prog=called("wisangub-conform centre"),
        description="our sign on a port, which watches the central system that speaks to it",
    )
    add_version(parser, "wisangub-conform centre")
    parser.add_argument("--host", default="127.0.0.1", help="where the sign listens")
    parser.add_argument("--port", required=True, type=port, help="the UDP port of the sign")
    parser.add_argument(
        "--sign", required=True, type=pathlib.Path, metavar="DESCRIPTION", help="its description, as in signs/"
    )
    parser.add_argument("--seconds", type=above_nothing, help="how long; else until it is interrupted")
    parser.add_argument("--json", type=pathlib.Path, metavar="FILE", help="keeps the requests and what was counted")
    parser.add_argument(
        "--signtool",
        default=str(SIGNTOOL),
        metavar="PATH",
        help="the program that is the sign; `model` is that of model",
    )
    return parser


def main() -> int:
    """Watches until it is stopped, and reports; the exit status is the verdict's."""
    asked = _arguments().parse_args()
    try:
        description = asked.sign.read_bytes()
        sign, reader = made(asked.signtool, description), described(description).reader
        report = Report(asked.json, watch := Watch(reader))
    except (OSError, Bad, Refusal) as fault:
        where = f"{asked.sign}: {fault}{cause(asked.sign, fault)}" if isinstance(fault, Bad) else ""
        print(where or fault, file=sys.stderr)
        return 2
    on_end(stop)
    family = socket.AF_INET6 if ":" in asked.host else socket.AF_INET
    try:
        with socket.socket(family, socket.SOCK_DGRAM) as udp_socket:
            udp_socket.bind((asked.host, asked.port))
            report.write()
            print(f"a sign that watches at {asked.host}:{udp_socket.getsockname()[1]}", flush=True)
            serve(udp_socket, sign, RealClock(), watch, asked.seconds, report.ticked)
    except Stopped:
        pass
    except (OSError, Refusal) as fault:
        print(fault, file=sys.stderr)
        return 2
    finally:
        on_end(passed_over)
        sign.end()
    return _told(watch, report)


def _told(watch: Watch, report: Report) -> int:
    """What was seen, and the status."""
    print("\n".join(watch.lines()), flush=True)
    try:
        report.write()
    except OSError as fault:
        print(f"the report cannot be written: {reason(fault)}", file=sys.stderr)
        return 2
    return watch.verdict().status


if __name__ == "__main__":
    sys.exit(main())
