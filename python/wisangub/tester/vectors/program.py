"""Asks a sign over UDP what vectors/requests.jsonl has, and compares its replies.

    wisangub-conform vectors [--to 127.0.0.1:1161] [--wait 0.5] [--junit FILE]

The sign has to be the bench sign of docs/PROFILE.md as it starts. Requests that change a sign are left out, so that
each finds it as it was. A request that is to be dropped is one that nothing answers for so many seconds. After three
requests one after the other that should have had a reply and had none it stops, with exit status 2: nothing answers.
"""

import argparse
import contextlib
import json
import pathlib
import socket
import sys
import time
from typing import Any, Iterator

from wisangub import junit
from wisangub.process.places import TOP, add_version, called
from wisangub.refusal import Refusal, reason
from wisangub.tester.options import above_nothing, address
from wisangub.tester.sign.held import hold
from wisangub.tester.sign.link import resolved
from wisangub.whole import WholeFile

_MOST_SILENT = 3
Address = tuple[str | int, ...]  # of either family, as a socket has it


@contextlib.contextmanager
def _written() -> Iterator[None]:
    """A report that cannot be written is refused in words, and no difference of the sign."""
    try:
        yield
    except OSError as fault:
        raise Refusal(f"the report cannot be written: {reason(fault)}") from None


def _cases(path: pathlib.Path) -> list[dict[str, Any]]:
    """The requests, a case each."""
    return [json.loads(line) for line in path.read_text(encoding="ascii").splitlines()]


def _listened(udp_socket: socket.socket) -> None:
    """For as long as a reply may take, what comes is let go."""
    until = time.monotonic() + (udp_socket.gettimeout() or 0)
    with contextlib.suppress(TimeoutError):
        while time.monotonic() < until:
            udp_socket.recvfrom(65535)


def _asked(udp_socket: socket.socket, to: Address, request: str, earlier: set[str]) -> str | None:
    """The reply to a request, in hexadecimal digits; None where none comes. One of earlier requests may come late or
    twice: it is taken where no other comes. Of what comes from elsewhere, which is not taken, the first is said.
    Neither gives the sign more time."""
    udp_socket.sendto(bytes.fromhex(request), to)
    begun, told, late = time.monotonic(), False, None
    try:
        while True:
            octets, sender = udp_socket.recvfrom(65535)
            if sender == to and octets.hex() not in earlier:
                return octets.hex()
            if sender == to:
                late = octets.hex()
            elif not told:
                where = f"{sender[0]}:{sender[1]}"
                print(f"a reply came from {where}; is the sign behind an address translation?", file=sys.stderr)
                told = True
            if time.monotonic() - begun > (udp_socket.gettimeout() or 0):
                return late
    except (TimeoutError, ConnectionRefusedError):
        return late


def _compare(udp_socket: socket.socket, to: Address, wanted: list[dict[str, Any]]) -> tuple[list[junit.Case], bool]:
    """What came of each request; the last is whether the sign is silent, so that the rest was not asked."""
    tried, silent, earlier = [], 0, set[str]()
    for case in wanted:
        if case["reply"] is None:
            _listened(udp_socket)  # an answer to what is to be dropped may be like that to an earlier request
        own = {case["reply"]} if case["reply"] else set[str]()
        reply = _asked(udp_socket, to, case["request"], earlier - own if own else own)
        earlier |= own
        fault = "" if reply == case["reply"] else f"replied {reply}, wanted {case['reply']}"
        tried.append(junit.Case("requests", case["name"], fault))
        if fault:
            print(f"{case['name']}: {fault}")
        if case["reply"] is not None:
            silent = silent + 1 if reply is None else 0
        if silent == _MOST_SILENT:
            return tried, True
    return tried, False


def main() -> int:
    """Asks for the vectors and prints what is otherwise; 2 where the sign is silent."""
    parser = argparse.ArgumentParser(
        prog=called("wisangub-conform vectors"),
        description=__doc__,
        formatter_class=argparse.RawDescriptionHelpFormatter,
    )
    add_version(parser, "wisangub-conform vectors")
    parser.add_argument("--to", default="127.0.0.1:1161", metavar="HOST:PORT", help="where the sign is")
    parser.add_argument("--wait", type=above_nothing, default=0.5, metavar="SECONDS", help="how long a reply may take")
    parser.add_argument("--junit", type=pathlib.Path, metavar="FILE", help="a report as JUnit has it is written here")
    options = parser.parse_args()
    family, to = resolved(*address(options.to))
    with _written():
        report = WholeFile(options.junit) if options.junit else None
    every = _cases(TOP / "vectors/requests.jsonl")
    wanted = [case for case in every if not case["changes"]]
    try:
        with socket.socket(family, socket.SOCK_DGRAM) as udp_socket, contextlib.closing(hold(to) or udp_socket):
            udp_socket.settimeout(options.wait)
            tried, is_silent = _compare(udp_socket, to, wanted)
    except OSError as fault:  # no way there, say
        raise Refusal(f"{options.to}: {reason(fault)}") from None
    if report is not None:
        with _written():
            report.write(junit.text("vectors", tried))
            report.close()
    if is_silent:
        print(
            f"{options.to} left {_MOST_SILENT} requests one after the other without a reply: stopped", file=sys.stderr
        )
        return 2
    failed = sum(bool(case.fault) for case in tried)
    print(f"{len(tried) - failed} passed, {failed} failed, {len(every) - len(wanted)} that change a sign left out")
    return 1 if failed else 0


if __name__ == "__main__":
    sys.exit(main())
