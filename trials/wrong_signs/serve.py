"""A wrong sign on a UDP port, to see what a report looks like: python3 -m trials.wrong_signs.serve --sign FILE NAME ..

The names are those of the tables in trials/wrong_signs; the sign has all of these edits at once. It ticks once a
second, and ends at an interrupt or a SIGTERM.
"""

import argparse
import pathlib
import signal
import socket
import sys

from wisangub.tester.centre.program import Stopped, serve, stop
from wisangub.tester.centre.watch import Watch
from wisangub.tester.sign.clock import RealClock
from wisangub.tester.sign.described import described
from wisangub.tester.sign.simulated import SomeSign

from .load import sign_of
from .table import MUTANTS


class Wrong:
    """A sign of model behind the oracle's interface."""

    def __init__(self, sign: SomeSign) -> None:
        self.sign = sign

    def datagram(self, octets: bytes) -> bytes | None:
        return self.sign.receive(octets)[0]

    def tick(self) -> None:
        self.sign.tick()


def main() -> int:
    parser = argparse.ArgumentParser(
        prog="python3 -m trials.wrong_signs.serve", description="a wrong sign on a UDP port"
    )
    parser.add_argument(
        "names",
        nargs="+",
        metavar="NAME",
        choices=[mutant.name for mutant in MUTANTS],
        help="the rules in which the sign is wrong",
    )
    parser.add_argument("--port", type=int, default=1161, help="the UDP port of the sign")
    parser.add_argument("--sign", required=True, type=pathlib.Path, help="its description, as in signs/")
    asked = parser.parse_args()
    description = asked.sign.read_bytes()
    sign = Wrong(sign_of([mutant for mutant in MUTANTS if mutant.name in asked.names], description))
    signal.signal(signal.SIGTERM, stop)
    with socket.socket(socket.AF_INET, socket.SOCK_DGRAM) as udp_socket:
        udp_socket.bind(("127.0.0.1", asked.port))
        print(f"a wrong sign at 127.0.0.1:{udp_socket.getsockname()[1]}", flush=True)
        try:
            serve(udp_socket, sign, RealClock(), Watch(described(description).reader), None)
        except (Stopped, KeyboardInterrupt):
            pass
    return 0


if __name__ == "__main__":
    sys.exit(main())
