"""How many requests a second a sign's front end answers, with and without a journal, one or sixteen in flight."""

import os
import select
import socket
import time

from model import wire

from .bench import Trial
from .manager import DMS

SECONDS = 3.0
_COUNTER = DMS + (6, 10, 0)


def requests(kind: int, count: int) -> list[bytes]:
    """Requests of a kind under numbers of their own."""
    value = (wire.NULL, b"") if kind == wire.GET else (wire.INTEGER, 7)
    return [
        wire.written(wire.Message(kind, b"admin", 1_000_000 + at, 0, 0, [(_COUNTER, value)])) for at in range(count)
    ]


def _rate(port: int, kind: int, in_flight: int, seconds: float) -> float:
    """Replies a second, with so many requests in flight."""
    made = requests(kind, 1000)
    with socket.socket(socket.AF_INET, socket.SOCK_DGRAM) as one:
        one.connect(("127.0.0.1", port))
        for octets in made[:in_flight]:
            one.send(octets)
        begun, count = time.monotonic(), 0
        while (now := time.monotonic()) < begun + seconds:
            if not select.select([one], [], [], 1.0)[0]:
                for octets in made[:in_flight]:
                    one.send(octets)
                continue
            answered = _drained(one)
            count += answered
            for at in range(answered):
                one.send(made[(count + at) % len(made)])
        return count / (now - begun)


def _drained(one: socket.socket) -> int:
    """How many replies wait."""
    count = 0
    while True:
        try:
            one.recv(2048, socket.MSG_DONTWAIT)
        except BlockingIOError:
            return count
        count += 1


def run(trial: Trial) -> None:
    """Prints a table; what is looked at is that each answers."""
    seconds = 0.3 if trial.is_short else SECONDS
    for is_kept in (False, True):
        words = ["--journal", str(trial.new_folder() / "journal")] if is_kept else []
        front_end = trial.sign(*words)
        for kind, name in ((wire.GET, "Gets"), (wire.SET, "SETs")):
            for in_flight in (1, 16):
                found = _rate(front_end.port, kind, in_flight, seconds)
                trial.holds(f"{name}, {in_flight} in flight: answered", found > 1, found)
                print(
                    f"{'with' if is_kept else 'without'} a journal, {name}, {in_flight} in flight: "
                    f"{found:.0f} a second, load {os.getloadavg()[0]:.1f} of {os.cpu_count()} processors",
                    flush=True,
                )
        trial.holds("a sign ends after many requests", front_end.stop() == 0, front_end.errors.decode())
