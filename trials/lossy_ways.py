"""Whole tests of right signs over UDP, in real time, on ways with faults both ways: python3 -m trials.lossy_ways

    [--share PERCENT] [--minutes N] [--seeds N] [--first SEED] [--jobs N] [--signtool PATH] [--sign FILE]
    [--into FOLDER]

Between each test and its sign stands a relay that has that share of the requests and of the replies lost, up to 1.6
seconds late, or doubled, a third of it each. A test is one without options but `--lossy 30`, which has to conform
within so many minutes. A line a seed: status, differences, minutes, and the seconds that the relay and the sign were
late by themselves at the most, since the machine was busy: a silence that is not much longer is the machine's. There
`chrt -r 10 python3 -m trials.lossy_ways` keeps both in time; a test takes a twentieth of a processor. Last
`N passed, N failed`. The report and the words of each are left in --into.
"""

import argparse
import heapq
import json
import pathlib
import random
import select
import socket
import subprocess
import sys
import tempfile
import threading
import time
from concurrent import futures
from dataclasses import dataclass, field

from wisangub.process.places import TOP
from wisangub.snmp import wire
from wisangub.tester.requests.messages import spelled

SIGNS, BIN = TOP / "signs", TOP / "bin"
_DELAYS = (0.0, 0.0003, 0.05, 0.4, 1.1, 1.6)  # seconds that a datagram comes late, or once more
_LOSSY = "30"  # percent that a test may lose
_LONG_AGO = 30.0  # seconds after which a request's number stands for another request


@dataclass(order=True)
class _Waiting:
    """A datagram that is on its way."""

    due: float
    number: int
    octets: bytes = field(compare=False)
    is_request: bool = field(compare=False)


class Way(threading.Thread):
    """Stands between a test and a sign; `share` of what goes through, either way, is lost, late or doubled."""

    def __init__(self, to: int, share: float, seed: int) -> None:
        super().__init__(daemon=True)
        self.share, self.chance = share, random.Random(seed)
        self.test, self.sign = (socket.socket(socket.AF_INET, socket.SOCK_DGRAM) for _ in range(2))
        self.test.bind(("127.0.0.1", 0))
        self.sign.connect(("127.0.0.1", to))
        self.port = int(self.test.getsockname()[1])
        self.peer: tuple[str, int] | None = None
        self.waiting: list[_Waiting] = []
        self.through = self.spoilt = 0
        self.held_up = self.slowest = 0.0  # seconds that this was late, and that the sign took, at the most
        self.asked: dict[tuple[bytes, int], float] = {}  # when the sign was asked what it has not answered
        self.is_done = False

    def run(self) -> None:
        """Until it is done."""
        while not self.is_done:
            begun = time.monotonic()
            left = max(0.0, min(self.waiting[0].due - begun, 0.5)) if self.waiting else 0.5
            files = select.select([self.test, self.sign], [], [], left)[0]
            self.held_up = max(self.held_up, time.monotonic() - begun - left)
            for file in files:
                self._take(file)
            while self.waiting and self.waiting[0].due <= time.monotonic():
                self._pass_on(heapq.heappop(self.waiting))

    def _take(self, file: socket.socket) -> None:
        try:
            octets, sender = file.recvfrom(65_535)
        except OSError:
            return
        is_request = file is self.test
        self.peer = sender if is_request else self.peer
        if not is_request:
            self._answered(octets)
        self.through += 1
        draw, now = self.chance.random() / (self.share or 1e-9), time.monotonic()
        late = now + self.chance.choice(_DELAYS)
        self.spoilt += draw < 1
        if draw >= 2 / 3:
            self._put(now, octets, is_request)
        if 1 / 3 <= draw < 1:
            self._put(late, octets, is_request)

    def _put(self, due: float, octets: bytes, is_request: bool) -> None:
        heapq.heappush(self.waiting, _Waiting(due, self.through, octets, is_request))

    def _pass_on(self, held: _Waiting) -> None:
        try:
            if held.is_request:
                self._asked(held.octets)
                self.sign.send(held.octets)
            elif self.peer is not None:
                self.test.sendto(held.octets, self.peer)
        except OSError:  # nobody is there any more
            pass

    def _asked(self, octets: bytes) -> None:
        """A request goes to the sign, be it once more."""
        message, now = spelled(octets), time.monotonic()
        if message is not None and message.kind != wire.RESPONSE:
            key = message.community, message.number
            if now - self.asked.get(key, -_LONG_AGO) >= _LONG_AGO:
                self.asked[key] = now

    def _answered(self, octets: bytes) -> None:
        """The sign has answered one."""
        message = spelled(octets)
        begun = None if message is None else self.asked.pop((message.community, message.number), None)
        if begun is not None:
            self.slowest = max(self.slowest, time.monotonic() - begun)

    def late_words(self) -> str:
        """What of a silence was the machine's."""
        return f"the relay was up to {self.held_up:.1f} s late, and the sign took up to {self.slowest:.1f} s"

    def end(self) -> None:
        self.is_done = True
        self.join()
        self.test.close()
        self.sign.close()


@dataclass
class Run:
    """One test, from the start of its sign to its report."""

    asked: argparse.Namespace
    seed: int
    folder: pathlib.Path

    def line(self) -> tuple[bool, str]:
        """Whether it conforms, and what is said of it."""
        front_end = [sys.executable, str(BIN / "wisangub-sign"), "--signtool", str(self.asked.signtool)]
        front_end += ["--sign", str(self.asked.sign), "--port", "0"]
        with subprocess.Popen(front_end, cwd=self.folder, stdout=subprocess.PIPE, stderr=subprocess.DEVNULL) as sign:
            try:
                assert sign.stdout is not None
                port = int(sign.stdout.readline().rsplit(b":", 1)[1])
                return self._tested(port)
            finally:
                sign.terminate()

    def _tested(self, port: int) -> tuple[bool, str]:
        way = Way(port, self.asked.share / 100, self.seed)
        way.start()
        report, words = self.folder / f"{self.seed}.json", self.folder / f"{self.seed}.txt"
        call = [sys.executable, str(BIN / "wisangub-conform"), "--to", f"127.0.0.1:{way.port}", "--lossy", _LOSSY]
        call += ["--sign", str(self.asked.sign), "--signtool", str(self.asked.signtool), "--seed", str(self.seed)]
        begun = time.monotonic()
        with words.open("wb") as file:
            tester = [*call, "--json", str(report)]
            status = subprocess.run(tester, stdout=file, stderr=subprocess.STDOUT, check=False).returncode
        minutes = (time.monotonic() - begun) / 60
        way.end()
        spoilt = f"{way.spoilt} of {way.through} datagrams lost, late or doubled, {way.late_words()}"
        if status == 2:
            return False, f"seed {self.seed}: status 2: {words.read_text(encoding='utf-8').strip()[-200:]}"
        differences = len(json.loads(report.read_bytes())["differences"])
        verdict = words.read_text(encoding="utf-8").strip().rsplit("\n", 1)[-1]
        said = f"status {status}, {differences} differences, {minutes:.1f} minutes, {spoilt}; {verdict}"
        is_passed = status == 0 and not differences and minutes <= self.asked.minutes
        return is_passed, f"seed {self.seed}: {said}"


def main() -> int:
    parser = argparse.ArgumentParser(prog="python3 -m trials.lossy_ways", description="right signs on lossy ways")
    parser.add_argument("--share", type=float, default=5.0, metavar="PERCENT", help="of the datagrams, each way")
    parser.add_argument("--minutes", type=float, default=25.0, metavar="N", help="that a test may take")
    parser.add_argument("--seeds", type=int, default=20, help="how many runs")
    parser.add_argument("--first", type=int, default=1, metavar="SEED", help="the seed of the first")
    parser.add_argument("--jobs", type=int, default=4, metavar="N", help="runs at a time")
    parser.add_argument(
        "--signtool", type=pathlib.Path, default=TOP / "model/signtool", metavar="PATH", help="of both ends"
    )
    parser.add_argument("--sign", type=pathlib.Path, default=SIGNS / "roadside.sign", help="the description")
    parser.add_argument("--into", type=pathlib.Path, metavar="FOLDER", help="where the reports are kept")
    asked = parser.parse_args()
    asked.signtool, asked.sign, passed = asked.signtool.resolve(), asked.sign.resolve(), 0
    with tempfile.TemporaryDirectory() as folder, futures.ThreadPoolExecutor(asked.jobs) as pool:
        kept = (asked.into or pathlib.Path(folder)).resolve()
        kept.mkdir(parents=True, exist_ok=True)
        seeds = range(asked.first, asked.first + asked.seeds)
        for done in futures.as_completed([pool.submit(Run(asked, seed, kept).line) for seed in seeds]):
            is_passed, line = done.result()
            passed += is_passed
            print(line, flush=True)
    print(f"{passed} passed, {asked.seeds - passed} failed")
    return 0 if passed == asked.seeds else 1


if __name__ == "__main__":
    sys.exit(main())
