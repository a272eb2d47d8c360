"""Several signs in a run: wisangub-conform several LIST --into FOLDER [--jobs N] [OPTION ..]

A line of LIST is a sign: NAME HOST:PORT DESCRIPTION and options of its test alone. All other options hold for all. Each
sign is tested in a process of its own, so many at a time; its reports are NAME.html, NAME.json, NAME.junit.xml and
NAME.txt in FOLDER, and with --pdf and --pcap NAME.pdf and NAME.pcap. A line a sign is printed as it ends, and last how
many have which verdict. An interrupt ends the tests that run, which put their signs back, and begins no other.
"""

import argparse
import json
import pathlib
import queue
import signal
import subprocess
import sys
import threading
from dataclasses import dataclass, field
from types import FrameType

from wisangub.process.places import add_version, called, environment
from wisangub.refusal import Refusal, reason
from wisangub.tester.ends import on_end
from wisangub.tester.findings.results import Verdict
from wisangub.tester.options import count
from wisangub.tester.trouble import STATUS, unforeseen
from wisangub.whole import WholeFile

from .listed import ALL, FILES, REPORTS, Listed, checked, read

_WRONG = "not tested"  # what a command that is wrong comes to
_WORDS = {verdict.status: verdict.value for verdict in Verdict} | {STATUS: _WRONG}
_ORDER = (1, 3, 2)  # the status of all is the first of these that a sign has, and else 0


@dataclass
class Several:
    """The tests of a list, and how they ended: the status and the last line of each by its name."""

    folder: pathlib.Path
    options: list[str]
    kinds: tuple[str, ...] = REPORTS  # the files of each sign
    waiting: "queue.SimpleQueue[Listed]" = field(default_factory=queue.SimpleQueue)
    ended: dict[str, tuple[int, str]] = field(default_factory=dict)
    running: list["subprocess.Popen[bytes]"] = field(default_factory=list)
    is_stopped: bool = False
    _lock: threading.Lock = field(default_factory=threading.Lock)
    _alone: dict[str, threading.Lock] = field(default_factory=dict)  # by address: a sign has one test at a time

    def run(self, signs: list[Listed], jobs: int) -> None:
        """All of them, so many at a time."""
        for held in signs:
            self._alone[held.to] = threading.Lock()
            self.waiting.put(held)
        threads = [threading.Thread(target=self._work) for _ in range(min(jobs, len(signs)))]
        for thread in threads:
            thread.start()
        for thread in threads:
            thread.join()

    def stop(self) -> None:
        """The tests that run put their signs back and end; no other begins."""
        self.is_stopped = True
        for process in list(self.running):
            process.send_signal(signal.SIGTERM)

    def _work(self) -> None:
        while not self.is_stopped:
            try:
                held = self.waiting.get_nowait()
            except queue.Empty:
                return
            try:
                with self._alone[held.to]:
                    self._test(held)
            except OSError as fault:  # of its reports: the others are tested all the same
                self._tell(held, STATUS, reason(fault))
            except Exception as fault:
                self._tell(held, STATUS, unforeseen(fault))

    def _test(self, held: Listed) -> None:
        """A sign's test, and its line."""
        if self.is_stopped:
            return
        path = self.folder / f"{held.name}.txt"
        call = [sys.executable, "-m", "wisangub.tester", *held.call(self.folder, self.options, self.kinds)]
        with path.open("wb") as out:
            process = subprocess.Popen(
                call, env=environment(), stdin=subprocess.DEVNULL, stdout=out, stderr=out, process_group=0
            )
            self.running.append(process)
            if self.is_stopped:
                process.send_signal(signal.SIGTERM)
            status = process.wait()
            self.running.remove(process)
        self._tell(held, status, path.read_text(encoding="utf-8", errors="replace").rstrip().split("\n")[-1])

    def _tell(self, held: Listed, status: int, said: str) -> None:
        """How a sign's test ended."""
        with self._lock:
            self.ended[held.name] = (status, said)
            print(f"{held.name} at {held.to}: {said}", flush=True)


def _keep(signs: list[Listed], several: Several, report: WholeFile) -> None:
    """The verdict of each sign, as far as it is known, as JSON. Raises Refusal where that cannot be written."""
    ended = {held.name: several.ended.get(held.name, (3, "not begun")) for held in signs}
    whole = [
        {
            "name": held.name,
            "to": held.to,
            "verdict": _WORDS.get(ended[held.name][0], _WRONG),
            "words": ended[held.name][1],
        }
        for held in signs
    ]
    try:
        report.write(json.dumps(whole, indent=1) + "\n")
    except OSError as fault:
        raise Refusal(f"the report of all signs cannot be written: {reason(fault)}") from None


def _summary(signs: list[Listed], several: Several, report: WholeFile) -> int:
    """Prints how many have which verdict, keeps that, and says the status of all. Raises Refusal where it is not
    kept."""
    statuses = [several.ended.get(held.name, (3, ""))[0] for held in signs]
    words = [_WORDS.get(status, _WRONG) for status in statuses]
    counts = {word: words.count(word) for word in dict.fromkeys([*_WORDS.values()])}
    print(", ".join(f"{number} {word}" for word, number in counts.items() if number))
    _keep(signs, several, report)
    known = [status if status in (0, *_ORDER) else 2 for status in statuses]
    return next((status for status in _ORDER if status in known), 0)


def main() -> int:
    """The whole command: 1 where a sign differs, else 3 where one is not judged, 2 where one was not tested, or 0."""
    parser = argparse.ArgumentParser(
        prog=called("wisangub-conform several"),
        description="tests the signs of a list, each beside its description",
        epilog="a line of the list is: NAME HOST:PORT DESCRIPTION [OPTION ..]; other options hold for each sign",
    )
    add_version(parser, "wisangub-conform several")
    parser.add_argument(
        "list", type=pathlib.Path, help="a line a sign: NAME HOST:PORT DESCRIPTION and options of its test"
    )
    parser.add_argument("--into", type=pathlib.Path, required=True, metavar="FOLDER", help="where the reports are put")
    parser.add_argument("--jobs", type=count, default=8, metavar="N", help="signs at a time, 8 where nothing is said")
    parser.add_argument("--pdf", action="store_true", help="the report of each as a PDF, where Chromium is there")
    parser.add_argument("--pcap", action="store_true", help="what each was sent and what came, as tcpdump writes it")
    asked, options = parser.parse_known_args()
    kinds = tuple(kind for kind in FILES if vars(asked)[kind])
    try:
        checked(options, f"{parser.prog}{', where --pdf and --pcap have no FILE' if kinds else ''}")
        signs = read(asked.list)
        asked.into.mkdir(parents=True, exist_ok=True)
        report = WholeFile(asked.into / f"{ALL}.json")
        several = Several(asked.into, options, REPORTS + kinds)
        if not report.is_pipe:
            _keep(signs, several, report)  # from here on it is this run's
    except Refusal as fault:
        print(fault, file=sys.stderr)
        return 2
    except OSError as fault:
        print(reason(fault), file=sys.stderr)
        return 2

    def stopped(_number: int, _frame: FrameType | None) -> None:
        several.stop()

    on_end(stopped)
    several.run(signs, asked.jobs)
    return _summary(signs, several, report)


if __name__ == "__main__":
    sys.exit(main())
