"""Puts hostile datagrams through `signtool replay`, at both ends, and looks that nothing was harmed.

    python3 -m trials.hostile [--count 20000] [--seed 1] [--program crates/signtool/out/signtool] [--print | --udp
        [--front-end PATH]]

A publication to the bench sign is carried out datagram by datagram, and before each of its events a share of hostile
datagrams is handed to the sign and to the centre: requests and replies whose fields are changed (forms of lengths, tag
classes, integers at each bound, names of 0, 1, 127 and 128 sub-identifiers, nesting, cut ends, repeated octets, long
communities). Before them each change of one octet, each proper prefix, each datagram with one to four octets more, and
each pair of neighbours deleted, doubled and exchanged, of the first request and of its reply. Left out is what neither
end could tell from its partner: a SET that is in order and has the writing community, and the reply that the centre
waits for. A script holds at most 1,048,576 octets, so as many scripts are run as the count needs. Of each report every
line is foretold, the number of the sign's replies too, by the reader of model. Last, hostile requests go to live signs
that have up to 1,000 objects beside their own, mostly for these: each answer has to be the model's, and so have the
objects that were set and the whole walk.

It prints what each script took, and last `N passed, M failed`. With --print it prints the first script alone. With
--udp the datagrams to the sign, and those that are left out too, go to a sign's front end over UDP, wisangub-sign or
that of --front-end (examples/signd.c), and each reply has to be the model's.
"""

import argparse
import itertools
import os
import pathlib
import resource
import subprocess
import sys
import tempfile
import time
from collections.abc import Iterable, Iterator
from typing import Protocol

from trials import agents
from trials.front_ends.bench import Trial
from wisangub.tester.requests.hostile_datagrams import Datagram, Maker, all_to_sign, is_answered, near, random_ones

from .front_ends import hostile_agents, hostile_udp

_MOST_INPUT = 1_048_576

# the events of a publication of the text "A" in row 1 of changeable memory, and what a report of them says
PUBLICATION = [
    "publish 3 1 41 - 0 0 200 65535 255 192.0.2.1",
    "to-sign 0",
    "to-centre 0",
    "to-sign 1",
    "to-centre 1",
    "to-sign 2",
    "to-centre 2",
    "to-sign 3",
    "to-centre 3",
    "sign-tick",
    "to-sign 4",
    "to-centre 4",
    "to-sign 5",
    "to-centre 5",
    "centre-tick",
    "to-sign 6",
    "to-centre 6",
]
_SHOWN = "shown 3 1 9a66 mode 8 priority 200 remaining 65535 text 41"
_CODE = "ffffff0300019a66c0000201"
_ACCEPTED_BY = "to-sign 6"


_Script = tuple[str, int, list[str]]  # the script, how many hostile datagrams it has, and the report that is foretold


class _Shares(Protocol):
    """Hostile datagrams before an event: by the number that the centre waits for, how many there may be, and the
    event."""

    is_even: bool

    def __call__(self, waiting: int, left: int, event: str, /) -> Iterable[Datagram]:
        """Those before this event."""


def script(count: int, shares: _Shares) -> _Script:
    """The script with at most this many hostile datagrams, how many it has, and the report that is foretold. `shares`
    gives those for each event, by the number that the centre waits for."""
    room = (_MOST_INPUT - 2000) // len(PUBLICATION)
    lines, done, waiting, replies, events, accepted = ["bench"], 0, 1, 0, 0, 0
    own = []
    for event in PUBLICATION:
        size = 0
        for to, octets in shares(waiting, count - done, event):
            line = f"forge-{to} {octets.hex() or '-'}"
            if size + len(line) + 1 > room and shares.is_even:
                break
            lines.append(line)
            size, done, events = size + len(line) + 1, done + 1, events + 1
            replies += to == "sign" and is_answered(octets)
        events += 1
        if event.startswith("to-sign"):
            own.append(replies)
            replies += 1
            accepted = events if event == _ACCEPTED_BY else accepted
            lines.append(event)
        elif event.startswith("to-centre"):
            lines.append(f"to-centre {own[int(event.split()[1])]}")
            waiting += 1
        else:
            lines.append(event)
    report = [f"events {events}", f"sent 7 {replies}", _SHOWN, f"accepted {accepted} {_CODE}"]
    report.append(f"ledger 7 {_CODE} accepted")
    return "\n".join(lines) + "\n", done, report


class Random:
    """An even share of random datagrams before each event."""

    is_even = True

    def __init__(self, maker: Maker, count: int) -> None:
        self.maker, self.share = maker, max(1, count // len(PUBLICATION) + 1)

    def __call__(self, waiting: int, left: int, _: str) -> Iterable[Datagram]:
        return itertools.islice(random_ones(self.maker, waiting), min(self.share, left))


class _Given:
    """These datagrams, all while the centre waits for the first reply."""

    is_even = False

    def __init__(self, given: list[Datagram]) -> None:
        self.given = given

    def __call__(self, _: int, __: int, event: str) -> Iterable[Datagram]:
        return self.given if event == "to-sign 0" else []


def _near_scripts() -> Iterator[_Script]:
    """The datagrams of `near` in scripts that are short enough."""
    given, size = [], 0
    for to, octets in near():
        given.append((to, octets))
        size += 15 + 2 * len(octets)
        if size > _MOST_INPUT - 2000:
            yield script(len(given), _Given(given))
            given, size = [], 0
    yield script(len(given), _Given(given))


def _random_scripts(maker: Maker, count: int) -> Iterator[_Script]:
    while count > 0:
        made = script(count, Random(maker, count))
        count -= made[1]
        yield made


def _over_udp(asked: argparse.Namespace, maker: Maker) -> int:
    """To a sign's front end."""
    with tempfile.TemporaryDirectory() as folder:
        trial = Trial(os.path.abspath(asked.program), False, maker.random, pathlib.Path(folder))
        trial.other = os.path.abspath(asked.front_end) if asked.front_end else None
        try:
            hostile_udp.run(trial, all_to_sign(maker, asked.count))
        finally:
            trial.end()
    print(f"{trial.passed} passed, {trial.failed} failed")
    return 1 if trial.failed else 0


def run(program: str, text: str) -> tuple[subprocess.CompletedProcess[bytes], float]:
    before = time.monotonic()
    ended = subprocess.run([program, "replay"], input=text.encode(), capture_output=True, timeout=60, check=False)
    return ended, time.monotonic() - before


def _to_agents(asked: argparse.Namespace) -> tuple[int, int]:
    """How many signs with objects beside their own did as the model of them, and how many did not."""
    tried = []
    for size in agents.SIZES:
        exchange = hostile_agents.Exchange(asked.program, asked.seed, size)
        if not exchange.is_known:
            print("skipped objects beside a sign's: the program has no line `object`")
            exchange.end()
            break
        tried.append(exchange.run(asked.count // len(agents.SIZES)))
    return tried.count(True), tried.count(False)


def main() -> int:
    parser = argparse.ArgumentParser(description=__doc__, formatter_class=argparse.RawDescriptionHelpFormatter)
    top = pathlib.Path(__file__).resolve().parent.parent
    parser.add_argument("--count", type=int, default=20000, help="how many datagrams")
    parser.add_argument("--seed", type=int, default=1, help="of all that is random: the same again gives the same")
    parser.add_argument(
        "--program",
        default=str(top / "crates/signtool/out/signtool"),
        help="the program signtool, as tools/build.py makes it",
    )
    parser.add_argument("--print", action="store_true", help="prints a script of so many, and runs nothing")
    parser.add_argument("--udp", action="store_true", help="to a sign's front end")
    parser.add_argument("--front-end", metavar="PATH", help="another sign's front end, such as examples/out/signd")
    asked = parser.parse_args()
    maker = Maker(asked.seed)
    if asked.print:
        sys.stdout.write(script(asked.count, Random(maker, asked.count))[0])
        return 0
    if not os.access(asked.program, os.X_OK):
        print(f"no program at {asked.program}: tools/build.py builds it", file=sys.stderr)
        return 2
    if asked.udp or asked.front_end:
        return _over_udp(asked, maker)
    passed = failed = 0
    for text, done, report in itertools.chain(_near_scripts(), _random_scripts(maker, asked.count)):
        ended, seconds = run(asked.program, text)
        if ended.returncode == 0 and ended.stdout.decode().splitlines() == report and not ended.stderr:
            passed += 1
        else:
            failed += 1
            print(f"exit {ended.returncode}, reported:\n{ended.stdout.decode()}foretold:\n" + "\n".join(report))
            kept = pathlib.Path(f"hostile-{asked.seed}-{passed + failed}.script")
            kept.write_text(text, encoding="utf-8")
            print(f"the script is kept in {kept}")
        peak = resource.getrusage(resource.RUSAGE_CHILDREN).ru_maxrss
        print(f"{done} hostile datagrams, {len(text)} octets: {1000 * seconds:.0f} ms, at most {peak} KiB")
    with_objects, others = _to_agents(asked)
    passed, failed = passed + with_objects, failed + others
    print(f"{passed} passed, {failed} failed")
    return 1 if failed else 0


if __name__ == "__main__":
    sys.exit(main())
