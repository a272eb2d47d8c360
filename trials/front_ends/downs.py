"""What the time without a process was: a loss of power by another boot's id, seconds by the same, and what overrules
them."""

import os
import time

from model import wire
from model.codes import Activation, MessageId
from wisangub.endpoint import records
from wisangub.endpoint.clock import Moment
from wisangub.endpoint.records import Head

from .bench import Trial
from .follower import Follower, lines_of
from .manager import DMS, Manager, Name

_VOLATILE: Name = DMS + (5, 8, 1, 9, 4, 1)


def _sets(bindings: list[tuple[Name, tuple[int, object]]]) -> bytes:
    """The line of a SET."""
    octets: bytes = wire.written(wire.Message(wire.SET, b"admin", 1, 0, 0, bindings))
    return b"datagram " + octets.hex().encode()


def lines(head: Head, last: Moment) -> list[bytes]:
    """A sign with a volatile row, a message of two minutes, and a loss of power of 30 seconds that is short; the last
    record is five seconds before the moment."""
    code = Activation(2, 255, MessageId(7, 9, 0), b"\x7f\0\0\1")
    made = [
        _sets([(_VOLATILE, (wire.INTEGER, 6))]),
        _sets([(DMS + (6, 10, 0), (wire.INTEGER, 30))]),
        _sets([(DMS + (6, 8, 0), (wire.OCTETS, MessageId(7, 8, 0).octets(False)))]),
        _sets([(DMS + (6, 3, 0), (wire.OCTETS, code.octets(False)))]),
    ]
    early = last.later(-5)
    return [head.line(), early.start(), early.clock(), *made, b"ticks 5"]


def _life(trial: Trial, name: str, last: Moment, wanted: list[bytes], *words: str) -> None:
    """A start over such a journal: the lines that it records, the last number with the seconds that the start took, and
    the walk after it."""
    path, begun = trial.new_folder() / "journal", time.monotonic()
    path.write_bytes(records.records(lines(trial.head(form=records.FORM), last)))
    before = len(lines_of(path.read_bytes()))
    front_end = trial.sign("--journal", str(path), "--no-ticks", *words)
    took = int(time.monotonic() - begun) + 2
    if trial.holds(f"{name}: a front end starts", front_end.port != 0, front_end.errors.decode()):
        new = [line for line in lines_of(path.read_bytes())[before:] if not line.startswith(records.OWN)]
        trial.holds(
            f"{name}: it records what the time was",
            len(new) == len(wanted) and all(_is_near(*pair, took) for pair in zip(new, wanted)),
            (new, wanted),
        )
        follower = Follower(path)
        for line in lines_of(path.read_bytes()):
            follower.take(line)
        manager = Manager(front_end.port)
        follower.compare(trial, name, manager)
        manager.close()
    trial.holds(f"{name}: and ends", front_end.stop() == 0, front_end.errors.decode())


def _of_a_centre(trial: Trial) -> None:
    """A centre is told nothing of the time without a process: what waits for a reply waits as it did."""
    path = trial.new_folder() / "journal"
    octets = records.records([Head("centre", "bench", 1, 2).line(), b"blank 5 65535 255 127.0.0.1", b"tick"])
    path.write_bytes(octets)
    os.utime(path, (time.time() - 3600, time.time() - 3600))
    front_end = trial.front_end(
        "wisangub-centre", "--to", "127.0.0.1:9", "--journal", str(path), "--tick", "900", "--wait", "0.1"
    )
    is_well = front_end.ended() == 1 and b"given up" in front_end.output and b"Traceback" not in front_end.errors
    trial.holds("a centre goes on with its job after an hour", is_well, (front_end.output, front_end.errors))
    trial.holds("and nothing is recorded of the hour", path.read_bytes() == octets, path.read_bytes())


def _is_near(found: bytes, wanted: bytes, more: int) -> bool:
    """Whether two lines are the same, but for a number of seconds that may be so many more, and is not 0."""
    one, _, number = found.partition(b" ")
    other, _, least = wanted.partition(b" ")
    if one != other or not number or not least:
        return found == wanted
    return int(least) <= int(number) <= int(least) + (more if int(least) else 0)


def run(trial: Trial) -> None:
    """Each row is how long ago the last record was, in which boot, and what a front end makes of the time since."""
    rows: list[tuple[str, bool, int, list[bytes], list[str]]] = [
        ("the process died for 40 seconds", True, 40, [b"ticks 40"], []),
        ("the process died for a week", True, 7 * 86_400, [b"ticks 86400"], []),
        ("the power was lost for 10 seconds", False, 10, [b"power-lost", b"power-back 10"], []),
        ("the power was lost for an hour", False, 3600, [b"power-lost", b"power-back 3600"], []),
        (
            "the power was lost, and the clock went back",
            False,
            -(10**6),
            [b"power-lost", b"power-back 4294967295"],
            [],
        ),
        ("--down process", False, 40, [b"ticks 40"], ["--down", "process"]),
        ("--down power", True, 40, [b"power-lost", b"power-back 40"], ["--down", "power"]),
    ]
    if trial.is_ours("a centre"):
        _of_a_centre(trial)
    for name, is_same_boot, seconds, wanted, words in rows:
        if trial.is_late():
            break
        now = Moment.now()
        last = now if is_same_boot else Moment("another", now.wall, 10**6)
        _life(trial, name, last.later(-seconds), wanted, *words)
