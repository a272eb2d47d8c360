"""A journal of a year, and one of a gigabyte of ticks: how large, and how long a start takes."""

import itertools
import os
import pathlib
import resource
import time
from typing import Iterator

from model import wire
from wisangub.endpoint import records
from wisangub.endpoint.clock import Moment
from wisangub.endpoint.records import Head

from .bench import Trial
from .manager import DMS, Manager

MINUTES = 365 * 24 * 60
_BATCH = 20_000  # lines that are made at once


def _minute(at: int, now: Moment) -> Iterator[bytes]:
    """What a front end records in a minute: ten Gets each ten seconds, a SET, each second, the clock."""
    for poll in range(6):
        if poll == 3:
            bindings = [(DMS + (6, 10, 0), (wire.INTEGER, at % 65_536))]
            yield b"ticks 4"
            yield b"datagram " + wire.written(wire.Message(wire.SET, b"admin", at, 0, 0, bindings)).hex().encode()
            yield b"ticks 6"
        else:
            yield b"ticks 10"
        yield b"heard"
    yield now.later(60 * (at + 1)).clock()


def year(now: Moment, minutes: int) -> Iterator[bytes]:
    """The lines of so many minutes up to a moment."""
    begun = now.later(-60 * minutes)
    yield begun.start()
    yield begun.clock()
    for at in range(minutes):
        yield from _minute(at, begun)


def ticks(now: Moment, count: int) -> Iterator[bytes]:
    """So many records of ten seconds, and the clock each minute."""
    yield now.start()
    yield now.clock()
    for at in range(1, count + 1):
        yield b"ticks 10"
        if at % 6 == 0:
            yield now.later(10 * at).clock()


def write(head: Head, path: pathlib.Path, lines: Iterator[bytes]) -> int:
    """Writes a journal of a sign: how many lines."""
    count, synced = 0, 1
    with open(path, "wb") as file:
        some = [head._replace(form=records.FORM).line()]
        while some:
            for line in some:
                count += 1
                file.write(records.record(line, count, synced))
                synced = count + 1 if line.startswith(b"datagram") else synced
            some = list(itertools.islice(lines, _BATCH))
    os.chmod(path, 0o600)
    return count


def start(trial: Trial, name: str, path: pathlib.Path, count: int, counter: int) -> tuple[float, float]:
    """The seconds that a start over a journal takes by the clock, and of processors."""
    begun, size = time.monotonic(), path.stat().st_size
    front_end = trial.front_end(
        "wisangub-sign", "--port", "0", "--journal", str(path), "--down", "process", "--no-ticks"
    )
    while not front_end.port and front_end.process.poll() is None and time.monotonic() < begun + 600:
        front_end.wait_for_port()
    seconds, processor = time.monotonic() - begun, front_end.processor_time()
    if trial.holds(f"{name}: a front end starts", front_end.port != 0, front_end.errors.decode()):
        manager = Manager(front_end.port)
        found = manager.get([DMS + (6, 10, 0)])
        trial.holds(
            f"{name}: it is where the journal ends", bool(found) and found[0][1] == (wire.INTEGER, counter), found
        )
        manager.close()
    trial.holds(f"{name}: and ends", front_end.stop() == 0, front_end.errors.decode())
    print(
        f"{name}: {count} lines, {size / 1e6:.1f} MB, a start in {seconds:.1f} s by the clock and {processor:.1f} s of "
        f"processors, at most {resource.getrusage(resource.RUSAGE_CHILDREN).ru_maxrss // 1024} MiB, load "
        f"{os.getloadavg()[0]:.1f} of {os.cpu_count()} processors",
        flush=True,
    )
    return seconds, processor


def run(trial: Trial) -> None:
    """In the short form a day, and a megabyte of ticks."""
    path = trial.new_folder() / "journal"
    minutes = 24 * 60 if trial.is_short else MINUTES
    count = write(trial.head(), path, year(Moment.now(), minutes))
    size = path.stat().st_size
    taken = start(trial, "a day" if trial.is_short else "a year", path, count, (minutes - 1) % 65_536)
    if not trial.is_short:
        is_busy = os.getloadavg()[0] > (os.cpu_count() or 1)  # then the clock tells of the machine
        seconds = taken[1] if is_busy else max(taken)
        # form 2, which has two numbers in each record, takes 324 MB and does not hold this; form 1 took 200
        trial.holds("a year is under 300 MB, and starts in under 30 s", size < 300e6 and seconds < 30, (size, taken))
    path.unlink()
    records_of_ticks = (10**6 if trial.is_short else 10**9) // 23
    count = write(trial.head(), path, ticks(Moment.now().later(-10 * records_of_ticks), records_of_ticks))
    start(trial, "a megabyte of ticks" if trial.is_short else "a gigabyte of ticks", path, count, 0)
    path.unlink()
