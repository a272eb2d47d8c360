#!/usr/bin/env python3
"""From the exec of a sign's front end to the first Get that it answers, over a journal as long as it may be.

    measures/start_times.py [--count 20] [--signtool PROGRAM] [--signd SIGND] [--sign FILE] [--older OCTETS]

The sign is ten years old: its journal begins with a state that has the longest text and owner in each of its rows, and
behind that has as many records as a journal of usual size, 1 MB. wisangub-sign and signd start over it so often, and
once before that; beside it is told what a start without a journal takes. With --older both start once over a journal of
form 1 of so many octets, as 1000000000, which is made in the folder of temporary files and removed again: at that start
it is written anew, and kept, which wants four times the room. A clock tells of the machine: its load is told too.
"""

from __future__ import annotations

import argparse
import itertools
import os
import pathlib
import random
import shutil
import sys
import tempfile
import zlib
from collections.abc import Iterator

TOP = pathlib.Path(__file__).resolve().parent.parent
sys.path[:0] = [str(TOP), str(TOP / "python")]

from model import text, wire  # noqa: E402
from model.codes import CHANGEABLE, VOLATILE  # noqa: E402
from model.description import VALID  # noqa: E402
from model.objects import DMS  # noqa: E402
from model.sign import Sign  # noqa: E402
from trials.front_ends import starts, year  # noqa: E402
from trials.front_ends.bench import Trial  # noqa: E402
from trials.front_ends.patience import PACE  # noqa: E402
from wisangub.endpoint.clock import Moment  # noqa: E402
from wisangub.endpoint.records import Head  # noqa: E402
from wisangub.process import description  # noqa: E402

LONGEST = b"[jl3]" * 102 + b"AA"  # a text of as many octets as a row takes
_MODIFY, _VALIDATE = 6, 7  # of dmsMessageStatus
_STATUS, _PRIORITY = 9, 8  # columns of the message table
_OF_A_MINUTE = 300  # octets of a minute's records in form 1, at least
_MOST_WAIT = 3600.0  # seconds of a start over a journal of form 1
_BATCH = 10_000  # records that are written at once


def aged(described: bytes) -> Sign:
    """A sign of this description with the longest text and owner in each row that can be changed."""
    sign = Sign(text.described(described))
    for memory in (CHANGEABLE, VOLATILE):
        for number in range(1, len(sign.state.rows[memory]) + 1):
            _fill(sign, memory, number)
    return sign


def _fill(sign: Sign, memory: int, number: int) -> None:
    """A row of the sign is written, and validated."""
    fields: list[dict[int, object]] = [
        {_STATUS: _MODIFY},
        {3: LONGEST, 4: b"o" * 127, _PRIORITY: 100},
        {_STATUS: _VALIDATE},
    ]
    for some in fields:
        bindings: list[wire.Binding] = [
            (
                DMS + (5, 8, 1, column, memory, number),
                (wire.OCTETS if isinstance(value, bytes) else wire.INTEGER, value),
            )
            for column, value in some.items()
        ]
        sign.receive(wire.written(wire.Message(wire.SET, sign.state.writer, 1, 0, 0, bindings)))
    sign.tick()
    if sign.state.rows[memory][number - 1].status != VALID:
        raise ValueError(f"row {memory}.{number} takes no text of {len(LONGEST)} octets")


def write_older(head: Head, path: pathlib.Path, lines: Iterator[bytes], most: int) -> int:
    """Writes a journal of form 1 of about so many octets: how many records it has."""
    count = size = total = 0
    with open(path, "wb") as file:
        some = [head.line()]
        while some and size < most:
            made = []
            for line in some:
                summed = line + b" #"
                total = zlib.crc32(summed, total)
                tail = b"%08x\n" % total
                total = zlib.crc32(tail, total)
                made.append(summed + tail)
            size += file.write(b"".join(made))
            count += len(made)
            some = list(itertools.islice(lines, _BATCH))
    os.chmod(path, 0o600)
    return count


def _over_aged(trial: Trial, name: str, asked: argparse.Namespace, described: bytes) -> None:
    """Starts over a journal of a sign that is ten years old, and without one."""
    path, head = trial.new_folder() / "journal", Head("sign", description.digest(described))
    year.write(head, path, starts.longest(aged(described), Moment.now()))
    size, state = path.stat().st_size, path.read_bytes().index(b"\nend #")
    taken = starts.starts(trial, path, asked.count, "--sign", asked.sign)
    print(f"{name}, {size:,} octets, of them a state of {state:,}: {starts.in_words(taken)}", flush=True)
    year.write(head, path, iter(()))
    taken = starts.starts(trial, path, asked.count, "--sign", asked.sign)
    print(f"{name}, a journal without a record: {starts.in_words(taken)}", flush=True)


def _over_older(trial: Trial, name: str, asked: argparse.Namespace, described: bytes) -> None:
    """The first start over a journal of form 1."""
    path, head = trial.new_folder() / "journal", Head("sign", description.digest(described))
    count = write_older(head, path, year.year(Moment.now(), asked.older // _OF_A_MINUTE + 1), asked.older)
    size, PACE.most = path.stat().st_size, _MOST_WAIT
    PACE.took(_MOST_WAIT)
    taken = starts.once(trial, path, "--sign", asked.sign)
    anew = path.stat().st_size
    shutil.rmtree(path.parent)
    told = f"after {taken:.1f} s, load {os.getloadavg()[0]:.1f} of {os.cpu_count()} processors" if taken else "never"
    what = f"form 1, {size:,} octets, {count:,} records, written anew as {anew:,}"
    print(f"{name}, {what}: the first Get is answered {told}", flush=True)


def main() -> int:
    options = argparse.ArgumentParser(description=__doc__, formatter_class=argparse.RawDescriptionHelpFormatter)
    options.add_argument("--count", type=int, default=20, help="starts, of which the median is told")
    options.add_argument("--signtool", default=str(TOP / "crates/signtool/out/signtool"), help="of wisangub-sign")
    options.add_argument("--signd", default=str(TOP / "examples/out/signd"), help="the front end in C")
    options.add_argument("--sign", default=str(TOP / "signs/gantry.sign"), metavar="FILE", help="the description")
    options.add_argument("--older", type=int, default=0, metavar="OCTETS", help="of a journal of form 1")
    asked = options.parse_args()
    described = description.read(asked.sign) or b""
    failed = 0
    with tempfile.TemporaryDirectory(prefix="start-times-") as folder:
        for name, other in (("wisangub-sign", None), ("signd", asked.signd)):
            if not os.access(other or asked.signtool, os.X_OK):
                print(f"skipped {name}: there is no program at {other or asked.signtool}")
                continue
            trial = Trial(asked.signtool, False, random.Random(1), pathlib.Path(folder), other)
            try:
                _over_aged(trial, name, asked, described)
                if asked.older:
                    _over_older(trial, name, asked, described)
            finally:
                trial.end()
            failed += trial.failed
    return 1 if failed else 0


if __name__ == "__main__":
    sys.exit(main())
