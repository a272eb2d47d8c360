"""Ends that outlive their process: front ends that are killed, disks that refuse, journals that are changed.

    python3 -m trials.lasting [--short] [--seed 1] [--only WORD] [--front-end PATH] [PROGRAM]

The program is signtool, or another that answers the same lines: model/signtool. With --front-end the sign's front
end is that program, examples/signd.c's, in place of wisangub-sign, and what is of our front ends alone is left out.
The short form takes at most two minutes. It prints what does not hold, a line when a kind of trial is over, and last
`N passed, N failed`, with `, N skipped` where something cannot be tried here. How long anything is waited for goes
by what a front end's start takes on this machine; a kind of trial that hangs is ended and counts as failed, with
where it stood, and the others go on. It needs no network but loopback, and leaves no process and no file.
"""

import argparse
import faulthandler
import os
import pathlib
import random
import sys
import tempfile
import time
import traceback
from dataclasses import dataclass
from typing import Callable

from trials.front_ends.bench import Trial
from trials.front_ends.patience import HANGS, PACE, Hangs, watched
from wisangub.process.places import SIGNTOOL

from .front_ends import (
    bits,
    centres,
    centres_shortened,
    dimmed,
    disks,
    downs,
    faults,
    files,
    gets,
    kills,
    logs,
    operators,
    parts,
    shortened,
    speed,
    spelled,
    stops,
    strangers,
    streams,
    words,
    year,
)

_ENOUGH = 95.0  # seconds of the short form, after which no other kind of trial begins
_MOST_PATIENCE = 200.0  # seconds that anything is waited for in the short form
_MOST_IN_ALL = 1150.0  # seconds of the short form, after which all ends where it stands: the gate gives it 1200
LONG = 4 * 3600.0  # seconds that a kind of trial may take in the long form


@dataclass(frozen=True)
class _Kind:
    """A kind of trial, and the seconds of the short form after which it begins no more lives: on a machine that is busy
    there are fewer. It is ended after so long and twice what hangs or is waited for."""

    run: Callable[[Trial], None]
    share: float = 5.0
    is_ours: bool = False  # it is of the parts of our front ends, or of a centre's front end


_KINDS = {
    "parts": _Kind(parts.run, is_ours=True),
    "kills": _Kind(lambda trial: kills.run(trial, 24 if trial.is_short else 1000), 11.0),
    "shortened": _Kind(shortened.run, 8.0),
    "shortened-centres": _Kind(lambda trial: centres_shortened.run(trial, 4 if trial.is_short else 200), 8.0, True),
    "faults": _Kind(faults.run, 8.0),
    "centres": _Kind(lambda trial: centres.run(trial, 6 if trial.is_short else 200), 11.0, True),
    "files": _Kind(files.run, 6.0),
    "bits": _Kind(bits.run, 6.0),
    "gets": _Kind(gets.run),
    "spelled": _Kind(spelled.run, 4.0, True),
    "strangers": _Kind(strangers.run, 6.0, True),
    "disks": _Kind(disks.run, 4.0),
    "downs": _Kind(downs.run),
    "dimmed": _Kind(dimmed.run, 8.0),
    "stops": _Kind(stops.run, 8.0),
    "streams": _Kind(streams.run, 4.0),
    "words": _Kind(words.run, 8.0, True),
    "operators": _Kind(operators.run, 8.0, True),
    "logs": _Kind(logs.run, 3.0, True),
    "year": _Kind(year.run, 3.0),
    "speed": _Kind(speed.run, 3.0),
}


def tried(trial: Trial, name: str, kind: _Kind) -> float:
    """A kind of trial; what hangs in it, or is no fault that it expects, is counted as failed. The seconds that were
    lost so."""
    begun, lost = time.monotonic(), 0.0
    most = kind.share + 2 * max(HANGS, PACE.patience()) if trial.is_short else LONG
    try:
        with watched(most):
            kind.run(trial)
    except (Exception, Hangs):
        trial.holds(f"{name} comes to its end", False, traceback.format_exc())
        trial.end()
        lost = time.monotonic() - begun
    print(f"{name}: {time.monotonic() - begun:.0f} s, load {os.getloadavg()[0]:.1f}", flush=True)
    return lost


def _all_tried(trial: Trial, only: str | None) -> None:
    """Each kind of trial, or one alone; in the short form as many as there is time for."""
    enough = time.monotonic() + _ENOUGH
    PACE.most = _MOST_PATIENCE if trial.is_short else PACE.most
    trial.measure()
    print(f"a front end starts in {PACE.start():.2f} s: waits of at most {PACE.patience():.0f} s", flush=True)
    kinds = [(name, kind) for name, kind in _KINDS.items() if only is None or name.split("-")[0] == only]
    for at, (name, kind) in enumerate(kinds):
        if kind.is_ours and not trial.is_ours(name):
            continue
        now, shares = time.monotonic(), sum(later.share for _, later in kinds[at:])
        if trial.is_short and now > enough:
            trial.skip(name, "this machine is too busy for it in the short form")
        else:
            trial.ends = now + kind.share * min(1.0, (enough - now) / shares)
            enough += tried(trial, name, kind)


def main() -> int:
    options = argparse.ArgumentParser(
        description="front ends that are killed, disks that refuse, journals that are changed"
    )
    options.add_argument(
        "program", nargs="?", default=str(SIGNTOOL), help="signtool, or another that answers the same lines"
    )
    options.add_argument("--short", action="store_true", help="at most two minutes")
    options.add_argument("--seed", type=int, default=1, help="of all that is random: the same again gives the same")
    options.add_argument("--front-end", metavar="PATH", help="another sign's front end, such as examples/out/signd")
    options.add_argument(
        "--only", choices=sorted({name.split("-")[0] for name in _KINDS}), help="one kind of trial alone"
    )
    asked = options.parse_args()
    if not os.access(asked.program, os.X_OK):
        print(f"no program at {asked.program}: tools/build.py builds it", file=sys.stderr)
        return 2
    if asked.short:
        faulthandler.dump_traceback_later(_MOST_IN_ALL, exit=True)
    with tempfile.TemporaryDirectory() as folder:
        trial = Trial(os.path.abspath(asked.program), asked.short, random.Random(asked.seed), pathlib.Path(folder))
        trial.other = os.path.abspath(asked.front_end) if asked.front_end else None
        try:
            _all_tried(trial, asked.only)
        finally:
            trial.end()
    print(f"{trial.passed} passed, {trial.failed} failed" + (f", {trial.skipped} skipped" if trial.skipped else ""))
    return 1 if trial.failed else 0


if __name__ == "__main__":
    sys.exit(main())
