"""A centre's front end, its co-process, or both are killed again and again over one journal, while it publishes to a
sign."""

import contextlib
import pathlib
import subprocess
import time
from collections.abc import Iterator

from model import wire

from .bench import Trial
from .centre_lives import Centres
from .numbers import numbers
from .relay import Relay


@contextlib.contextmanager
def between(trial: Trial, folder: pathlib.Path) -> Iterator[Relay | None]:
    """What stands between a centre and a sign, which outlives all lives of the centre; none where no sign starts. What
    holds of all requests is looked at when all lives are over."""
    sign = trial.sign("--journal", str(folder / "sign"))
    if not trial.holds("a sign for the centre", sign.port != 0, sign.errors.decode()):
        yield None
        return
    relay = Relay(trial, sign.port)
    relay.start()
    try:
        yield relay
    finally:
        relay.end()
    numbers(trial, relay.requests)
    trial.holds("the sign goes on", sign.stop() == 0, sign.errors.decode())


def _fresh_lives(trial: Trial, count: int) -> int:
    """Centres that begin anew again and again, and are killed at random moments: no number is used again. How many were
    killed."""
    folder = trial.new_folder()
    with between(trial, trial.new_folder()) as relay:
        if relay is None:
            return 0
        centres = Centres(trial, relay, folder / "centre")
        for at in range(count):
            if trial.is_late():
                break
            centres.life("front end", centres.command(), *(["--fresh"] if at % 3 else []))
    aside = [path.read_bytes() for path in folder.iterdir()]
    trial.holds("no journal of a centre that began anew is lost", len(set(aside)) == len(aside), len(aside))
    return centres.killed


def again(trial: Trial, centres: Centres) -> None:
    """A fresh journal of a centre, whose numbers are above all that it used."""
    sent = [message.number for message in map(wire.spelled, list(centres.relay.requests)) if message is not None]
    used = max(sent, default=0)
    before = len(centres.relay.requests)
    front_end = trial.front_end(
        "wisangub-centre",
        "--to",
        f"127.0.0.1:{centres.relay.port()}",
        "--journal",
        str(centres.path),
        "--fresh",
        "--tick",
        "0.15",
        stdin=subprocess.PIPE,
    )
    assert front_end.process.stdin is not None
    front_end.process.stdin.write(b"blank 3 65535 255 127.0.0.1\n")
    front_end.process.stdin.close()
    status = front_end.ended()
    numbers = [message.number for message in map(wire.spelled, centres.relay.requests[before:]) if message is not None]
    trial.holds(
        "a fresh centre begins above all numbers",
        bool(numbers) and min(numbers) > used,
        (used, numbers, status, front_end.errors.decode()),
    )
    trial.holds("a fresh centre keeps the old journal", len(list(centres.path.parent.glob("centre.2*"))) == 1)


def run(trial: Trial, count: int) -> None:
    """So many kills, and a last life that tells the ledger."""
    begun, folder = time.monotonic(), trial.new_folder()
    with between(trial, folder) as relay:
        if relay is None:
            return
        centres = Centres(trial, relay, folder / "centre")
        centres.lives(count)
        again(trial, centres)
    begun_anew = _fresh_lives(trial, 3 if trial.is_short else 60)
    print(
        f"kills of a centre: {centres.killed}, {len(relay.requests)} requests, and {begun_anew} of centres that began "
        f"anew, {time.monotonic() - begun:.0f} s",
        flush=True,
    )
