"""A centre's journal that is shortened every few datagrams, while its front end, its co-process or both are killed, and
while it publishes to a sign."""

import os
import pathlib

from model import text
from model.restored_centre import restored
from model.saved_centre import saved
from wisangub.endpoint.records import Head

from .bench import Trial
from .centre_lives import Centres, status_of, take
from .centres import again, between
from .follower import lines_of
from .relay import Relay
from .shortened import cutting, goes_on, number

_KEEP = "1k"  # an idle state has some 100 octets, and a job is more
_FIRST, _END = b"state 1 centre", b"end"


class _Shortened(Centres):
    """Lives over a journal that is shortened every few datagrams; what is cut off is kept."""

    def __init__(self, trial: Trial, relay: Relay, folder: pathlib.Path) -> None:
        super().__init__(trial, relay, folder / "centre")
        self.kept, words = cutting(folder, _KEEP)
        self.words, self.times = ["--journal", str(self.path), *words], 0

    def may_go_on(self, call: str, errors: bytes) -> bool:
        """Where it is the shorter file that the disk refuses, the old one stays in force."""
        return super().may_go_on(call, errors) or b" is not shortened: " in errors

    def foretold(self) -> list[str]:
        """The status that the model has after the lines of all files that the journal had, by their numbers. The state
        that one begins with is that in which the one before it left the model."""
        world, files = text.World(text.bench()), self.files()
        for at, octets in enumerate(files):
            head, *lines = lines_of(octets)
            self.look_at_head(world, head, at)
            state = lines[: lines.index(_END) + 1] if lines[:1] == [_FIRST] else []
            wanted = [line.encode() for line in saved(world.centre)]
            self.trial.holds("a shortened journal begins with a state", bool(state) == (at > 0), lines[:3])
            if state:
                self.trial.holds("the state is that of the lines before it", state == wanted, (state, wanted))
                world.centre = restored(b"admin", False, b"".join(line + b"\n" for line in state))
            for line in lines[len(state) :]:
                take(world.centre, line)
        self.times = len(files) - 1
        return status_of(world)

    def look_at_head(self, world: text.World, line: bytes, at: int) -> None:
        """The first record has the number of the next request."""
        head = Head.of(line)
        self.trial.holds(
            f"file {at} of a centre begins with its next number",
            head is not None and head.first == world.centre.next,
            (line, world.centre.next),
        )

    def files(self) -> list[bytes]:
        """All files that the journal had, and the one in force last, which may have a name among those already."""
        names = sorted(self.kept.glob("centre.*-*"), key=number)
        return [path.read_bytes() for path in names if not os.path.samefile(path, self.path)] + [self.path.read_bytes()]


def run(trial: Trial, count: int) -> None:
    """Kills, a last life that tells the ledger, and one that begins afresh."""
    if not goes_on(trial, "centre", saved(text.World(text.bench()).centre)):
        return
    folder = trial.new_folder()
    with between(trial, folder) as relay:
        if relay is None:
            return
        centres = _Shortened(trial, relay, folder)
        centres.lives(count)
        again(trial, centres)
    print(f"kills of a centre: {centres.killed}, shortened {centres.times} times between them", flush=True)
