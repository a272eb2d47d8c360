"""Journals that are put aside for new ones."""

import pathlib

from model import wire

from .bench import FrontEnd, Trial, eventually
from .manager import Manager
from .requests import Changes


class Anew:
    """Signs that begin anew over a journal in a folder."""

    def __init__(self, trial: Trial, folder: pathlib.Path, written: bytes) -> None:
        self.trial, self.path, self.written = trial, folder / "journal", written

    def fresh(self) -> None:
        """`--fresh` keeps the old file, and a centre goes on above its numbers."""
        self.path.write_bytes(self.written)
        front_end = self.trial.sign("--journal", str(self.path), "--fresh", "--no-ticks")
        manager = Manager(front_end.port)
        found = manager.get([Changes.COUNTER])
        manager.close()
        self.trial.holds("a fresh sign is as it was made", bool(found) and found[0][1] == (wire.INTEGER, 0), found)
        aside = [path for path in self.path.parent.iterdir() if path != self.path]
        self.trial.holds("its old journal is kept", len(aside) == 1 and aside[0].read_bytes() == self.written, aside)
        self.trial.holds("a fresh sign ends", front_end.stop() == 0)

    def fresh_at_once(self, count: int) -> None:
        """Of many front ends that begin anew at once one does; the others end in words, and no file is lost."""
        self.path = self.trial.new_folder() / "journal"
        self.path.write_bytes(self.written)
        words = ["--port", "0", "--journal", str(self.path), "--fresh", "--no-ticks"]
        front_ends = [self.trial.front_end("wisangub-sign", *words) for _ in range(count)]
        eventually(
            lambda: all(
                front_end.process.poll() is not None or b"a sign at" in front_end.output for front_end in front_ends
            )
        )
        on = [front_end for front_end in front_ends if front_end.process.poll() is None]
        self.trial.holds(
            "of front ends that begin anew at once one does",
            len(on) == 1,
            [front_end.errors for front_end in front_ends],
        )
        for front_end in front_ends:
            front_end.wait_for_port()
            is_well = (
                front_end in on
                or front_end.ended() == 2
                and b"another front end holds this journal" in front_end.errors
            )
            self.trial.holds("and the others end in words", is_well, front_end.errors.decode())
        self.trial.holds("which answers", len(on) == 1 and answers(on[0]) and on[0].stop() == 0)
        aside = [path.read_bytes() for path in self.path.parent.iterdir() if path != self.path]
        self.trial.holds("and the old journal is there once", aside == [self.written], len(aside))


def answers(front_end: FrontEnd) -> bool:
    """Whether a sign answers."""
    manager = Manager(front_end.port)
    found = manager.get([Changes.COUNTER])
    manager.close()
    return bool(found)
