"""Journals as files: prefixes, changed octets, exchanged records, those of something else."""

import contextlib
import io
import re

from wisangub.endpoint import records
from wisangub.endpoint.journal import Journal
from wisangub.endpoint.records import Head
from wisangub.process.places import TOP
from wisangub.refusal import Refusal

from .anew import Anew, answers
from .bench import Trial
from .follower import Follower, lines_of
from .manager import Manager
from .requests import Changes


class _Files:
    """A journal that a front end wrote, and what becomes of it."""

    def __init__(self, trial: Trial) -> None:
        self.trial, self.path = trial, trial.new_folder() / "journal"
        self.written = b""
        self.written = self.made()
        self.ends = [0, *(found.end() for found in re.finditer(rb"\n", self.written))]

    def made(self, *words: str) -> bytes:
        """What a life of several SETs and a Get leaves."""
        changes = Changes(self.trial.chance)
        front_end = self.trial.sign("--journal", str(self.path), "--no-ticks", *words)
        manager = Manager(front_end.port)
        for _ in range(6):
            manager.exchange(changes.next(manager))
            manager.get([Changes.COUNTER])
        manager.close()
        self.trial.holds("a life ends at a SIGTERM", front_end.stop() == 0, front_end.errors.decode())
        return self.path.read_bytes()

    def opened(self, octets: bytes) -> list[bytes] | str:
        """The lines that a front end has of these octets, or why it refuses them."""
        self.path.write_bytes(octets)
        try:
            with contextlib.redirect_stderr(io.StringIO()):
                journal = Journal.opened(str(self.path), self.trial.head())
        except Refusal as refused:
            return str(refused)
        lines = [line for some in journal.lines() for line in some]
        journal.close()
        self.tidy()
        return lines

    def tidy(self) -> None:
        """What was cut away is not kept."""
        for path in self.path.parent.glob("*.cut-*"):
            path.unlink()

    def lines(self, octets: bytes) -> list[bytes]:
        """The lines of whole records, without the front end's own."""
        return [line for line in lines_of(octets) if not line.startswith(records.OWN)]

    def started(self, name: str, octets: bytes) -> None:
        """A front end on these octets goes on where they end."""
        self.path.write_bytes(octets)
        follower = Follower(self.path)
        front_end = self.trial.sign("--journal", str(self.path), "--no-ticks")
        if self.trial.holds(f"{name}: a front end starts", front_end.port != 0, front_end.errors.decode()):
            manager = Manager(front_end.port)
            for line in lines_of(self.path.read_bytes()):
                follower.take(line)
            follower.compare(self.trial, name, manager)
            manager.close()
        self.trial.holds(f"{name}: and ends", front_end.stop() == 0, front_end.errors.decode())
        self.tidy()

    def prefixes(self) -> None:
        """Each prefix gives the lines that are whole, and some are started."""
        for size in range(0, len(self.written) + 1, 29 if self.trial.is_short else 1):
            if self.trial.is_late():
                break
            found, wanted = self.opened(self.written[:size]), self.lines(self.written[:size])
            if found != wanted:
                self.trial.holds(f"the first {size} octets", False, (found, wanted))
        self.trial.holds("each prefix gives its whole records", True)
        sizes = {
            *self.ends,
            *(end - 1 for end in self.ends[1:]),
            *(self.trial.chance.randrange(len(self.written)) for _ in range(20)),
        }
        for size in sorted(sizes) if not self.trial.is_short else self.trial.chance.sample(sorted(sizes), 6):
            if self.trial.is_late():
                break
            self.started(f"the first {size} octets", self.written[:size])

    def changed(self) -> None:
        """Each octet changed, and each two records exchanged: a refusal that leaves the file as it is."""
        for at in range(0, len(self.written), 29 if self.trial.is_short else 1):
            begin = max(end for end in self.ends if end <= at)
            octets = (
                self.written[:at]
                + bytes([self.written[at] ^ self.trial.chance.randint(1, 255)])
                + self.written[at + 1 :]
            )
            found, words = self.opened(octets), f"damaged at octet {begin}:" if begin else "is no journal"
            if not isinstance(found, str) or words not in found or self.path.read_bytes() != octets:
                self.trial.holds(f"octet {at} changed", False, (octets[begin:], found))
        self.trial.holds("each octet changed is refused", True)
        last = self.written[:-3] + b"!" + self.written[-2:]
        self.says("a changed last record", last, f"octet {self.ends[-2]}")
        self.says("and how it goes on", last, "--accept-damage")
        for first, second, third in zip(self.ends, self.ends[1:], self.ends[2:]):
            octets = (
                self.written[:first] + self.written[second:third] + self.written[first:second] + self.written[third:]
            )
            self.refused(
                f"records at {first} exchanged", octets, f"damaged at octet {first}:" if first else "is no journal"
            )

    def refused(self, name: str, octets: bytes, words: str) -> None:
        """Octets that are no journal of this sign are refused, and stay."""
        found = self.opened(octets)
        self.trial.holds(f"{name}: refused", isinstance(found, str) and words in found, found)
        self.trial.holds(f"{name}: the file stays", self.path.read_bytes() == octets)

    def others(self) -> None:
        """Journals of something else, and front ends beside one another."""
        for head, words in (
            (self.trial.head(rules=2, form=2), "its rules is 2"),
            (self.trial.head(form=3), "its form is 3"),
            (Head("centre", "bench", 1, 2), "its end is centre"),
            (Head("sign", "0" * 64, form=2), "another description"),
        ):
            octets = records.records([head.line(), b"ticks 5"])
            self.refused(words, octets, words)
            if not self.trial.is_late():
                self.says(words, octets, words)
        self.path.write_bytes(self.written)
        self.says(
            "another description by --sign",
            self.written,
            "another description",
            "--sign",
            str(TOP / "signs/roadside.sign"),
        )
        self.started("an empty file", b"")
        self.older()
        self.started("an untouched file", self.written)
        front_end = self.trial.sign("--journal", str(self.path), "--no-ticks")
        second = self.trial.sign("--journal", str(self.path), "--no-ticks")
        self.trial.holds(
            "a second front end ends at once",
            second.ended() == 2 and b"another front end holds this journal" in second.errors,
            second.errors.decode(),
        )
        self.trial.holds(
            "and the first goes on", answers(front_end) and front_end.stop() == 0, front_end.errors.decode()
        )

    def older(self) -> None:
        """A journal that another program wrote under the same rules; another front end goes on from one of ours."""
        program, other = self.trial.program, self.trial.other
        self.trial.program, self.trial.other = str(TOP / "model/signtool"), None
        self.path.unlink()
        octets = self.made(*(["--sign", str(self.trial.bench())] if other else []))
        self.trial.program, self.trial.other = program, other
        self.started("a journal of another program with the same rules", octets)

    def says(self, name: str, octets: bytes, words: str, *more: str) -> None:
        """A front end on these octets ends with status 2 and these words."""
        self.path.write_bytes(octets)
        front_end = self.trial.sign("--journal", str(self.path), *more)
        self.trial.holds(
            f"{name}: the front end says so and ends",
            front_end.ended() == 2 and words.encode() in front_end.errors and not front_end.output,
            front_end.errors.decode(),
        )


def run(trial: Trial) -> None:
    """All of it."""
    files = _Files(trial)
    anew = Anew(trial, files.path.parent, files.written)
    at_once = 3 if trial.is_short else 8
    parts = [files.changed, files.others, files.prefixes]
    if trial.is_ours("--fresh"):
        parts += [anew.fresh, lambda: anew.fresh_at_once(at_once)]
    for part in parts:
        if not trial.is_late():
            part()
