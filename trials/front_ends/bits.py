"""Journals with a bit that was changed, a sector of zeros, or a last write of which some sectors reached the disk."""

import itertools
import pathlib
import zlib

from model import wire
from wisangub.endpoint import damage, records
from wisangub.endpoint.damage import End
from wisangub.endpoint.records import SECTOR, whole

from .bench import FrontEnd, Trial
from .follower import Follower, lines_of
from .manager import DMS, Manager
from .requests import Bindings, Changes

_LAST, _OTHERS = 10, 2000  # records each bit of which is changed, and bits of others
TEXT = DMS + (5, 8, 1, 3)


class _Bits:
    """A journal that a sign's front end wrote, with SETs each of which was answered, the last one over several
    sectors."""

    def __init__(self, trial: Trial) -> None:
        self.trial, self.path = trial, trial.new_folder() / "journal"
        front_end = trial.sign("--journal", str(self.path), "--no-ticks")
        manager, changes = Manager(front_end.port), Changes(trial.chance)
        answered = True
        for _ in range(24):
            answered &= manager.exchange(manager.request(wire.SET, changes.counter())) is not None
            manager.get([Changes.COUNTER])
        before = self.path.stat().st_size
        long: Bindings = [(TEXT + (3, at + 1), (wire.OCTETS, b"A" * 250)) for at in range(3)]
        answered &= manager.exchange(manager.request(wire.SET, long)) is not None
        trial.holds("all SETs are answered", answered)
        self.size = self.path.stat().st_size  # what is there at a kill
        manager.close()
        front_end.kill("both")
        front_end.forget()
        trial.front_ends.remove(front_end)
        self.text = self.path.read_bytes()
        self.begin = self.text.rfind(b"\n", 0, len(self.text) - 1) + 1
        trial.holds("the last write is over several sectors", before <= self.begin < self.size - 2 * SECTOR)

    def flipped(self, bit: int) -> bytes:
        at = bit // 8
        return self.text[:at] + bytes([self.text[at] ^ 1 << bit % 8]) + self.text[at + 1 :]

    def torn(self, written: set[int], size: int) -> bytes:
        """The file with these sectors of its last write."""
        octets = bytearray(self.text[:size])
        for at in range(self.begin, size):
            if at // SECTOR not in written:
                octets[at] = 0
        return bytes(octets)

    def bits(self) -> None:
        """Each bit of the last records, and some of others: damage, by the reader."""
        last = len(self.text)
        for _ in range(_LAST):
            last = self.text.rfind(b"\n", 0, last - 1) + 1
        bits = [*range(8 * last, 8 * len(self.text)), *(self.trial.chance.randrange(8 * last) for _ in range(_OTHERS))]
        taken = []
        for bit in bits if not self.trial.is_short else self.trial.chance.sample(bits, 600):
            octets = self.flipped(bit)
            found = whole(octets)
            if damage.end_of(octets, found) is not End.DAMAGED:
                taken.append((bit, found))
        self.trial.holds("no bit that is changed is taken for a torn end", not taken, taken[:3])
        print(f"bits changed: {len(bits) if not self.trial.is_short else 600}", flush=True)

    def refused(self, name: str, octets: bytes) -> None:
        """The front end refuses it by the octet and with the option, and leaves it as it is; with the option it goes
        on."""
        self.path.write_bytes(octets)
        front_end = self.trial.sign("--journal", str(self.path), "--no-ticks")
        size = whole(octets).size
        is_well = front_end.ended() in (1, 2) and self.is_told(front_end, size) and not front_end.output
        self.trial.holds(
            f"{name}: refused", is_well, (front_end.process.returncode, front_end.errors.decode("latin-1"))
        )
        self.trial.holds(f"{name}: the file stays", self.path.read_bytes() == octets)
        if size:
            self.goes_on(name, octets, size, "--accept-damage")

    def is_told(self, front_end: FrontEnd, size: int) -> bool:
        """Whether a front end says where a journal is damaged, and how it goes on."""
        is_named = f"octet {size}".encode() in front_end.errors and b"--accept-damage" in front_end.errors
        return is_named or size == 0 and b"is no journal" in front_end.errors

    def goes_on(self, name: str, octets: bytes, size: int, *words: str) -> None:
        """A front end goes on from so many octets, and puts the rest aside."""
        self.path.write_bytes(octets)
        front_end = self.trial.sign("--journal", str(self.path), "--no-ticks", *words)
        if self.trial.holds(
            f"{name}: a front end starts {words}", front_end.port != 0, front_end.errors.decode("latin-1")
        ):
            manager, follower = Manager(front_end.port), Follower(self.path)
            for line in lines_of(self.path.read_bytes()):
                follower.take(line)
            follower.compare(self.trial, name, manager)
            manager.close()
        self.trial.holds(f"{name}: and ends", front_end.stop() == 0, front_end.errors.decode("latin-1"))
        kept_size = _finished(octets, size)
        self.trial.holds(f"{name}: what was whole stays", self.path.read_bytes().startswith(octets[:kept_size]))
        asides = [path for path in self.path.parent.iterdir() if path != self.path]
        kept = [path.read_bytes() for path in asides]
        is_aside = len(octets) == kept_size or kept == [octets[kept_size:]]
        self.trial.holds(f"{name}: the rest is put aside", is_aside, asides)
        modes = {path.stat().st_mode & 0o777 for path in asides}
        self.trial.holds(f"{name}: for its owner alone", modes <= {0o600}, modes)
        for path in asides:
            path.unlink()

    def front_ends(self) -> None:
        """What the front end itself makes of some."""
        chance, bits = self.trial.chance, [8 * len(self.text) - 7, 8 * self.begin + 3, 8 * (self.begin - 1)]
        bits.append(8 * (self.text.find(b"\nclock ") + len(b"\nclock ")))
        bits += [chance.randrange(8 * len(self.text)) for _ in range(1 if self.trial.is_short else 100)]
        for bit in bits:
            if not self.trial.is_late():
                self.refused(f"bit {bit} of {8 * len(self.text)} changed", self.flipped(bit))
        for at in range(0, self.begin - SECTOR, SECTOR * (5 if self.trial.is_short else 1)):
            if not self.trial.is_late():
                self.refused(f"zeros from {at} on", self.text[:at] + bytes(SECTOR) + self.text[at + SECTOR :])

    def sectors(self) -> None:
        """Each sector of the last write in each order: by the reader, and some by the front end."""
        sectors = range(self.begin // SECTOR, (self.size - 1) // SECTOR + 1)
        sizes = [self.size, *(SECTOR * at for at in sectors[1:]), self.begin + 1]
        every = [
            (set(some), size)
            for count in range(len(sectors) + 1)
            for some in itertools.combinations(sectors, count)
            for size in sizes
        ]
        other = []
        for some, size in every:
            octets = self.torn(some, size)
            found = whole(octets)
            wanted = End.NONE if octets == self.text else End.TORN
            if damage.end_of(octets, found) is not wanted or found.size < self.begin:
                other.append((some, size, found))
        self.trial.holds("whatever sectors of a last write are there, it is torn", not other, other[:3])
        for some, size in self.trial.chance.sample(every, 2 if self.trial.is_short else 40):
            octets = self.torn(some, size)
            if not self.trial.is_late() and octets != self.text:
                self.goes_on(f"sectors {some} of the last write, {size} octets", octets, whole(octets).size)
        print(f"last writes with some of their sectors: {len(every)}", flush=True)


def _finished(octets: bytes, size: int) -> int:
    """How much of so many octets of whole records a front end goes on from: a start that no clock follows was not
    finished, and is put aside too."""
    start = octets.rfind(b"\nstart ", 0, size) + 1
    return start if start and octets.find(b"\nclock ", start, size) == -1 else size


def _older(trial: Trial, path: pathlib.Path, text: bytes) -> None:
    """A journal of form 1 is written anew by a front end, and is kept as it was."""
    lines = [line.replace(b"journal 2 ", b"journal 1 ") for line in lines_of(text)]
    path.write_bytes(written(lines))
    before = path.read_bytes()
    front_end = trial.sign("--journal", str(path), "--no-ticks")
    if trial.holds("a journal of form 1: a front end starts", front_end.port != 0, front_end.errors.decode()):
        manager, follower = Manager(front_end.port), Follower(path)
        for line in lines_of(path.read_bytes()):
            follower.take(line)
        follower.compare(trial, "a journal of form 1", manager)
        manager.close()
    trial.holds("a journal of form 1: and ends", front_end.stop() == 0, front_end.errors.decode())
    kept = path.with_name(path.name + ".form1")
    trial.holds("a journal of form 1 is kept as it was", kept.exists() and kept.read_bytes() == before)
    trial.holds("and written anew", lines_of(path.read_bytes())[1 : len(lines)] == lines[1:])
    path.write_bytes(before[:-4] + b"!" + before[-3:])
    front_end = trial.sign("--journal", str(path), "--no-ticks")
    is_well = front_end.ended() in (1, 2) and b"--accept-damage" in front_end.errors and not front_end.output
    trial.holds("a journal of form 1 that is changed is refused", is_well, front_end.errors.decode())


def written(lines: list[bytes]) -> bytes:
    """A journal of form 1."""
    made = b""
    for line in lines:
        made += line + b" #"
        made += b"%08x\n" % zlib.crc32(made)
    return made


def unknown(trial: Trial, path: pathlib.Path, text: bytes) -> None:
    """A whole record with a line that no end knows is refused by name."""
    number = text.count(b"\n") + 1
    for line in (b"hello world", b"ticks 12x", b"ticks 4294967296"):
        octets = text + records.record(line, number, number)
        path.write_bytes(octets)
        front_end = trial.sign("--journal", str(path), "--no-ticks")
        is_well = (
            front_end.ended() in (1, 2)
            and line in front_end.errors
            and path.read_bytes() == octets
            and not front_end.output
        )
        trial.holds(f"a record {line!r}: refused by name", is_well, front_end.errors.decode("latin-1"))


def run(trial: Trial) -> None:
    """All of it."""
    bits = _Bits(trial)
    bits.bits()
    bits.sectors()
    bits.front_ends()
    _older(trial, bits.path, bits.text)
    if not trial.is_late():
        unknown(trial, bits.path, bits.text)
