"""What anyone can send to a sign: where it is recorded otherwise than as it came, or not at all, a sign that was handed
it and one that was handed its journal are the same."""

import pathlib
import random
import time
from dataclasses import replace

from model import wire
from tests.snmp.edges import edges
from wisangub.endpoint.sign_front_end import line_of
from wisangub.endpoint.sorts import Sort, sort_of
from wisangub.process.coprocess import CoProcess
from wisangub.process.places import TOP

from .bench import Trial
from .follower import lines_of
from .gets import PLACES, requests, respelled
from .manager import DMS, Manager
from .requests import Bindings, Changes

_MANY = 100_000  # mutated datagrams of the long form
_SILENT = DMS + (6, 13, 0)
SILENCE = DMS + (6, 12, 0)
_BATCH = 50  # lines that are handed over together
_STRANGE = (b"private", b"admin", b"public", b"administrator", b"Admin", b"publi", b"public ", b"", b"admin\0")
_SIXTH = (3, 4, 5, 6, 7, 8, 10, 12, 13, 17, 24)
ALL = [DMS + (4, 1, 0), DMS + (5, 2, 0), DMS + (5, 9, 0), *(DMS + (6, at, 0) for at in _SIXTH)]


def mutated(octets: bytes, chance: random.Random) -> bytes:
    """A datagram with some octets changed, left out, put in or doubled."""
    made = bytearray(octets)
    for _ in range(chance.choice([0, 1, 1, 1, 2, 3])):
        at, kind = chance.randrange(len(made) + 1), chance.randrange(6)
        if kind == 0:
            made[at : at + 1] = bytes([chance.randrange(256)])
        elif kind == 1:
            del made[at : at + chance.randint(1, 3)]
        elif kind == 2:
            made[at:at] = chance.choice([b"\0", b"\x80", b"\xff", b"\x81", bytes([chance.randrange(256)])])
        elif kind == 3 and at < len(made):
            made[at] = (made[at] + chance.choice([-1, 1, 128])) % 256
        elif kind == 4 and at < len(made):
            made[at] ^= 1 << chance.randrange(8)
        elif chance.random() < 0.2:
            made[at:] = made[: chance.choice([0, 5, 1500])]
    return bytes(made)


class _Strangers:
    """A sign and another one beside it, which is handed what the first one's journal has."""

    def __init__(self, trial: Trial, name: str, path: pathlib.Path | None, who: tuple[bytes, bytes]) -> None:
        self.trial, self.chance, self.who = trial, trial.chance, who
        text = None if path is None else path.read_bytes()
        self.signs = [CoProcess(trial.program, ["sign"], text) for _ in range(2)]
        for sign in self.signs:
            sign.begin(b"state", name)
        self.changes = Changes(trial.chance)
        self.asked = [self.named(octets) for octets, _ in requests()]
        self.edges = [self.named(octets) for octets, _ in edges()]
        self.number = 0
        self.sorts = {sort: 0 for sort in Sort}
        self.other: list[str] = []

    def named(self, octets: bytes) -> bytes:
        """The same request in the names of this sign's communities, where it is one of the bench sign's."""
        message = wire.spelled(octets)
        if message is None or message.community not in (b"public", b"admin"):
            return octets
        return bytes(wire.written(replace(message, community=self.who[message.community == b"admin"])))

    def datagram(self) -> bytes:
        """A request of any kind, mutated."""
        chance = self.chance
        which = chance.random()
        some = self.asked if which < 0.35 else self.edges
        octets = chance.choice(some) if which < 0.5 else self.request(chance.choice(_STRANGE))
        if chance.random() < 0.2:
            forms = tuple(chance.choice([0, 0, 1, 2, 4]) for _ in range(PLACES))
            octets = respelled(octets, forms) or octets
        return mutated(octets, chance) if chance.random() < 0.7 else octets

    def request(self, community: bytes) -> bytes:
        """A request in some name."""
        chance = self.chance
        kind = chance.choice([wire.GET, wire.GET_NEXT, wire.SET, wire.SET, wire.SET, wire.RESPONSE])
        name, value = chance.choice(self.setting()) if chance.random() < 0.8 else (chance.choice(ALL), (wire.NULL, b""))
        bindings = [(name, value)] * chance.choice([0, 1, 1, 1, 2, 60, 90])
        return bytes(wire.written(wire.Message(kind, community, chance.randrange(-9, 2**31), 0, 0, bindings)))

    def setting(self) -> Bindings:
        """What a SET of the writer's asks for."""
        chance, changes = self.chance, self.changes
        kinds = (changes.counter, changes.number, changes.status, changes.field, changes.activation)
        made: list[Bindings] = [kind() for kind in kinds]
        return chance.choice(
            [
                *made,
                [(_SILENT, (wire.INTEGER, chance.choice([0, 1, 1, 2])))],
                [(SILENCE, (wire.OCTETS, bytes([7, 0, chance.randint(1, 9), 0, 0])))],
            ]
        )

    def both(self, lines: list[bytes]) -> None:
        """Lines that both are handed: they answer the same."""
        one, other = (sign.hand(lines) for sign in self.signs)
        self.other += [f"{line!r}: {a!r}, {b!r}" for line, a, b in zip(lines, one, other) if a != b]

    def step(self, asked: list[bytes]) -> None:
        """Datagrams to the first sign, and what its front end records of them to the second."""
        answers, recorded, others = self.signs[0].hand(list(map(line_of, asked))), [], []
        for octets, answer in zip(asked, answers):
            sort = sort_of(octets, *self.who)
            self.sorts[sort] += 1
            is_answered = not answer.startswith(b"dropped")
            if sort is Sort.UNANSWERED and is_answered or sort is Sort.HEARD and answer.startswith(b"accepted"):
                self.other.append(f"{sort}: {octets.hex()}: {answer!r}")
            if sort is Sort.CHANGING or sort is Sort.HEARD and is_answered:
                recorded.append(line_of(octets) if sort is Sort.CHANGING else b"heard")
                others.append(answer if sort is Sort.CHANGING else b"ok")
        found = self.signs[1].hand(recorded) if recorded else []
        self.other += [f"{line!r}: {a!r}, {b!r}" for line, a, b in zip(recorded, others, found) if a != b]

    def between(self) -> None:
        """What else happens to a sign."""
        chance = self.chance
        lines = [b"ticks %d" % chance.choice([1, 1, 5, 59, 60, 61, 130])]
        if chance.random() < 0.1:
            back = b"power-back %d" % chance.choice([0, 10, 10**6])
            lines += [b"power-lost", b"ticks 3", back][: chance.randint(1, 3)]
        elif chance.random() < 0.3:
            lines += [b"power-back 7"]
        settings = [self.setting() for _ in range(chance.randrange(6))]
        asked = [wire.Message(wire.SET, self.who[1], at, 0, 0, some) for at, some in enumerate(settings)]
        self.both(lines + [line_of(wire.written(one)) for one in asked])

    def look(self, is_whole: bool) -> None:
        """Both are the same, as far as it can be seen; looked at whole, their silence is over."""
        one, other = (sign.ask(b"state") + sign.ask(b"show") for sign in self.signs)
        self.other += [f"state: {one!r}, {other!r}"] if one != other else []
        if is_whole:
            names = [(wire.GET, name) for name in ALL] + [(wire.GET_NEXT, DMS + (5, 8, 1, at)) for at in (3, 9)]
            asked = [wire.Message(kind, self.who[0], 1, 0, 0, [(name, (wire.NULL, b""))]) for kind, name in names]
            self.both([line_of(wire.written(one)) for one in asked])

    def end(self) -> None:
        for sign in self.signs:
            sign.end()


def _against_program(trial: Trial, count: int) -> None:
    """Mutated datagrams in many states, to the bench sign and to another one."""
    begun = time.monotonic()
    for name, path, who in (
        ("the bench sign", None, (b"public", b"admin")),
        ("a sign at a road", TOP / "signs/roadside.sign", (b"public", b"administrator")),
    ):
        strangers = _Strangers(trial, name, path, who)
        strangers.step(strangers.edges)
        for at in range(count // _BATCH // 2):
            strangers.step([strangers.datagram() for _ in range(_BATCH)])
            strangers.between()
            strangers.look(is_whole=at % 7 == 0)
            if strangers.other or trial.is_late() and min(strangers.sorts.values()) > 0:
                break
        strangers.end()
        is_each = min(strangers.sorts.values()) > 0
        trial.holds(f"{name}: one that is handed its journal is the same", not strangers.other, strangers.other[:3])
        trial.holds(f"{name}: datagrams of each sort", is_each, strangers.sorts)
        told = ", ".join(f"{number} {sort.name.lower()}" for sort, number in strangers.sorts.items())
        print(f"mutated datagrams to {name}: {told}, {time.monotonic() - begun:.0f} s", flush=True)


def _fill(trial: Trial) -> None:
    """Strangers who send as much as they can leave nothing in a journal, or `heard`."""
    path = trial.new_folder() / "journal"
    front_end = trial.sign("--journal", str(path), "--no-ticks")
    before = len(lines_of(path.read_bytes()))
    stranger, reader = Manager(front_end.port, b"private"), Manager(front_end.port, b"public")
    setting: Bindings = [(Changes.COUNTER, (wire.INTEGER, 9))]
    for _ in range(60):
        for octets in (bytes(1472), bytes(3000), b"", stranger.request(wire.SET, setting), b"\x30\x82" + bytes(500)):
            stranger.socket.send(octets)
        stranger.socket.send(reader.request(wire.SET, setting))
        reader.exchange(reader.request(wire.SET, setting))
    stranger.close()
    reader.close()
    trial.holds("a sign that strangers write to ends", front_end.stop() == 0, front_end.errors.decode())
    lines = lines_of(path.read_bytes())[before:]
    is_well = lines.count(b"heard") == 1 and len(lines) == 2 and lines[-1].startswith(b"clock ")
    trial.holds("and has recorded nothing of theirs but that the silence is over", is_well, lines[:9])


def _so_many(trial: Trial) -> None:
    """Of the writing community some are recorded in a second, some wait, and the rest is dropped and counted."""
    folder = trial.new_folder()
    path, log = folder / "journal", folder / "log"
    front_end = trial.sign("--journal", str(path), "--no-ticks", "--log", str(log), "--most-recorded", "60")
    manager = Manager(front_end.port)
    made = [manager.request(wire.SET, [(Changes.COUNTER, (wire.INTEGER, at))]) for at in range(200)]
    replies = manager.exchange_all(made, 3.0)
    answered = [at for at, reply in enumerate(replies) if reply is not None]
    datagrams = [line for line in lines_of(path.read_bytes()) if line.startswith(b"datagram ")]
    dropped = log.read_text(encoding="utf-8").count(" too many ")
    is_well = answered[:60] == list(range(60)) and 60 + 64 <= len(answered) == len(datagrams) <= 200 - dropped
    trial.holds("those that wait are recorded in their seconds", is_well, (len(answered), len(datagrams), dropped))
    trial.holds("and the rest is dropped, and counted in the log", 0 < dropped <= 200 - 124, dropped)
    trial.holds("then SETs are answered as before", manager.exchange(manager.request(wire.SET, [])) is not None)
    manager.close()
    trial.holds("a sign that is asked too much ends", front_end.stop() == 0, front_end.errors.decode())


def run(trial: Trial) -> None:
    """All of it."""
    _against_program(trial, 2000 if trial.is_short else _MANY)
    for part in (_fill, _so_many):
        if not trial.is_late():
            part(trial)
