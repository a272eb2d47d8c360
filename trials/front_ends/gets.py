"""Each request of vectors/ in every form of its lengths: nothing that changes a sign is taken for a Get."""

import itertools
import json
from typing import Iterator

from model import text, wire
from model.sign import Sign
from wisangub.process.places import TOP
from wisangub.snmp.gets import is_get

from .bench import FrontEnd, Trial
from .follower import lines_of
from .manager import Manager

_Form = tuple[int, ...]  # of the lengths of the message, the version, the community, the PDU, and all within the PDU
PLACES, _MOST_DIGITS = 5, 4
SHORTEST, _LONGEST = (0,) * PLACES, (_MOST_DIGITS,) * PLACES


def requests() -> list[tuple[bytes, bool]]:
    """Those of the vectors, and whether each changes a sign."""
    with open(TOP / "vectors/requests.jsonl", encoding="utf-8") as file:
        return [(bytes.fromhex(held["request"]), held["changes"]) for held in map(json.loads, file)]


def length(size: int, form: int) -> bytes:
    """A length in its shortest form (0), or with so many digits, as many as it takes."""
    if form == 0 and size < 128:
        return bytes([size])
    digits = max(form, (size.bit_length() + 7) // 8, 1)
    return bytes([128 + digits]) + size.to_bytes(digits, "big")


def _element(tag: int, content: bytes, form: int) -> bytes:
    return bytes([tag]) + length(len(content), form) + content


def _within(octets: bytes, form: int) -> bytes:
    """The same elements, spelled in the shortest form, with all their lengths in this one."""
    made, at = b"", 0
    while at < len(octets):
        tag, size, begin = octets[at], octets[at + 1], at + 2
        if size >= 128:
            begin += size - 128
            size = int.from_bytes(octets[at + 2 : begin], "big")
        content, at = octets[begin : begin + size], begin + size
        made += _element(tag, _within(content, form) if tag == wire.SEQUENCE else content, form)
    return made


def respelled(octets: bytes, forms: _Form) -> bytes | None:
    """The same message with its lengths in these forms."""
    message = wire.spelled(octets)
    if message is None:
        return None
    listed = wire.element(wire.SEQUENCE, b"".join(map(wire.binding, message.bindings)))
    pdu = wire.integer(message.number) + wire.integer(message.status) + wire.integer(message.index) + listed
    made = (
        _element(wire.INTEGER, b"\0", forms[1])
        + _element(wire.OCTETS, message.community, forms[2])
        + _element(message.kind, _within(pdu, forms[4]), forms[3])
    )
    return _element(wire.SEQUENCE, made, forms[0])


def forms() -> Iterator[_Form]:
    """Every form of each of the lengths alone, and all at once."""
    yield SHORTEST
    for form in range(1, _MOST_DIGITS + 1):
        for place in range(PLACES):
            yield tuple(form if at == place else 0 for at in range(PLACES))
        yield (form,) * PLACES


def _taken_for_gets(trial: Trial, some: list[bytes]) -> None:
    """Each request with every form of each outer length beside every one of the others: it is taken for a Get where it
    is one and they are in the shortest form, and nowhere else."""
    count, other = 0, []
    for octets in some:
        message = wire.spelled(octets)
        for inner in (0, _MOST_DIGITS):
            shortest = respelled(octets, (0, 0, 0, 0, inner))
            for outer in itertools.product(range(_MOST_DIGITS + 1), repeat=PLACES - 1):
                made = respelled(octets, (*outer, inner))
                assert made is not None and message is not None
                count += 1
                if is_get(made) != (message.kind in (wire.GET, wire.GET_NEXT) and made == shortest):
                    other.append(made.hex())
    trial.holds("what is taken for a Get is one, its outer lengths in the shortest form", not other, other[:3])
    print(f"requests with every form of each length: {count} looked at", flush=True)


class _Lives:
    """Lives of a sign over one journal: requests in some form of their lengths, a kill, and the whole walk after it.
    The model is handed each datagram that was answered."""

    def __init__(self, trial: Trial) -> None:
        self.trial, self.path = trial, trial.new_folder() / "journal"
        self.sign = Sign(text.bench())
        self.names = self.sign.objects.names
        self.count = 0

    def start(self) -> tuple[FrontEnd, Manager]:
        """A life that begins; the seconds since the one before are the model's too."""
        front_end = self.trial.sign("--journal", str(self.path), "--no-ticks")
        self.trial.holds("a life of requests begins", front_end.port != 0, front_end.errors.decode())
        lines = lines_of(self.path.read_bytes())
        for line in lines[max((at for at, line in enumerate(lines) if line.startswith(b"start ")), default=0) :]:
            if line.startswith(b"ticks "):
                self.sign.showing.ticks(int(line[6:]))
        return front_end, Manager(front_end.port)

    def ask(self, name: str, manager: Manager, made: bytes) -> None:
        """A request, and its reply by the model."""
        wanted, _ = self.sign.receive(made)
        reply = manager.exchange(made, 0.05 if wanted is None else None)
        self.trial.holds(f"{name}: the reply", reply == wanted, (made.hex(), reply, wanted))

    def compare(self, name: str, manager: Manager) -> None:
        found = manager.values(self.names)
        other = [one for one in self.names if found.get(one) != self.sign.objects.value(one)]
        self.trial.holds(f"{name}: after a kill the sign is what they left", not other, other[:5])

    def life(self, form: _Form, some: list[bytes]) -> None:
        """Some requests, a kill, and what comes back; a journal that grew long is begun anew."""
        name = f"{len(some)} requests with lengths {form}, after {self.count} lives"
        if self.count % 100 == 99:
            self.path, self.sign = self.trial.new_folder() / "journal", Sign(text.bench())
        front_end, manager = self.start()
        for octets in some:
            made = respelled(octets, form)
            if made is not None and len(made) <= wire.MOST_DATAGRAM:
                self.ask(name, manager, made)
        manager.close()
        self.over(front_end)
        after, manager = self.start()
        self.compare(name, manager)
        manager.close()
        self.over(after)
        self.count += 1

    def over(self, front_end: FrontEnd) -> None:
        """A kill, after which nothing of the life stays."""
        front_end.kill(self.trial.chance.choice(["front end", "both"]))
        front_end.forget()
        self.trial.front_ends.remove(front_end)


def _is_spelled(octets: bytes) -> bool:
    """Whether it can be spelled in another form."""
    return wire.spelled(octets) is not None


def run(trial: Trial) -> None:
    """All requests in each form of their lengths, with a kill after all; in the long form those that change a sign with
    a kill at each in the shortest form and in the longest. All of them one at a time are a trial of `spelled`."""
    every = [octets for octets, _ in requests() if _is_spelled(octets)]
    changing = [octets for octets, changes in requests() if changes]
    _taken_for_gets(trial, trial.chance.sample(every, 4) if trial.is_short else every)
    lives = _Lives(trial)
    for form in forms() if not trial.is_short else [SHORTEST, (0, 0, 0, 1, 0), (1,) * PLACES]:
        if trial.is_late():
            break
        lives.life(form, every)
    for form in () if trial.is_short else (SHORTEST, _LONGEST):
        for octets in changing:
            lives.life(form, [octets])
    print(f"requests in forms of their lengths: {lives.count} lives with a kill at the end of each", flush=True)
