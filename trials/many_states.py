"""States by the thousand, of random talks and changed in each octet: python3 -m trials.many_states

    python3 -m trials.many_states [--signtool PATH] [--count 20000] [--changed 200] [--share 40] [--seed 1]
        [--jobs N] [--sign FILE ..]

Of each description (the bench sign, signs/roadside.sign and signs/gantry.sign where none is named) signs and centres
are spoken to at random, half of them of the program, half of the model. Each state that one of them comes to, of which
--count are taken, no two of one text, goes on in another process of the program and in the model: both save it again as
the same text. Of --changed of these each octet is changed, left out and doubled, and each line exchanged for another:
the model refuses such a text at a line, or has the state whose text it is, and never another; every --share-th is the
program's too, which says the same, line and reason. It prints what differs, and last `N passed, N failed`.
"""

import argparse
import functools
import itertools
import os
import random
import re
import sys
from collections.abc import Callable, Iterable, Iterator
from concurrent.futures import Executor, ProcessPoolExecutor
from typing import NamedTuple

from model import coprocess, saved_centre, text
from model.agent import Agent
from model.description import Description
from model.restored import restore
from model.restored_centre import restored
from model.saved import saved
from model.state import State as SignState
from model.state_text import Refused
from wisangub.process import description
from wisangub.process.coprocess import CoProcess
from wisangub.process.places import SIGNTOOL, TOP, program

from .centre_states import others
from .compare_coprocess import Lines, datagrams
from .states import begun

_SIGNS = (None, str(TOP / "signs/roadside.sign"), str(TOP / "signs/gantry.sign"))
_ENDS = (("centre", "sign"), ("sign", "centre"))
_LINES = 200  # to each end of a talk: then others begin as they are made, so that no ledger grows without bound
_BATCH = 25  # states that are looked at together
_MOST_TOLD = 5
_END = re.compile(rb"(?m)^end\r?\n")
Answers = Callable[[str, str], list[str]]
Told = bytes | str  # the text of the state that goes on; or the line that is refused, and why


class State(NamedTuple):
    """A state of an end: `described` is what the end is made of, as octets, none for the bench sign."""

    end: str
    described: bytes | None
    octets: bytes


class Looked(NamedTuple):
    """How often something was looked at, and what did not hold."""

    looks: int
    wrong: list[str]
    of_program: int = 0  # texts that the program was handed


class Counts:
    """All that was looked at; of what does not hold the first is printed."""

    def __init__(self) -> None:
        self.passed = self.failed = self.of_program = 0

    def take(self, looked: Looked) -> None:
        for what in looked.wrong[: max(0, _MOST_TOLD - self.failed)]:
            print(what[:2000], flush=True)
        self.passed, self.failed = self.passed + looked.looks - len(looked.wrong), self.failed + len(looked.wrong)
        self.of_program += looked.of_program


@functools.cache
def described_as(octets: bytes | None) -> Description:
    return text.bench() if octets is None else text.described(octets)


def told_by_model(state: State) -> Told:
    """What the model makes of a text."""
    described = described_as(state.described)
    try:
        if state.end == "centre":
            lines = saved_centre.saved(restored(described.writer, described.swapped, state.octets))
        else:
            sign = SignState(described)
            restore(sign, state.octets)
            lines = saved(sign)
    except Refused as refused:
        return str(refused)
    return "".join(f"{line}\n" for line in lines).encode()


def told_by_program(signtool: str, state: State) -> Told:
    """What the program makes of it, which is asked to save it again; what is neither is told as it stands."""
    ended = begun(signtool, state.end, state.described, state.octets + b"save\n")
    found = re.match(rb"state (line ([0-9]+): .*)\n", ended.stderr)
    if found and ended.returncode == 1 and ended.stdout == b"state line %b\n" % found[2]:
        return found[1].decode("latin-1")
    if ended.returncode == 0 and ended.stdout.endswith(b"ok\n"):
        return ended.stdout[:-3]
    return f"status {ended.returncode}, {ended.stdout!r}, {ended.stderr!r}"


# ---- talks


def of_model(described: Description) -> Answers:
    """A sign and a centre of the model."""
    agent, world = Agent(described), text.World(described)
    ends = {
        "sign": functools.partial(coprocess.sign_answer, agent),
        "centre": functools.partial(coprocess.centre_answer, world),
    }
    return lambda end, line: coprocess.answered(ends[end], line.encode())


def talk(chance: random.Random, answers: Answers) -> Iterator[tuple[str, bytes]]:
    """The state of each end after each line to it."""
    lines = Lines(chance, datagrams_there())
    for _ in range(_LINES):
        for end, other in _ENDS:
            last = answers(end, lines.line(end))[-1].split(" ")
            if last[0] in ("reply", "accepted", "send"):
                lines.sent[other] = last[-1]
            yield end, "".join(f"{line}\n" for line in answers(end, "save")[:-1]).encode()


@functools.cache
def datagrams_there() -> list[str]:
    return datagrams()


def talks_of_program(signtool: str, chance: random.Random, sign: str | None) -> Iterator[tuple[str, bytes]]:
    """A talk of a sign and a centre of the program."""
    ends = {end: CoProcess(signtool, [end], description.read(sign)) for end, _ in _ENDS}
    for end, process in ends.items():
        process.begin(b"state" if end == "sign" else b"status", sign or signtool)
    try:
        yield from talk(chance, lambda end, line: ends[end].send(line))
    finally:
        for process in ends.values():
            process.end()


def states(signtool: str, seed: int, signs: Iterable[str | None]) -> Iterator[State]:
    """The states of talks without end, of each description in turn, by the program and by the model, each text once."""
    had = set()
    for number, sign, is_program in ((at, sign, by) for at in itertools.count(seed) for sign in signs for by in (1, 0)):
        chance, octets = random.Random(f"{number} {sign} {is_program}"), description.read(sign)
        found = talks_of_program(signtool, chance, sign) if is_program else talk(chance, of_model(described_as(octets)))
        for end, told in found:
            state = State(end, octets, told)
            if state not in had:
                had.add(state)
                yield state


# ---- what is looked at


def in_batches(some: Iterator[State]) -> Iterator[list[State]]:
    while batch := list(itertools.islice(some, _BATCH)):
        yield batch


def gone_on(signtool: str, some: list[State]) -> Looked:
    """Each is saved again as the same text by both."""
    wrong = []
    for state in some:
        for who, told in (("the model", told_by_model(state)), ("the program", told_by_program(signtool, state))):
            if told != state.octets:
                wrong.append(f"a {state.end}, {state.octets!r}: {who} {told!r}")
    return Looked(2 * len(some), wrong, len(some))


def is_other(state: State, told: Told) -> bool:
    """Whether a text is taken for a state of another text, or is refused at no line of it."""
    if isinstance(told, bytes):
        return told != state.octets
    found = re.match(r"line ([0-9]+): ", told)
    return found is None or not 1 <= int(found[1]) <= state.octets.count(b"\n") + 1


def is_whole(octets: bytes) -> bool:
    """Whether a process reads just these octets as a state: up to their first line `end`, which is the last."""
    found = _END.search(octets)
    return found is not None and found.end() == len(octets)


def changed(signtool: str, seed: int, share: int, state: State) -> Looked:
    """Each text that is nearly this one."""
    chance = random.Random(f"{seed} {state}")
    near = {State(state.end, state.described, octets) for octets in others(chance, state.octets)}
    count, of_program, wrong = len(near), 0, []
    for other in sorted(near):
        told = told_by_model(other)
        if is_other(other, told):
            wrong.append(f"a {other.end}, {other.octets!r}: the model {told!r}")
        if is_whole(other.octets) and chance.randrange(share) == 0:
            by_program, of_program = told_by_program(signtool, other), of_program + 1
            if by_program != told:
                wrong.append(f"a {other.end}, {other.octets!r}: {by_program!r}, the model {told!r}")
    return Looked(count + of_program, wrong, of_program)


def all_gone_on(asked: argparse.Namespace, pool: Executor, counts: Counts) -> list[State]:
    """The states, each of which goes on."""
    taken = list(itertools.islice(states(asked.signtool, asked.seed, asked.sign or _SIGNS), asked.count))
    for looked in pool.map(functools.partial(gone_on, asked.signtool), in_batches(iter(taken))):
        counts.take(looked)
    print(f"states: {len(taken)}, {counts.failed} of them not as they were", flush=True)
    return taken


def all_changed(asked: argparse.Namespace, pool: Executor, counts: Counts, some: list[State]) -> None:
    """The changed texts of these states, each state by a process of its own."""
    look, before = functools.partial(changed, asked.signtool, asked.seed, asked.share), counts.of_program
    for at, looked in enumerate(pool.map(look, some), 1):
        counts.take(looked)
        if at % _BATCH == 0 or at == len(some):
            print(f"changed: {at} states, {counts.of_program - before} of their texts by the program too", flush=True)


def main() -> int:
    parser = argparse.ArgumentParser(description="states of random talks that go on elsewhere, and changed ones")
    parser.add_argument(
        "--signtool", type=program, default=str(SIGNTOOL), help="the program signtool, as tools/build.py makes it"
    )
    parser.add_argument("--count", type=int, default=20_000, help="how many states")
    parser.add_argument("--changed", type=int, default=200, help="of how many of them each octet is changed")
    parser.add_argument("--share", type=int, default=40, help="one in so many changed texts is the program's too")
    parser.add_argument("--seed", type=int, default=1, help="of all that is random: the same again gives the same")
    parser.add_argument("--jobs", type=int, default=len(os.sched_getaffinity(0)), help="processes side by side")
    parser.add_argument("--sign", nargs="*", help="descriptions, as in signs/; else three signs")
    asked = parser.parse_args()
    counts = Counts()
    with ProcessPoolExecutor(asked.jobs) as pool:
        taken = all_gone_on(asked, pool, counts)
        some = random.Random(asked.seed).sample(taken, min(asked.changed, len(taken)))
        all_changed(asked, pool, counts, some)
    print(f"{counts.passed} passed, {counts.failed} failed")
    return 0 if counts.failed == 0 else 1


if __name__ == "__main__":
    sys.exit(main())
