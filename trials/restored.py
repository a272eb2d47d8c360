"""Signs and centres that are saved, and go on in another process: python3 -m trials.restored

    python3 -m trials.restored [--signtool PATH] [--count 600] [--states 40] [--changed 1] [--seed 1] [--sign FILE ..]

Of each description (the bench sign, signs/roadside.sign and signs/gantry.sign where none is named) a sign and a centre
are spoken to at random, as `trials.compare_coprocess` does. Now and then each is saved, and another process begins with
`--restore` in that state: it is saved as the same text, and from then on each line has to have the same answer of both.
So it is with the model's centre, which begins in the states of the program's, and with the program's in those of the
model's. A sign without power, one that validates a row and one that shows a message for a time are among those saved,
and a centre with a request that waits, and with one that is due. Of some states of a centre each octet is changed, left
out and doubled, and lines are exchanged: each such text is refused with a line, or is the state whose text it is.
`trials.compare_coprocess` has changed texts of signs.

Then so many --states of talks with signs that have objects beside their own, of each description: another process and
the model go on from each, where the same is published, by a line `set` for each value that a manager set. Of --changed
of them each octet of these lines is changed, left out and doubled, and lines are exchanged, left out and doubled: each
is refused by its answer, or its value is what is saved, by the program as by the model. It prints what differs, and
last `N passed, N failed`.
"""

import argparse
import functools
import random
import re
import sys
from collections import Counter

from model import coprocess, text
from model.restored_centre import restored
from wisangub.process import description
from wisangub.process.coprocess import CoProcess
from wisangub.process.places import SIGNTOOL, TOP, program

from . import agent_states, centre_states
from .compare_coprocess import Lines, datagrams

_SIGNS = (None, str(TOP / "signs/roadside.sign"), str(TOP / "signs/gantry.sign"))
_BETWEEN = 12  # lines from one process that is begun again to the next
_KINDS = {
    "without power": re.compile(r"(?m)^powered 0$"),
    "validating a row": re.compile(r"(?m)^(changeable|volatile) [0-9]+ 3 "),
    "for a time": re.compile(r"(?m)^shown-remaining "),
    "with a request that waits": re.compile(r"(?m)^awaits$"),
    "with a request that is due": re.compile(r"(?m)^due$"),
    "with a code that was sent": re.compile(r"(?m)^ledger "),
}


class Counts:
    """What held and what did not, and which kinds of states were saved."""

    def __init__(self) -> None:
        self.passed = self.failed = 0
        self.kinds: Counter[str] = Counter()

    def look(self, holds: bool, what: str) -> None:
        self.passed += holds
        self.failed += not holds
        if not holds:
            print(what)


def _begun(asked_program: str, end: str, sign: str | None, state: bytes | None = None) -> CoProcess:
    """A process that took the description, and a state where there is one."""
    process = CoProcess(asked_program, [end] + (["--restore"] if state is not None else []), description.read(sign))
    process.description += state or b""
    process.begin(b"state" if end == "sign" else b"status", sign or asked_program)
    return process


def _text(answer: list[str]) -> bytes:
    """The text of a state, of the answer to `save`."""
    return "".join(f"{line}\n" for line in answer[:-1]).encode()


class _Ends:
    """A sign and a centre of a description, which are begun again and again: the processes, those that go on from the
    last state, and the model's centre that does."""

    def __init__(self, asked: argparse.Namespace, sign: str | None, counts: Counts, ends: tuple[str, ...]) -> None:
        self.program, self.sign, self.counts, self.ends = asked.signtool, sign, counts, ends
        described = description.read(sign)
        self.world = text.World(text.bench() if described is None else text.described(described))
        self.first = {end: _begun(asked.signtool, end, sign) for end in ("centre", "sign")}
        self.again: dict[str, CoProcess] = {}
        self.states: dict[str, list[bytes]] = {}  # of a centre, by their kinds

    def is_due(self) -> bool:
        """Whether the next tick sends a request of the centre."""
        job = self.world.centre.job
        return job is not None and job.due

    def begin_again(self, number: int) -> None:
        """Another process goes on from each state, and the model from that of the centre."""
        for end in ("centre", "sign"):
            state = _text(self.first[end].send("save"))
            kinds = [kind for kind, found in _KINDS.items() if found.search(state.decode())]
            self.counts.kinds.update(kinds)
            if end == "centre":
                self.begin_model(number, state)
                self.states.setdefault(" ".join(kinds), []).append(state)
            if end in self.ends:
                if end in self.again:
                    self.again[end].end()
                self.again[end] = _begun(self.program, end, self.sign, state)
                same = _text(self.again[end].send("save")) == state
                self.counts.look(same, f"{self.sign}: line {number}: another text of a {end} is saved")

    def begin_model(self, number: int, state: bytes) -> None:
        """The model's centre goes on from a state, and has its text."""
        described = self.world.sign.state.described
        self.world.centre = restored(described.writer, described.swapped, state)
        same = _text(self.of_model("save")) == state
        self.counts.look(same, f"{self.sign}: line {number}: another text of the model's centre is saved")

    def of_model(self, line: str) -> list[str]:
        """What the model's centre answers."""
        return coprocess.answered(functools.partial(coprocess.centre_answer, self.world), line.encode())

    def answer(self, number: int, end: str, line: str) -> list[str]:
        """What the first process answers, and so do the others."""
        wanted = self.first[end].send(line)
        answers = [self.again[end].send(line)] if end in self.again else []
        answers += [self.of_model(line)] if end == "centre" else []
        for told in answers:
            self.counts.look(told == wanted, f"{self.sign}: line {number}: {line[:200]}: {wanted}, and restored {told}")
        return wanted

    def end(self) -> None:
        """Ends all processes."""
        for process in (*self.first.values(), *self.again.values()):
            process.end()


def _speak(asked: argparse.Namespace, sign: str | None, counts: Counts, ends: tuple[str, ...]) -> list[bytes]:
    """Speaks to a sign and a centre that are begun again and again: the shortest state of the centre of each kind."""
    lines, spoken = Lines(random.Random(asked.seed), datagrams()), _Ends(asked, sign, counts, ends)
    was_due = False
    for number in range(asked.count):
        is_due = spoken.is_due()
        if number % _BETWEEN == 0 or is_due and not was_due:
            spoken.begin_again(number)
        was_due = is_due
        for end, other in (("centre", "sign"), ("sign", "centre")):
            answer = spoken.answer(number, end, lines.line(end))
            last = answer[-1].split(" ")
            if last[0] in ("reply", "accepted", "send"):
                lines.sent[other] = last[-1]
    spoken.end()
    return [min(some, key=len) for some in spoken.states.values()]


def _change(asked: argparse.Namespace, sign: str | None, counts: Counts, states: list[bytes], is_here: bool) -> None:
    """Changes states of a centre in each octet, for the model, and some of that for the program."""
    of_sign, chance = description.read(sign), random.Random(asked.seed)
    described = text.bench() if of_sign is None else text.described(of_sign)
    model = functools.partial(centre_states.of_model, described)
    program_answer = functools.partial(centre_states.of_program, asked.signtool, of_sign)
    for state in states:
        texts = [*centre_states.others(chance, state)]
        some = chance.sample(texts, min(len(texts), asked.count)) if is_here else []
        for answer, those, is_live in ((model, texts, False), (program_answer, [*some, state] if some else [], True)):
            passed, found = centre_states.faults(answer, iter(those), is_live)
            counts.passed += passed
            for one in found:
                counts.look(False, f"{sign}: {one}")


def _with_objects(asked: argparse.Namespace, sign: str | None, counts: Counts) -> None:
    """States of a sign with objects beside its own."""
    trial = agent_states.Trial(asked.signtool, sign, asked.seed)
    agent_states.tried(trial, asked.states, asked.changed)
    counts.passed, counts.failed = counts.passed + trial.passed, counts.failed + trial.failed
    counts.look(trial.sets > 0 or not asked.states, f"{sign}: no value was put back that a manager set")
    counts.look(trial.taken > 0 or not asked.changed, f"{sign}: no changed text was taken")
    print(f"{sign or 'the bench sign'}: {trial}", flush=True)


def main() -> int:
    parser = argparse.ArgumentParser(description="ends that are saved and begun again, against those that go on")
    parser.add_argument(
        "--signtool", type=program, default=str(SIGNTOOL), help="the program signtool, as tools/build.py makes it"
    )
    parser.add_argument("--count", type=int, default=600, help="how many lines to each end, of each sign")
    parser.add_argument("--states", type=int, default=40, help="how many of signs with objects, of each sign")
    parser.add_argument("--changed", type=int, default=1, help="of how many of these lines are changed")
    parser.add_argument("--seed", type=int, default=1, help="of all that is random: the same again gives the same")
    parser.add_argument("--sign", nargs="*", help="descriptions, as in signs/; else three signs")
    asked = parser.parse_args()
    counts = Counts()
    is_here = centre_states.has_restore(asked.signtool)
    if not is_here:
        print("skipped centres that the program restores: it has no call `centre --restore`")
    for sign in asked.sign or _SIGNS:
        states = _speak(asked, sign, counts, ("centre", "sign") if is_here else ("sign",))
        _change(asked, sign, counts, states, is_here)
        _with_objects(asked, sign, counts)
    for kind in _KINDS:
        counts.look(counts.kinds[kind] > 0, f"no state was saved {kind}")
    print(f"{counts.passed} passed, {counts.failed} failed")
    return 0 if counts.failed == 0 else 1


if __name__ == "__main__":
    sys.exit(main())
