"""States of signs with objects beside their own: the program and the model go on from each other's, with the same
objects and what managers set there; and what is left by lines `set` that are changed."""

import contextlib
import functools
import pathlib
import random
from collections.abc import Iterator
from typing import NamedTuple

from model import coprocess, text
from model.agent import Agent
from model.restored import restore
from wisangub.objects.lines import Bad, dotted, name_of, object_of, words_of
from wisangub.process import description
from wisangub.process.coprocess import CoProcess
from wisangub.snmp import wire

from . import agents
from .centre_states import others
from .compare_coprocess import AgentLines, datagrams

_BETWEEN = 6  # lines from one state to the next
_TALK = 12  # states of one talk, behind which other objects are published
_MOST_CHANGED = 1500  # octets of lines `set` that are changed


class State(NamedTuple):
    """What `save` answered, and the lines that published what was there then."""

    sign: list[str]  # up to `end`
    sets: list[str]
    published: list[str]

    @staticmethod
    def of(answer: list[str], published: list[str]) -> "State":
        """The answer without its last line."""
        count = answer.index("end") + 1
        return State(answer[:count], answer[count:-1], published)

    def saved(self) -> list[str]:
        """What `save` answers of it."""
        return [*self.sign, *self.sets, "ok"]


class Live:
    """A sign that answers lines: a process of the program, or the model."""

    def send(self, line: str) -> list[str]:
        """The whole answer to a line."""
        raise NotImplementedError

    def hand(self, lines: list[str]) -> list[str]:
        """The last lines of the answers to lines."""
        return [self.send(line)[-1] for line in lines]

    def end(self) -> None:
        """No more lines come."""


class OfProgram(Live):
    """A process, which begins in a state where there is one."""

    def __init__(self, program: str, sign: str | None, state: State | None = None) -> None:
        words = ["sign", *(["--restore"] if state else [])]
        self.process = CoProcess(program, words, description.read(sign))
        self.process.description += "".join(f"{line}\n" for line in state.sign).encode() if state else b""
        self.process.begin(b"state", sign or program)

    def send(self, line: str) -> list[str]:
        return self.process.send(line)

    def hand(self, lines: list[str]) -> list[str]:
        """Each is answered by one line; they are handed over at once."""
        found = self.process.hand([line.encode("latin-1") for line in lines]) if lines else []
        return [answer.decode("latin-1") for answer in found]

    def end(self) -> None:
        self.process.end()


class OfModel(Live):
    """The model, in this process."""

    def __init__(self, sign: str | None, state: State | None = None) -> None:
        described = description.read(sign)
        self.agent = Agent(text.bench() if described is None else text.described(described))
        if state:
            restore(self.agent.sign.state, "".join(f"{line}\n" for line in state.sign).encode())

    def send(self, line: str) -> list[str]:
        answer = functools.partial(coprocess.sign_answer, self.agent)
        return coprocess.answered(answer, coprocess.without_newline(line.encode("latin-1") + b"\n"))


class Trial:
    """A sign, and how many of what is looked at held and did not; of those that did not the first are printed."""

    def __init__(self, program: str, sign: str | None, seed: int) -> None:
        self.program, self.sign = program, sign
        self.chance = random.Random(f"{seed} {sign and pathlib.Path(sign).name}")
        self.datagrams, self.writer = datagrams(), description.communities_of(description.read(sign))[1]
        self.passed = self.failed = self.states = self.sets = self.changed = self.taken = 0

    def __str__(self) -> str:
        return (
            f"{self.states} states with {self.sets} values of objects; {self.changed} changed texts of these, of which"
            f" {self.taken} were taken"
        )

    def look(self, holds: bool, what: object) -> None:
        self.passed += holds
        self.failed += not holds
        if not holds and self.failed <= 20:
            print(f"{self.sign}: {str(what)[:3000]}")

    # ---- states of talks

    def talk(self, count: int) -> list[State]:
        """So many states of a talk, each of which the program and the model went on from."""
        has_fonts = self.chance.random() < 0.5
        ends: list[Live] = [OfProgram(self.program, self.sign), OfModel(self.sign)]
        again, states, published = list[Live](), list[State](), agents.Published(False)
        firmware = agents.Firmware(self.chance, has_fonts)
        lines = AgentLines(self.chance, self.datagrams, firmware)
        begun = [*(["fonts"] if has_fonts else []), *firmware.published(self.chance.choice((2, 5, 20, 40)))]
        for at in range(count):
            for line in begun if at == 0 else [self.line(lines) for _ in range(_BETWEEN)]:
                published.told(line, self.answer([*ends, *again], line))
            state = State.of(self.answer([*ends, *again], "save"), published.lines())
            for end in again:
                end.end()
            again = self.gone_on(ends, state)
            states.append(state)
        for end in [*ends, *again]:
            end.end()
        return states

    def line(self, lines: AgentLines) -> str:
        """A line of a talk: often one that gives an object a value, or a manager's Set of that."""
        kind, line = self.chance.random(), lines.firmware.set()
        if kind < 0.15:
            return line
        try:
            one = object_of(line.split(" ")[1:])
        except Bad:
            kind = 1.0
        if kind > 0.35:
            return lines.line("sign")
        asked = wire.Message(wire.SET, self.writer, 7, bindings=[(one.name, one.value)])
        return f"datagram {wire.written(asked).hex()}"

    def answer(self, ends: list[Live], line: str) -> list[str]:
        """What the program that was never ended answers, and so do the others."""
        wanted, *others_of = (end.send(line) for end in ends)
        for at, told in enumerate(others_of, 1):
            self.look(told == wanted, f"{line[:300]}: {wanted}, and {at} {told}")
        return wanted

    def gone_on(self, ends: list[Live], state: State) -> list[Live]:
        """A process and the model, which go on from a state that both have. What managers set is told there once more,
        and so asked for of those that were never ended too."""
        self.states, self.sets = self.states + 1, self.sets + len(state.sets)
        told = self.answer(ends, "objects")
        self.look(set(told) <= {*state.sets, "ok"}, f"{told} is told, and {state.sets} is saved")
        again: list[Live] = [OfProgram(self.program, self.sign, state), OfModel(self.sign, state)]
        for end in again:
            answers = end.hand([*state.published, *state.sets])
            self.look(set(answers) <= {"ok"}, f"{state}: {answers}")
            self.look(end.send("save") == state.saved(), f"{state}: another text is saved")
            self.look(end.send("objects") == [*state.sets, "ok"], f"{state}: what managers set is told")
        return again

    # ---- lines that are changed

    def change(self, states: list[State]) -> None:
        """Changes the lines `set` of states: each is refused by its answer, or what it says is saved, by the program
        as by the model."""
        for state in states:
            ends: list[Live] = [OfProgram(self.program, self.sign, state), OfModel(self.sign, state)]
            for end in ends:
                end.hand(state.published)
            for lines in _changed(self.chance, state.sets):
                self.changed += 1
                self.take(ends, state, lines)
            for end in ends:
                end.end()

    def take(self, ends: list[Live], state: State, lines: list[str]) -> None:
        """Hands these lines over, and publishes anew what took a value."""
        found = [(end.hand(lines), end.send("save")) for end in ends]
        self.look(found[0] == found[1], f"{lines}: {found}")
        answers, saved = found[0]
        self.look(all(one == "ok" or one.startswith(("refused ", "bad line ")) for one in answers), (lines, answers))
        said = _said(lines, answers)
        wanted = [f"set {dotted(name)} {words_of(said[name])}" for name in sorted(said)]
        self.look(saved == [*state.sign, *wanted, "ok"], f"{lines}: {answers}, {saved}")
        self.taken += answers.count("ok") == len(answers)
        anew = [line for line in state.published if line != "fonts" and name_of(line.split(" ")[1]) in said]
        for end in ends:
            self.look(len(end.hand(anew)) == len(said), f"{lines}: {anew} take the value of {said}")


def _changed(chance: random.Random, sets: list[str]) -> Iterator[list[str]]:
    """Lines with each octet changed, left out and doubled, and lines exchanged, left out and doubled."""
    octets = "".join(f"{line}\n" for line in sets).encode()
    for other in others(chance, octets):
        yield other.removesuffix(b"\n").decode("latin-1").split("\n")
    for at, line in enumerate(sets):
        yield sets[:at] + sets[at + 1 :]
        yield [*sets[:at], line, *sets[at:]]
        yield [*sets, chance.choice(sets).rpartition(" ")[0] + " 0"]


def _said(lines: list[str], answers: list[str]) -> dict[wire.Name, wire.Tagged]:
    """The values that were taken: of each name the last one. A line that says none should not have been."""
    said = {}
    for line in (line for line, told in zip(lines, answers) if told == "ok"):
        with contextlib.suppress(Bad):
            one = object_of(line.removesuffix("\r").split(" ")[1:])
            if one.access is None:
                said[one.name] = one.value
    return said


def tried(trial: Trial, count: int, changed: int) -> None:
    """So many states, and so many whose lines are changed."""
    kept: list[State] = []
    while trial.states < count:
        some = trial.talk(min(_TALK, count - trial.states))
        kept += [one for one in some if 0 < sum(len(line) + 1 for line in one.sets) <= _MOST_CHANGED]
    trial.change(trial.chance.sample(kept, min(len(kept), changed)))
