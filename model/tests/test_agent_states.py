"""The trial of states of signs with objects, over the model in the program's place: it finds what is otherwise."""

import pathlib
from unittest import mock

import pytest

from model import published
from trials import agent_states
from trials.agent_states import OfModel, State, Trial


class Another(OfModel):
    """The model with a fault, in the place of a process of the program."""

    def __init__(self, program: str, sign: str | None, state: State | None = None) -> None:
        super().__init__(sign, state)

    def send(self, line: str) -> list[str]:
        return self.answer(line, super().send(line))

    def answer(self, line: str, answer: list[str]) -> list[str]:
        """What it answers in place of an answer of the model's."""
        return answer


class WithoutTheLast(Another):
    def answer(self, line: str, answer: list[str]) -> list[str]:
        return answer[:-2] + answer[-1:] if line == "save" and answer[-2] != "end" else answer


class OutOfOrder(Another):
    def answer(self, line: str, answer: list[str]) -> list[str]:
        at = answer.index("end") + 1 if line == "save" else len(answer)
        return [*answer[:at], *answer[at:-1][::-1], *answer[at:][-1:]]


class TakesAll(Another):
    def answer(self, line: str, answer: list[str]) -> list[str]:
        if line.startswith("set ") and answer[0].endswith("does not take this value"):
            found = self.agent.device.objects[published.name(line.split(" ")[1].encode())]
            found.set(published.assigned(line.encode().split(b" "))[1])
            return ["ok"]
        return answer


class TellsNothing(Another):
    def send(self, line: str) -> list[str]:
        answer = super().send(line)
        if line.startswith("set ") and answer == ["ok"]:
            self.agent.device.objects[published.name(line.split(" ")[1].encode())].is_set = False
        return answer


class WithMoreWords(Another):
    def answer(self, line: str, answer: list[str]) -> list[str]:
        return super().send(line.rpartition(" ")[0]) if answer[0].endswith("no more words are wanted") else answer


def tried(ends: type[Another], sign: str | None = None) -> Trial:
    """The trial of a few states."""
    with mock.patch.object(agent_states, "OfProgram", ends), mock.patch.object(agent_states, "_MOST_CHANGED", 250):
        trial = Trial("none", sign, 3)
        agent_states.tried(trial, 24, 1)
    return trial


def test_the_model_goes_on_from_its_own_states() -> None:
    trial = tried(Another, str(pathlib.Path(__file__).parents[2] / "signs/roadside.sign"))
    assert trial.failed == 0 and trial.states == 24 and trial.passed > 1000
    assert trial.sets > 5 and trial.changed > 50 and 0 < trial.taken < trial.changed


@pytest.mark.parametrize("ends", (WithoutTheLast, OutOfOrder, TakesAll, TellsNothing, WithMoreWords))
def test_a_fault_is_found(ends: type[Another]) -> None:
    assert tried(ends).failed > 0
