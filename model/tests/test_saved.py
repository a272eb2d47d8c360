"""The state of a sign as text: what the model writes is what the program's test wants."""

import re
from dataclasses import replace
from typing import NamedTuple

import pytest

from model import text
from model.saved import saved
from model.sign import Sign

from .program_texts import CRATES, items, texts

SAVED = "dms_sign_state_tests/src/tests/saved.rt"
SCRIPTS = texts("dms_sign_bench/src/scripts.rt", "dms_sign_state_tests/src/tests/cases.rt")
TEXTS = texts("dms_sign_bench/src/states.rt", SAVED)
LEFT = re.compile(
    r"const (\w+): StateLeft = StateLeft \{\s*order: Order::(\w+),\s*scripts: \[(.*?)\],\s*like: (\w+),\s*"
    r"lines: &\[(.*?)\],\s*\};",
    re.DOTALL,
)


class StateLeft(NamedTuple):
    """A state in which scripts leave a new sign."""

    swapped: bool
    scripts: list[str]
    text: str


def with_lines(state: str, others: list[str]) -> str:
    """The text of a state in which each of these lines stands in place of the one that begins with its word."""
    by_word = {other.partition(" ")[0]: other for other in others}
    return "".join(f"{by_word.get(line.partition(' ')[0], line)}\n" for line in state.splitlines())


STATES = {
    name: StateLeft(order == "Swapped", items(scripts, SCRIPTS), with_lines(TEXTS[like], items(lines, TEXTS)))
    for name, order, scripts, like, lines in LEFT.findall((CRATES / SAVED).read_text())
}


def play(sign: Sign, script: str) -> None:
    """What the lines of a script do to a sign; replies, comments and what is shown are looked at elsewhere."""
    for line in script.splitlines():
        word, _, rest = line.partition(" ")
        if word == ">":
            sign.receive(text.octets(rest.encode()))
        elif word == "tick":
            sign.showing.ticks(int(rest))
        elif word == "lost":
            sign.showing.power_lost()
        elif word == "back":
            sign.showing.power_back(int(rest))


@pytest.mark.parametrize("name", STATES)
def test_states_are_those_of_the_program(name: str) -> None:
    sign = Sign(replace(text.bench(), swapped=STATES[name].swapped))
    for script in STATES[name].scripts:
        play(sign, script)
    assert "\n".join([*saved(sign.state), ""]) == STATES[name].text


def test_the_states_of_the_program_are_all_tried() -> None:
    assert len(STATES) == int(re.findall(r"STATES: \[StateLeft; (\d+)\]", (CRATES / SAVED).read_text())[0])
