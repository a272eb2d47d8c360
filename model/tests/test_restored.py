"""A sign restored of the text of its state: what is refused and at which line, and that the rest is the same sign."""

import functools
import pathlib
import random
import re
import subprocess
from dataclasses import replace

import pytest

from model import coprocess, text
from model.agent import Agent
from model.restored import restore
from model.saved import saved
from model.state_text import Refused
from trials.compare_coprocess import Lines, datagrams

from .program_texts import CRATES
from .test_saved import STATES

BUSY = STATES["BUSY"].text
SIGNTOOL = pathlib.Path(__file__).parents[1] / "signtool"
ROW = re.compile(r'\(\s*(\d+),\s*"([^"]*)",\s*"(line \d+: [^"]*)",?\s*\)')
PROGRAM = (CRATES / "dms_sign_state_tests/src/tests/started_again.rt").read_text()
MISFITS = [(int(at), line.replace("\\n", "\n"), why) for at, line, why in ROW.findall(PROGRAM)]
FAULTS = [  # lines that are no field's, and what is told
    (1, "state 2 sign", "line 1: state 1 sign wanted"),
    (1, "state 1 centre", "line 1: state 1 sign wanted"),
    (2, "changeable 0 3 - - 0 0 250", "line 2: changeable and a row of a number from 1 to 64 wanted"),
    (3, "changeable 1 5 5b6e6c - 0 0 1", "line 3: changeable and a row of a number from 2 to 64 wanted"),
    (3, "changeable 02 5 5b6e6c - 0 0 1", "line 3: changeable and a row of a number from 2 to 64 wanted"),
    (3, "changeable 2 1 5b6e6c - 0 0 1", "line 3: changeable and a row of a number from 2 to 64 wanted"),
    (3, "changeable 2 5 5B6E6C - 0 0 1", "line 3: changeable and a row of a number from 2 to 64 wanted"),
    (3, "changeable 2 5 5b6e6 - 0 0 1", "line 3: changeable and a row of a number from 2 to 64 wanted"),
    (3, f"changeable 2 5 {'41' * 513} - 0 0 1", "line 3: changeable and a row of a number from 2 to 64 wanted"),
    (4, "volatile 17 4 4142 6f70 1 0 7", "line 4: volatile and a row of a number from 1 to 16 wanted"),
    (4, "changeableness", "line 4: defaults and nine numbers wanted"),
    (5, "defaults 0 9 5 5 256 3 2 30 0", "line 5: defaults and nine numbers wanted"),
    (5, "defaults 0 9 5 5 2 3 2 30 0 ", "line 5: defaults and nine numbers wanted"),
    (8, "power-loss 00021234", "line 8: power-loss and five octets wanted"),
    (8, "power-loss 0400021234\r", "line 8: power-loss and five octets wanted"),
    (12, "time-comm-loss +2", "line 12: time-comm-loss and a number to 65535 wanted"),
    (13, "silent 4294967296", "line 13: silent and a number to 4294967295 wanted"),
    (14, "", "line 14: shown and a message wanted"),
    (17, "shown-address 192.0.2.256", "line 17: shown-address and an address wanted"),
    (18, "shown-remaining ", "line 18: shown-remaining and a number to 4294967295 wanted"),
    (20, "shown - - 0 0 1", "line 20: kept and a message wanted"),
    (29, "accepted-code -", "line 29: accepted-code and twelve octets wanted"),
    (31, "powered 2", "line 31: powered and 0 or 1 wanted"),
    (32, "end\r", "line 32: end and nothing after it wanted"),
]


def sign_of(name: str) -> Agent:
    """The bench sign, with the order of a state's codes."""
    return Agent(replace(text.bench(), swapped=STATES[name].swapped))


def text_of(agent: Agent) -> str:
    return "\n".join([*saved(agent.sign.state), ""])


def again(octets: str, agent: Agent) -> Agent:
    """A sign of the same description that goes on from a text."""
    made = Agent(agent.sign.state.described)
    restore(made.sign.state, octets.encode())
    return made


def with_line(at: int, line: str) -> str:
    lines = BUSY.splitlines()
    return "".join(f"{one}\n" for one in [*lines[: at - 1], line, *lines[at:]])


@pytest.mark.parametrize("name", STATES)
def test_a_restored_sign_has_the_text_of_its_state(name: str) -> None:
    assert text_of(again(STATES[name].text, sign_of(name))) == STATES[name].text


@pytest.mark.parametrize("at, line, why", MISFITS + FAULTS)
def test_the_first_line_that_does_not_fit_is_told(at: int, line: str, why: str) -> None:
    with pytest.raises(Refused) as refused:
        again(with_line(at, line), sign_of("BUSY"))
    assert str(refused.value) == why


def test_the_rows_of_the_program_are_all_tried() -> None:
    assert len(MISFITS) == int(re.findall(r"LINES: \[\(.*?\); (\d+)\]", PROGRAM)[0])


@pytest.mark.parametrize("name", STATES)
def test_another_text_is_refused_or_is_that_state(name: str) -> None:
    octets, chance = STATES[name].text, random.Random(name)
    lines = octets.splitlines(keepends=True)
    others = [octets[:at] for at in range(0, len(octets), 29)]
    for at in range(0, len(octets), 3):
        other = chance.choice("0123456789abcdef -.\n\r\0A")
        others.append(octets[:at] + chance.choice((other, "", octets[at] * 2)) + octets[at + 1 :])
    for at in range(len(lines)):
        swapped, to = [*lines], chance.randrange(len(lines))
        swapped[at], swapped[to] = lines[to], lines[at]
        others.append("".join(swapped))
    taken = 0
    for other in others:
        try:
            assert text_of(again(other, sign_of(name))) == other
            taken += 1
        except Refused as refused:
            assert 1 <= refused.line <= other.count("\n") + 1
    assert taken


def test_a_run_with_saves_is_the_same_run() -> None:
    chance, world = random.Random(5), text.World(text.bench())
    lines, count = Lines(chance, datagrams()), 0
    centre = functools.partial(coprocess.centre_answer, world)
    whole, parted = Agent(text.bench()), Agent(text.bench())
    for _ in range(1000):
        sent = coprocess.answered(centre, lines.line("centre").encode())[0].split(" ")
        lines.sent["sign"] = sent[-1] if sent[0] == "send" else lines.sent["sign"]
        line = lines.line("sign").encode()
        answer = coprocess.answered(functools.partial(coprocess.sign_answer, whole), line)
        assert coprocess.answered(functools.partial(coprocess.sign_answer, parted), line) == answer
        words = answer[0].split(" ")
        lines.sent["centre"] = words[-1] if words[0] in ("reply", "accepted") else lines.sent["centre"]
        if chance.random() < 0.2:
            parted, count = again(text_of(parted), parted), count + 1
    assert count > 100 and text_of(whole) == text_of(parted) != text_of(Agent(text.bench()))


def of_process(octets: bytes, *words: str) -> tuple[int, bytes, bytes]:
    ended = subprocess.run([SIGNTOOL, *words], input=octets, capture_output=True, check=False)
    return ended.returncode, ended.stdout, ended.stderr


def test_a_process_goes_on_from_a_state() -> None:
    octets = BUSY.encode()
    wanted = (0, octets + b"ok\n", b"")
    assert of_process(octets + b"save\n", "sign", "--restore") == wanted
    assert of_process(text.BENCH + octets + b"save", "sign", "--sign", "--restore") == wanted


def test_a_process_refuses_a_state() -> None:
    octets = with_line(31, "powered 0").encode()
    assert of_process(octets + b"save\n", "sign", "--restore") == (
        1,
        b"state line 31\n",
        b"state line 31: another power than that of its messages\n",
    )
    assert of_process(b"save\n", "sign", "--restore")[:2] == (1, b"state line 1\n")
    assert of_process(b"", "sign", "--sign", "--restore")[:2] == (1, b"line 1\n")
    assert of_process(b"#\n" * 524_288 + b"#", "sign", "--restore")[:2] == (1, b"too long\n")
