"""A central system restored of the text of its state: the rest of a talk is the same, and no other text is a state."""

import functools
import random

import pytest

from model import coprocess, text
from model.centre import Centre
from model.restored_centre import restored
from model.saved_centre import saved
from model.state_text import Refused

from .test_restored import of_process
from .test_saved_centre import TEXTS

STATES = sorted(TEXTS)
BLANK = TEXTS["BLANK_STATE"]
FILLING = TEXTS["FILLING_STATE"]
OCTETS = b"0123456789af -.\n\r#"
COMMANDS = (
    "publish 3 1 41 6f70 0 0 200 3 255 192.0.2.7",
    "publish 4 2 5b6e6c395d - 0 0 7 65535 6 10.0.0.255",
    "blank 255 1 2 0.0.0.0",
    "activate ffff050300019a66c0000207",
)
FAULTS = [  # a line that stands in place of another, and what is told
    (FILLING, 1, "state 1 sign", "line 1: state 1 centre wanted"),
    (FILLING, 2, "next 4294967296", "line 2: next and a number to 4294967295 wanted"),
    (FILLING, 2, "next 0", "line 4: idle or due wanted"),
    (FILLING, 2, "next 2147483649", "line 4: idle or due wanted"),
    (FILLING, 3, "last failed at step 9: no reply", "line 3: last and how a job ended wanted"),
    (FILLING, 3, "last failed at step 1: error-status -0", "line 3: last and how a job ended wanted"),
    (FILLING, 4, "waits", "line 4: idle, awaits or due wanted"),
    (FILLING, 5, "sends 4", "line 5: sends and a number from 1 to 3 wanted"),
    (FILLING, 6, "ticks 3", "line 6: ticks and a number to 2 wanted"),
    (FILLING, 7, "step 9", "line 7: step and a number from 1 to 8 wanted"),
    (FILLING, 7, "step 7", "line 10: ledger and an entry of a number from 0 to 9 wanted"),
    (FILLING, 8, "polls 10", "line 8: polls and a number to 9 wanted"),
    (FILLING, 9, "publish 3 0 41 - 0 0 200 3 255 192.0.2.7", "line 9: publish and a command wanted"),
    (FILLING, 9, "activate 0001020700ff000000000000", "line 9: publish and a command wanted"),
    (FILLING, 10, "end\nend", "line 10: end and nothing after it wanted"),
    (BLANK, 2, "next 18", "line 12: ledger and an entry of a number from 15 to 17 wanted"),
    (BLANK, 9, "activate 0001020700fe000000000000", "line 12: ledger and an entry of a number from 15 to 16 wanted"),
    (
        BLANK,
        11,
        "ledger 13 ffff0503000121214000020a refused 5",
        "line 11: ledger and an entry of a number from 14 to 16 wanted",
    ),
    (
        BLANK,
        11,
        "ledger 14 ffff0503000121214000020a waiting",
        "line 11: ledger and an entry of a number from 14 to 16 wanted",
    ),
    (
        BLANK,
        12,
        "ledger 16 0001020700ff000000000000 accepted",
        "line 12: ledger and an entry of a number from 15 to 16 wanted",
    ),
    (
        BLANK,
        12,
        "ledger 17 0001020700ff000000000000 waiting",
        "line 12: ledger and an entry of a number from 15 to 16 wanted",
    ),
]


def text_of(centre: Centre) -> str:
    return "\n".join([*saved(centre), ""])


def again(centre: Centre) -> Centre:
    """The central system whose state the text of this one spells."""
    return restored(centre.community, centre.swapped, text_of(centre).encode())


@pytest.mark.parametrize("state, line, other, told", FAULTS)
def test_the_first_fault_is_told(state: str, line: int, other: str, told: str) -> None:
    lines = state.splitlines()
    lines[line - 1] = other
    with pytest.raises(Refused) as refused:
        restored(b"admin", False, ("\n".join(lines) + "\n").encode())
    assert str(refused.value) == told


def test_no_changed_text_is_another_state() -> None:
    chance = random.Random(1)
    for state in STATES:
        text_there = TEXTS[state].encode()
        for _ in range(1500):
            at, octet = chance.randrange(len(text_there)), bytes([chance.choice(OCTETS)])
            part = chance.choice((octet, b"", text_there[at : at + 1] * 2, octet + text_there[at : at + 1]))
            changed = text_there[:at] + part + text_there[at + 1 :]
            try:
                assert text_of(restored(b"admin", "LATE" in state, changed)).encode() == changed
            except Refused:
                assert changed != text_there


class Talk:
    """A central system that is spoken to at random, and its sign."""

    def __init__(self, chance: random.Random) -> None:
        self.chance, self.world = chance, text.World(text.bench())
        self.replies = list[bytes]()

    def line(self) -> str:
        kind = self.chance.random()
        if kind < 0.15:
            return self.chance.choice(COMMANDS)
        if kind < 0.35 or not self.replies:
            return "tick"
        if kind < 0.37:
            return "restart"
        late = self.chance.random() < 0.1
        return f"datagram {(self.chance.choice(self.replies) if late else self.replies[-1]).hex()}"

    def hears(self, answer: list[str]) -> None:
        """The sign answers what goes out, for the most part."""
        if self.chance.random() < 0.2:
            self.world.sign.tick()
        if answer[0].startswith("send ") and self.chance.random() < 0.9:
            reply = self.world.sign.receive(bytes.fromhex(answer[0][5:]))[0]
            self.replies += [reply] if reply else []


def answer_of(world: text.World, line: str) -> list[str]:
    return coprocess.answered(functools.partial(coprocess.centre_answer, world), line.encode())


def test_talks_go_on_the_same() -> None:
    kinds = set()
    for seed in range(30):
        talk, other = Talk(random.Random(seed)), text.World(text.bench())
        for number in range(120):
            if number % 3 == 0:
                other.centre = again(talk.world.centre)
                kinds.add(saved(other.centre)[3])
            line = talk.line()
            answer = answer_of(talk.world, line)
            assert answer_of(other, line) == answer
            assert text_of(other.centre) == text_of(talk.world.centre)
            talk.hears(answer)
    assert kinds == {"idle", "awaits", "due"}


def test_a_process_goes_on_from_a_state() -> None:
    octets = TEXTS["FILLING_STATE"].encode()
    wanted = (0, octets + b"ok\n", b"")
    assert of_process(octets + b"save\n", "centre", "--restore") == wanted
    assert of_process(text.BENCH + octets + b"save", "centre", "--sign", "--restore") == wanted


def test_what_waited_goes_out_again() -> None:
    sent = of_process(b"activate ffff050300019a66c0000207\ntick\ntick\nsave\n", "centre")[1].splitlines()
    state = b"\n".join(sent[3:-1]) + b"\n"
    again = of_process(state + b"tick\nblank 1 0 0 0.0.0.0\n", "centre", "--restore")[1].splitlines()
    assert sent[0].startswith(b"send ") and again == [sent[0], b"refused a job is not done yet"]


def test_a_process_refuses_a_state() -> None:
    octets = BLANK.replace("sends 1", "sends 4").encode()
    assert of_process(octets + b"save\n", "centre", "--restore") == (
        1,
        b"state line 5\n",
        b"state line 5: sends and a number from 1 to 3 wanted\n",
    )
    assert of_process(b"save\n", "centre", "--restore")[:2] == (1, b"state line 1\n")
    assert of_process(b"", "centre", "--sign", "--restore")[:2] == (1, b"line 1\n")
    assert of_process(b"state 1 sign\nend\n", "centre", "--restore")[1] == b"state line 1\n"
    assert of_process(b"#\n" * 524_288 + b"#", "centre", "--restore")[:2] == (1, b"too long\n")
