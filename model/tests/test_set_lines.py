"""A live sign's lines `set` and `save` where objects are beside its own: how a process goes on from what another was
asked for."""

import functools

import pytest

from model import causes, coprocess, text
from model.agent import Agent
from model.restored import restore
from model.saved_agent import parts

from .test_published import NO_NAME, NO_VALUE, NONE, put

CONTACT, LEVEL = "1.3.6.1.2.1.1.4.0", "1.3.6.1.4.1.1206.4.2.3.7.6.0"
PUBLISHED = (
    "object 1.3.6.1.2.1.1.1.0 OCTET STRING 61",
    f"object {CONTACT} OCTET STRING - octets 0 2",
    f"object {LEVEL} INTEGER 3 number 0 9",
)
UNFIT = "refused the object does not take this value"
TWO_SPACES = "two spaces, or a space at an end of the line"


class Live:
    """A bench sign that answers lines; from a state on, where there is one."""

    def __init__(self, state: bytes = b"") -> None:
        self.agent = Agent(text.bench())
        if state:
            restore(self.agent.sign.state, state)

    def answers(self, *lines: str) -> list[list[str]]:
        answer = functools.partial(coprocess.sign_answer, self.agent)
        return [coprocess.answered(answer, line.encode("latin-1")) for line in lines]

    def objects(self) -> list[str]:
        """What `save` answers behind the sign's own state."""
        answer = self.answers("save")[0]
        assert answer[-1] == "ok"
        return answer[answer.index("end") + 1 : -1]


def published() -> Live:
    live = Live()
    assert live.answers(*PUBLISHED) == [["ok"]] * 3
    return live


def test_a_value_is_set_as_by_a_manager_and_told_again() -> None:
    live = published()
    line = f"set {LEVEL} INTEGER 5"
    assert live.answers(line, "objects", "objects", line, "objects") == [
        ["ok"],
        [line, "ok"],
        ["ok"],
        ["ok"],
        [line, "ok"],
    ]
    assert live.objects() == [line]
    assert live.answers(f"set 01{LEVEL[1:]} INTEGER 0000000009") == [["ok"]]
    assert live.objects() == [f"set {LEVEL} INTEGER 9"]


@pytest.mark.parametrize(
    "words, wanted",
    [
        (f"{LEVEL} INTEGER 0", "ok"),
        (f"{LEVEL} INTEGER 9", "ok"),
        (f"{LEVEL} INTEGER 10", UNFIT),
        (f"{LEVEL} INTEGER -1", UNFIT),
        (f"{LEVEL} Gauge 5", UNFIT),
        (f"{CONTACT} OCTET STRING -", "ok"),
        (f"{CONTACT} OCTET STRING 4142", "ok"),
        (f"{CONTACT} OCTET STRING 414243", UNFIT),
        (f"{CONTACT} Opaque 41", UNFIT),
        ("1.3.6.1.2.1.1.1.0 OCTET STRING 61", UNFIT),  # read alone
        ("1.3.6.1.2.1.1.1 OCTET STRING 61", NONE),
        ("1.3.6.1.4.1.1206.4.2.3.4.2.0 INTEGER 1", NONE),  # the sign's
        ("", NO_NAME),
        ("1 NULL", NO_NAME),
        (" 1.3 NULL", NO_NAME),
        (LEVEL, NO_VALUE),
        (f"{LEVEL} INTEGER", NO_VALUE),
        (f"{LEVEL}  INTEGER 5", NO_VALUE),
        (f"{LEVEL} INTEGER 4294967296", NO_VALUE),
        (f"{LEVEL} INTEGER 5 number 0 9", "bad line word 5: no more words are wanted"),
        (f"{LEVEL} NULL 5", "bad line word 4: no more words are wanted"),
        (f"{CONTACT} OCTET STRING - -", "bad line word 6: no more words are wanted"),
        (f"{LEVEL} INTEGER 5 ", f"bad line word 5: {TWO_SPACES}"),
        (f"{LEVEL} NULL  5", f"bad line word 4: {TWO_SPACES}"),
    ],
)
def test_a_line_is_answered_or_told_why_not_and_then_changes_nothing(words: str, wanted: str) -> None:
    live = published()
    before = live.objects()
    line = f"set {words}" if words else "set"
    assert live.answers(line) == [[wanted]]
    assert (live.objects() == before) == (wanted != "ok")
    why = causes.of_agent_call(line.encode())
    assert (why is None) != wanted.startswith("bad line") and (why is None or wanted == f"bad line {why}")


def test_what_is_put_back_is_saved_again() -> None:
    live = published()
    contact, level = f"set {CONTACT} OCTET STRING 0a", f"set {LEVEL} INTEGER 4"
    live.answers("ticks 30", put((1, 3, 6, 1, 2, 1, 1, 4, 0)), level, "objects")
    assert live.objects() == [contact, level]
    saved = live.answers("save")[0]
    sign, objects = parts("".join(f"{line}\n" for line in saved[:-1]).encode())
    other = Live(sign)
    assert other.answers("save")[0] == [*sign.decode().splitlines(), "ok"]
    assert other.answers(contact, *PUBLISHED, *objects.decode().splitlines()) == [[NONE]] + [["ok"]] * 5
    assert other.answers("save") == [saved] and other.answers("objects") == [[contact, level, "ok"]]


def test_without_power_it_is_answered_the_same() -> None:
    live = published()
    line = f"set {LEVEL} INTEGER 5"
    assert live.answers("power-lost", line, "set 1.3 NULL") == [["ok"], ["ok"], [NONE]] and live.objects() == [line]


def test_what_firmware_publishes_again_or_withdraws_is_no_managers() -> None:
    live = published()
    contact, level = f"set {CONTACT} OCTET STRING 41", f"set {LEVEL} INTEGER 4"
    assert live.answers(contact, level, PUBLISHED[2], f"no-object {CONTACT}") == [["ok"]] * 4
    assert live.objects() == [] and live.answers("objects") == [["ok"]]
