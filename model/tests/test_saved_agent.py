"""The state of an agent of the model: what managers set is saved and put back, as the program's tests want it."""

import random
import re

import pytest

from model import published, text, wire
from model.agent import Agent
from model.device import Access, Object
from model.objects import DMS
from model.saved import saved
from model.saved_agent import parts, put_objects, saved_agent
from model.state_text import Refused
from trials.centre_states import others
from wisangub.objects.lines import object_of

from .program_texts import CRATES
from .test_agent import DESCRIPTION, put

CONTACT, LEVEL = (1, 3, 6, 1, 2, 1, 1, 4, 0), DMS + (7, 6, 0)
PROGRAM = (CRATES / "dms_agent_tests/src/states.rt").read_text()
CONSTANTS = {name: value.encode() for name, value in re.findall(r'const (\w+): &\[u8\] = b"([^"]*)";', PROGRAM)}
REFUSED = [
    (value.replace("\\n", "\n").encode(), why)
    for value, why in re.findall(r'\(\s*b"([^"]*)",\s*"(line \d+: [^"]*)",?\s*\)', PROGRAM)
]


def firmware() -> Agent:
    """The bench sign, beside which a description, a contact and a level are published."""
    agent = Agent(text.bench())
    for one in (
        Object(DESCRIPTION, (wire.OCTETS, b"a sign")),
        Object(CONTACT, (wire.OCTETS, b""), Access(wire.OCTETS, 0, 8)),
        Object(LEVEL, (wire.INTEGER, 7), Access(wire.INTEGER, 0, 15)),
    ):
        assert agent.publish(one) is None
    return agent


def lines_of(agent: Agent) -> bytes:
    return "".join(f"{line}\n" for line in saved_agent(agent)).encode()


def test_values_that_were_set_are_saved_and_put_back() -> None:
    agent, other = firmware(), firmware()
    assert put(agent, (LEVEL, (wire.INTEGER, 15)), (CONTACT, (wire.OCTETS, b"noc"))) == (wire.NO_ERROR, 0)
    assert saved_agent(other) == saved(agent.sign.state)
    for _ in range(2):
        assert lines_of(agent).endswith(CONSTANTS["BOTH"])
        agent.device.taken()
    put_objects(other, lines_of(agent))
    assert lines_of(other) == lines_of(agent) and [one.name for one in other.device.taken()] == [CONTACT, LEVEL]
    own = "".join(f"{line}\n" for line in saved(agent.sign.state)).encode()
    assert parts(lines_of(agent)) == (own, CONSTANTS["BOTH"][4:])


def test_what_is_published_anew_is_firmwares() -> None:
    agent = firmware()
    put(agent, (LEVEL, (wire.INTEGER, 15)))
    agent.publish(Object(LEVEL, (wire.INTEGER, 3), Access(wire.INTEGER, 0, 15)))
    assert saved_agent(agent) == saved(agent.sign.state)


def test_what_no_object_takes_is_left_out() -> None:
    agent = firmware()
    put_objects(agent, CONSTANTS["LEFT_OUT"])
    assert agent.device.objects == firmware().device.objects


@pytest.mark.parametrize("lines, why", REFUSED)
def test_a_line_that_says_no_value_changes_nothing(lines: bytes, why: str) -> None:
    agent = firmware()
    with pytest.raises(Refused, match=f"^{re.escape(why)}$"):
        put_objects(agent, lines)
    assert agent.device.objects == firmware().device.objects


def test_a_changed_octet_is_refused_with_its_line_or_what_it_says_is_saved() -> None:
    saved_one = firmware()
    put(saved_one, (LEVEL, (wire.INTEGER, 15)), (CONTACT, (wire.OCTETS, b"noc")))
    sign, objects = parts(lines_of(saved_one))
    taken = refused = 0
    for other in others(random.Random(1), objects):
        agent, text_of = firmware(), sign + other
        try:
            put_objects(agent, text_of)
        except Refused as fault:
            assert sign.count(b"\n") < fault.line <= text_of.count(b"\n") + 1, other
            assert agent.device.objects == firmware().device.objects, other
            refused += 1
            continue
        said = [object_of(line.decode().split(" ")[1:]) for line in other.splitlines()]
        values = {one.name: one.value for one in said}
        for name, one in agent.device.objects.items():
            assert one.value == (values[name] if one.by_manager else firmware().device.objects[name].value), other
            assert one.by_manager == (name in values and one.access is not None and one.access.takes(values[name]))
        taken += 1
    assert taken > 50 and refused > 100


def test_each_refusal_of_the_program_is_looked_at() -> None:
    assert len(REFUSED) == 7 and published.dotted(CONTACT) == "1.3.6.1.2.1.1.4.0"
