"""An agent of the model: its walk is that of all it has, in order; Sets, and what publishing and withdrawing leave."""

import random
from collections.abc import Iterator

import pytest

from model import coprocess, published, text, wire
from model.agent import Agent
from model.device import Access, Object
from model.objects import DMS
from trials import agents

BRIGHTNESS, DESCRIPTION, DIAL = DMS + (7, 6, 0), (1, 3, 6, 1, 2, 1, 1, 1, 0), DMS + (7, 1, 0)
NULL: wire.Tagged = (wire.NULL, b"")


def asked(agent: Agent, kind: int, *bindings: wire.Binding, community: bytes = b"public") -> wire.Message:
    """The reply to a request."""
    reply, _ = agent.receive(wire.written(wire.Message(kind, community, 7, bindings=list(bindings))))
    assert reply is not None
    return wire.read(reply)


def put(agent: Agent, *bindings: wire.Binding, community: bytes = b"admin") -> tuple[int, int]:
    """What a Set is answered with."""
    reply = asked(agent, wire.SET, *bindings, community=community)
    assert reply.bindings == list(bindings)
    return reply.status, reply.index


def walk(agent: Agent) -> Iterator[wire.Binding]:
    """All that GetNext finds from 0.0 on, to the end."""
    name: wire.Name = (0, 0)
    while (reply := asked(agent, wire.GET_NEXT, (name, NULL))).status == wire.NO_ERROR:
        yield reply.bindings[0]
        name = reply.bindings[0][0]
    assert (reply.status, reply.index) == (wire.NO_SUCH_NAME, 1)


def with_objects() -> Agent:
    """An agent that can be dimmed."""
    agent = Agent(text.bench())
    for one in (
        Object(DESCRIPTION, (wire.OCTETS, b"a sign")),
        Object(BRIGHTNESS, (wire.INTEGER, 3), Access(wire.INTEGER, 0, 9)),
        Object(DIAL, (wire.OCTETS, b""), Access(wire.OCTETS, 0, 4)),
    ):
        assert agent.publish(one) is None
    return agent


@pytest.mark.parametrize("size", agents.SIZES)
@pytest.mark.parametrize("has_fonts", (False, True))
def test_the_walk_is_that_of_all_names_in_order(size: int, has_fonts: bool) -> None:
    agent = Agent(text.bench())
    names = set(agent.sign.objects.names)
    if has_fonts:
        agent.show_fonts()
        names |= set(agent.of_sign[1].values)  # type: ignore[attr-defined]
    own = len(names)
    for line in agents.Firmware(random.Random(size), has_fonts).published(size):
        if coprocess.answered(lambda words: coprocess.sign_answer(agent, words), line.encode()) == ["ok"]:
            names.add(published.name(line.split(" ")[1].encode()))
    assert len(names) - own == len(agent.device.objects) > 0.8 * size - 1
    found = list(walk(agent))
    assert [name for name, _ in found] == sorted(names)
    for name, value in found:
        assert asked(agent, wire.GET, (name, NULL)).bindings == [(name, value)]


def test_names_of_objects_lie_before_between_and_after_the_signs() -> None:
    agent = Agent(text.bench())
    firmware = agents.Firmware(random.Random(1), False)
    firmware.published(1000)
    own = agent.sign.objects.names
    assert sum(name < own[0] for name in firmware.names) > 100
    assert sum(own[0] < name < own[-1] for name in firmware.names) > 100
    assert sum(name > own[-1] for name in firmware.names) > 100


def test_a_set_of_objects_is_judged_in_the_order_of_a_signs() -> None:
    agent = with_objects()
    four, ten, gauge = (wire.INTEGER, 4), (wire.INTEGER, 10), (wire.GAUGE, 4)
    assert put(agent, (BRIGHTNESS, four)) == (wire.NO_ERROR, 0)
    assert put(agent, (DESCRIPTION, (wire.OCTETS, b"mine"))) == (wire.NO_SUCH_NAME, 1)
    assert put(agent, (BRIGHTNESS, ten), community=b"public") == (wire.NO_SUCH_NAME, 1)
    assert put(agent, (BRIGHTNESS, ten)) == put(agent, (BRIGHTNESS, gauge)) == (wire.BAD_VALUE, 1)
    assert put(agent, (DIAL, (wire.OCTETS, bytes(5)))) == (wire.BAD_VALUE, 1)
    assert put(agent, (BRIGHTNESS, four), (BRIGHTNESS, ten)) == (wire.BAD_VALUE, 2)
    assert put(agent, (BRIGHTNESS, four), (BRIGHTNESS, four)) == (wire.GENERAL, 2)
    assert put(agent, (BRIGHTNESS, ten), (DESCRIPTION, four)) == (wire.BAD_VALUE, 1)
    assert agent.device.value(BRIGHTNESS) == four


def test_a_set_is_done_whole_or_not_at_all() -> None:
    agent = with_objects()
    two = [(BRIGHTNESS, (wire.INTEGER, 9)), (DIAL, (wire.OCTETS, b"\xff" * 4))]
    assert put(agent, *two, (BRIGHTNESS, (wire.INTEGER, 1))) == (wire.GENERAL, 3)
    assert agent.device.value(BRIGHTNESS) == (wire.INTEGER, 3) and agent.device.taken() == []
    assert put(agent, *two) == (wire.NO_ERROR, 0)
    assert asked(agent, wire.GET, *((name, NULL) for name, _ in two)).bindings == two


def test_a_set_of_both_is_the_signs_which_has_no_such_instance() -> None:
    agent = with_objects()
    colour = (DMS + (4, 2, 0), (wire.INTEGER, 3))
    assert put(agent, colour, (BRIGHTNESS, (wire.INTEGER, 4))) == (wire.NO_SUCH_NAME, 2)
    assert put(agent, (BRIGHTNESS, (wire.INTEGER, 4)), colour) == (wire.NO_SUCH_NAME, 1)
    assert put(agent, colour) == put(agent) == (wire.NO_ERROR, 0)
    assert agent.sign.state.defaults[1] == 3


def test_firmware_is_told_once_what_was_set_in_the_order_of_names() -> None:
    agent = with_objects()
    put(agent, (BRIGHTNESS, (wire.INTEGER, 1)))
    put(agent, (DIAL, (wire.OCTETS, b"A")))
    put(agent, (BRIGHTNESS, (wire.INTEGER, 2)))
    assert [(one.name, one.value) for one in agent.device.taken()] == [
        (DIAL, (wire.OCTETS, b"A")),
        (BRIGHTNESS, (wire.INTEGER, 2)),
    ]
    assert agent.device.taken() == []


def test_what_is_published_is_newer_than_what_was_set() -> None:
    agent = with_objects()
    put(agent, (BRIGHTNESS, (wire.INTEGER, 1)))
    agent.publish(Object(BRIGHTNESS, (wire.INTEGER, 7), Access(wire.INTEGER, 0, 9)))
    assert agent.device.value(BRIGHTNESS) == (wire.INTEGER, 7) and agent.device.taken() == []
    assert agent.device.withdraw(BRIGHTNESS) and not agent.device.withdraw(BRIGHTNESS)
    assert asked(agent, wire.GET, (BRIGHTNESS, NULL)).status == wire.NO_SUCH_NAME


def test_a_name_of_the_sign_or_of_its_fonts_is_not_published() -> None:
    agent = Agent(text.bench())
    fonts = Object(DMS + (3, 1, 0), (wire.INTEGER, 9))
    why = "the sign has an object of this name"
    assert all(agent.publish(Object(name, NULL)) == why for name in agent.sign.objects.names)
    assert agent.publish(fonts) is None and not agent.show_fonts()
    assert agent.device.withdraw(fonts.name) and agent.show_fonts() and agent.publish(fonts) == why


def test_a_value_that_the_access_does_not_take_is_not_published() -> None:
    agent = Agent(text.bench())
    for value, access in (
        ((wire.INTEGER, 3), Access(wire.INTEGER, 4, 9)),
        ((wire.INTEGER, 3), Access(wire.INTEGER, 9, 0)),
        ((wire.GAUGE, 3), Access(wire.INTEGER, 0, 9)),
        ((wire.OPAQUE, b""), Access(wire.OCTETS, 0, 9)),
    ):
        assert agent.publish(Object(BRIGHTNESS, value, access)) == "the value is not one that its access takes"
    assert agent.device.objects == {}


def test_an_answer_ends_a_silence_and_none_comes_without_power() -> None:
    agent = with_objects()
    agent.sign.state.silence = 5
    asked(agent, wire.GET, (DESCRIPTION, NULL))
    assert agent.sign.state.silence == 0
    agent.sign.showing.power_lost()
    get = wire.written(wire.Message(wire.GET, b"public", 1, bindings=[(DESCRIPTION, NULL)]))
    assert agent.receive(get) == (None, None)


def test_without_objects_it_answers_as_the_sign() -> None:
    agent, alone = Agent(text.bench()), Agent(text.bench()).sign
    requests = agents.Requests(1, agents.Firmware(random.Random(1), False))
    for octets in (requests.datagram() for _ in range(300)):
        assert agent.receive(octets) == alone.receive(octets)


def test_the_fonts_are_put_together_again_from_what_is_read() -> None:
    agent = Agent(text.bench())
    assert agent.show_fonts()
    values = dict(walk(agent))
    assert values[DMS + (3, 1, 0)] == (wire.INTEGER, 2)
    for i, font in enumerate(agent.sign.state.face.fonts, 1):
        row = [values[DMS + (3, 2, 1, column, i)][1] for column in range(1, 9)]
        assert row == [i, font.number, b"", font.height, font.space, font.line, font.version, 6]
        found = {name[-1] for name in values if name[:-1] == DMS + (3, 4, 1, 1, i)}
        assert found == set(font.glyphs)
    assert values[DMS + (3, 4, 1, 3, 1, 65)] == (wire.OCTETS, bytes.fromhex("7463f8c620"))
    assert put(agent, (DMS + (3, 2, 1, 4, 1), (wire.INTEGER, 9))) == (wire.NO_SUCH_NAME, 1)


def test_padding_of_a_picture_is_read_as_zeros() -> None:
    padded = text.BENCH.replace(b"7463f8c620", b"7463f8c63f").replace(b"57da", b"57db")
    agent = Agent(text.described(padded))
    agent.show_fonts()
    assert agent.objects.value(DMS + (3, 4, 1, 3, 1, 65)) == (wire.OCTETS, bytes.fromhex("7463f8c620"))
    assert agent.objects.value(DMS + (3, 4, 1, 3, 2, 65)) == (wire.OCTETS, bytes.fromhex("57da"))
