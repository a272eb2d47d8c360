"""The codec of what is shipped beside the model's, which reads and writes by itself."""

import random
from dataclasses import astuple
from typing import Any

from model import wire as model
from wisangub.snmp import wire

from .datagrams import mutated, requests
from .edges import edges


def said_by(codec: Any, octets: bytes) -> tuple[object, ...]:
    """The message that these octets spell, or their first fault and its place."""
    try:
        return astuple(codec.read(octets))
    except codec.Fault as fault:
        return fault.kind, fault.offset


def test_it_reads_what_the_model_reads_with_the_same_faults() -> None:
    chance, faults = random.Random(1), set()
    for octets in requests():
        for one in (octets, *(mutated(octets, chance) for _ in range(20)), octets + bytes(wire.MOST_DATAGRAM)):
            found = said_by(wire, one)
            assert found == said_by(model, one), one.hex()
            if len(found) == 2:
                faults.add(found[0])
    named = "BadInteger BadLength BadName BadTag BadVersion LengthPast TooLong TrailingBytes Truncated"
    assert faults == set(named.split())


def test_the_edges_of_what_is_a_message() -> None:
    for octets, is_one in edges():
        assert (wire.spelled(octets) is not None) == is_one, octets.hex()
        assert said_by(wire, octets) == said_by(model, octets), octets.hex()


def test_it_writes_what_the_model_writes() -> None:
    for octets in requests():
        found, wanted = wire.spelled(octets), model.spelled(octets)
        assert (found is None) == (wanted is None)
        if found is not None and wanted is not None:
            assert wire.written(found) == model.written(wanted)
    for number in (0, 127, 128, 255, 256, 2**31 - 1, 2**31, 2**32 - 1, -1, -128, -129, -(2**31)):
        assert wire.integer(number) == model.integer(number)
    for size in (0, 1, 127, 128, 255, 256, 65536):
        assert wire.element(wire.OCTETS, bytes(size)) == model.element(model.OCTETS, bytes(size))
    for name in ((0, 0), (1, 3), (1, 39, 127, 128), (2, 999), (2, 2**32 - 81), (1, 3, 2**32 - 1, 16383, 16384)):
        assert wire.name(name) == model.name(name)


def test_a_get_is_the_message_that_asks() -> None:
    names: list[wire.Name] = [(1, 3, 6, 1, at) for at in (1, 127, 128, 2**32 - 1)]
    for number in (0, -1, 2**31 - 1, -(2**31), -1):
        for asked in (names, names[1:], names[:0]):
            message = wire.Message(wire.GET, b"public", number, bindings=[(one, (wire.NULL, b"")) for one in asked])
            assert wire.get(b"public", number, iter(asked)) == wire.written(message)


def test_constants_are_those_of_the_model() -> None:
    for word, held in vars(model).items():
        if word.isupper():
            assert getattr(wire, word) == held, word
