"""The Gets of readings, over the vectors and beside the model, and which octets answer one."""

import json
import random

from model import wire
from wisangub.endpoint import asking
from wisangub.process.places import TOP
from wisangub.room.worker import readings
from wisangub.snmp import wire as shipped

CASES = [json.loads(line) for line in (TOP / "vectors/datagrams.jsonl").read_text().splitlines()]
MESSAGES = [(case["message"], case["canonical"]) for case in CASES if case.get("message")]


def test_gets_are_those_of_the_vectors() -> None:
    counted = 0
    for message, canonical in MESSAGES:
        if message["kind"] != "Get" or message["error-status"] or message["error-index"]:
            continue
        names = [tuple(map(int, held["name"].split("."))) for held in message["bindings"]]
        if all(held["type"] == "NULL" for held in message["bindings"]):
            community = bytes.fromhex(message["community"].replace("-", ""))
            assert shipped.get(community, message["request-id"], names).hex() == canonical
            counted += 1
    assert counted > 10


def test_gets_are_those_of_the_model() -> None:
    chance = random.Random(39)
    sizes = (0, 1, 2, 3, 15, 60)

    def number(bits: int) -> int:
        return chance.getrandbits(chance.randint(0, bits))

    for _ in range(2000):
        names = [
            (chance.randint(0, 2), number(5), *(number(32) for _ in range(chance.choice(sizes))))
            for _ in range(chance.choice(sizes))
        ]
        community, least = chance.randbytes(chance.choice((0, 6, 127, 128, 300))), chance.choice((0, -1, -(2**31)))
        asked = least + number(31) if least != -1 else -1 - number(31)
        bindings = [(name, (wire.NULL, b"")) for name in names]
        octets = shipped.get(community, asked, names)
        assert octets == wire.written(wire.Message(wire.GET, community, asked, 0, 0, bindings))
        if len(octets) <= wire.MOST_DATAGRAM:
            assert wire.spelled(octets) == wire.Message(wire.GET, community, asked, 0, 0, bindings)


def test_a_get_asks_below_zero_and_is_answered_by_its_response_alone() -> None:
    asked = list(readings.ASKED.values())
    octets = shipped.get(b"public", -(2**31), asked)
    message = shipped.spelled(octets)
    assert message is not None and message.number == -(2**31) and [name for name, _ in message.bindings] == asked
    message.kind = wire.RESPONSE
    reply = shipped.written(message)
    assert asking.answer(reply, b"public", -(2**31)) == message
    for others in (octets, reply[:-1], b""):
        assert asking.answer(others, b"public", -(2**31)) is None
    assert asking.answer(reply, b"public", 5) is None and asking.answer(reply, b"admin", -(2**31)) is None
