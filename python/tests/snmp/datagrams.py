"""Datagrams of the vectors, and near to them."""

import json
import random

from wisangub.process.places import TOP


def requests() -> list[bytes]:
    """The requests of the vectors."""
    with open(TOP / "vectors/requests.jsonl", encoding="utf-8") as file:
        return [bytes.fromhex(json.loads(line)["request"]) for line in file]


def mutated(octets: bytes, chance: random.Random) -> bytes:
    """A datagram with some octets changed, left out, doubled or cut."""
    made = bytearray(octets)
    for _ in range(chance.randint(1, 3)):
        at, kind = chance.randrange(len(made) + 1), chance.randrange(5)
        if kind == 0:
            made[at : at + 1] = bytes([chance.randrange(256)])
        elif kind == 1:
            del made[at : at + chance.randint(1, 3)]
        elif kind == 2:
            made[at:at] = chance.choice([b"\0", b"\x80", b"\xff", b"\x81", bytes([chance.randrange(256)])])
        elif kind == 3 and at < len(made):
            made[at] = (made[at] + chance.choice([-1, 1, 128])) % 256
        elif chance.random() < 0.1:
            del made[at:]
    return bytes(made)
