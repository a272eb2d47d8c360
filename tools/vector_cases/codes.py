"""Codes: the checksum of a message, and the code that activates it."""

from collections.abc import Iterator

from model.codes import Activation, MessageId, checksum

from .messages import Case


def _case(at: int, memory: int, number: int, words: str) -> Case:
    """The case of this number, which decides what is not given."""
    beacon, pixel, swapped = at % 2, at // 2 % 2, at % 5 == 0
    duration, priority = (0, 1, 65535)[at % 3], (0, 100, 255)[at // 3 % 3]
    address = bytes([192, 0, 2, at % 256])
    crc = checksum(words.encode(), beacon, pixel)
    code = Activation(duration, priority, MessageId(memory, number, crc), address).octets(swapped)
    shown = words if len(words) < 20 else f"{len(words)} octets"
    order = "swapped" if swapped else "high"
    return {
        "name": f"row {memory}.{number}, {shown!r}, beacon {beacon}, pixel service {pixel}, {order}",
        "type": memory,
        "number": number,
        "text": words,
        "beacon": beacon,
        "pixel": pixel,
        "swapped": swapped,
        "duration": duration,
        "priority": priority,
        "address": ".".join(map(str, address)),
        "checksum": f"{crc:04x}",
        "code": code.hex(),
    }


def cases() -> Iterator[Case]:
    made = ["", "A", "B", "ROAD WORK", "[jl2]A[nl]B", "]]", "A" * 512] + [chr(c) * 3 for c in range(33, 127, 6)]
    at = 0
    for memory in (2, 3, 4):
        for number in (1, 255, 256, 65535):
            for words in made[at % 2 :: 2]:
                at += 1
                yield _case(at, memory, number, words)
