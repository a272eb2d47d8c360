"""Calls of the program for trials/refuse_memory.sh: `python3 -m trials.memory_cases FOLDER` writes NAME.words and
NAME.input.

Requests, dropped datagrams, refusals, a publication, and requests whose replies are too big; then what reads a sign's
description. The words of a call stand one a line.
"""

from __future__ import annotations

import argparse
import pathlib
from dataclasses import dataclass

from model import wire
from model.objects import DMS
from trials import hostile
from wisangub.tester.requests.hostile_datagrams import Maker

TOP = pathlib.Path(__file__).resolve().parent.parent
READER, WRITER = b"public", b"admin"
STATUS, TEXT = (DMS + (5, 8, 1, column, 3, 1) for column in (9, 3))
SHORT_POWER_LOSS_TIME, _END_DURATION_MESSAGE = DMS + (6, 10, 0), DMS + (6, 15, 0)
_LAST_STATUS = DMS + (5, 8, 1, 9, 7, 255)
_MODIFY = 6
NULL = (wire.NULL, b"")
_MANY_NAMES = [(1, 3)] * 203 + [(1, 3, 6, 1), (2, 5)]


@dataclass(frozen=True)
class Call:
    name: str
    words: list[str]
    stdin: bytes = b""


def request(kind: int, community: bytes, *bindings: wire.Binding, number: int = 1) -> bytes:
    return wire.written(wire.Message(kind, community, number, 0, 0, list(bindings)))


def get(*names: tuple[int, ...]) -> bytes:
    return request(wire.GET, READER, *((name, NULL) for name in names))


def answers() -> dict[str, bytes]:
    """Datagrams to the bench sign."""
    one = get(STATUS)
    many = request(wire.GET_NEXT, READER, *((name, NULL) for name in _MANY_NAMES), number=2**31 - 1)
    assert len(many) == wire.MOST_DATAGRAM
    return {
        "get": one,
        "long-length": b"\x30\x82\x00" + one[1:],
        "cut": one[:-1],
        "trailing": one + b"\0",
        "other-community": request(wire.GET, b"private", (STATUS, NULL)),
        "reader-sets": request(wire.SET, READER, (SHORT_POWER_LOSS_TIME, (wire.INTEGER, 5))),
        "get-next-past-the-table": request(wire.GET_NEXT, READER, (_LAST_STATUS, NULL), number=2),
        "get-next-of-205-names": many,
    }


def talks() -> dict[str, list[bytes]]:
    """Datagrams to a live sign, each of which finds what those before it left."""
    settings = (SHORT_POWER_LOSS_TIME, (wire.INTEGER, 5)), (_END_DURATION_MESSAGE, (wire.OCTETS, b"\x07\x00\x01\x00"))
    return {
        "a-good-and-a-bad-value": [request(wire.SET, WRITER, *settings), get(SHORT_POWER_LOSS_TIME)],
        "three-long-texts": [
            request(wire.SET, WRITER, (STATUS, (wire.INTEGER, _MODIFY))),
            request(wire.SET, WRITER, (TEXT, (wire.OCTETS, b"A" * 512))),
            get(TEXT, TEXT, TEXT),
        ],
    }


def _calls() -> list[Call]:
    made = [Call(name, ["answer", octets.hex()]) for name, octets in answers().items()]
    for name, datagrams in talks().items():
        made.append(Call(name, ["sign"], "".join(f"datagram {octets.hex()}\n" for octets in datagrams).encode()))
    made.append(Call("publication", ["replay"], "\n".join(["bench", *hostile.PUBLICATION, ""]).encode()))
    made.append(Call("hostile", ["replay"], hostile.script(100, hostile.Random(Maker(1), 100))[0].encode()))
    gantry, roadside = ((TOP / f"signs/{name}.sign").read_bytes() for name in ("gantry", "roadside"))
    made += [
        Call("replay-on-gantry", ["replay"], gantry),
        Call("pages-on-gantry", ["pages", "[fo4]CLOSED", "--sign"], gantry),
        Call("check-on-roadside", ["check", "A", "--sign"], roadside),
        Call("get-on-roadside", ["answer", get(STATUS).hex(), "--sign"], roadside),
        Call("pages", ["pages", "A"]),
        Call("check", ["check", "A"]),
        Call("code", ["code", "3", "1", "A"]),
    ]
    return made


def main() -> None:
    parser = argparse.ArgumentParser(description=__doc__, formatter_class=argparse.RawDescriptionHelpFormatter)
    parser.add_argument("folder", type=pathlib.Path, help="where NAME.words and NAME.input are written")
    folder = parser.parse_args().folder
    for call in _calls():
        (folder / f"{call.name}.words").write_text("".join(word + "\n" for word in call.words), encoding="ascii")
        (folder / f"{call.name}.input").write_bytes(call.stdin)


if __name__ == "__main__":
    main()
