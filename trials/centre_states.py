"""States of a centre, with an octet changed, left out or doubled, and with lines exchanged: each is refused with its
line, or is the state whose text it is, and never another."""

import random
import re
from collections.abc import Callable, Iterator

from model.description import Description
from model.restored_centre import restored
from model.saved_centre import saved
from model.state_text import Refused

from .states import begun

_OCTETS = b"0123456789abcdef -.\n\r\0#A"
Answer = Callable[[bytes], bytes | None]  # the text of the state that goes on from a text; None where it is refused


class NoAnswer(Exception):
    """What a program answers that is neither a state nor the line of a fault."""


def of_model(described: Description, octets: bytes) -> bytes | None:
    """The text of the model's centre that goes on from this one."""
    try:
        lines = saved(restored(described.writer, described.swapped, octets))
    except Refused as refused:
        if not 1 <= refused.line <= octets.count(b"\n") + 1:
            raise NoAnswer(str(refused)) from refused
        return None
    return "".join(f"{line}\n" for line in lines).encode()


def of_program(program: str, description: bytes | None, octets: bytes) -> bytes | None:
    """The same of the program. What stands behind the first line `end` is no part of a state there."""
    end = b"" if octets.endswith(b"\n") else b"\n"
    ended = begun(program, "centre", description, b"%b%bsave\n" % (octets, end))
    found = re.fullmatch(rb"state line ([0-9]+)\n", ended.stdout)
    if found and ended.returncode == 1 and ended.stderr.startswith(b"state line %b: " % found[1]):
        if 1 <= int(found[1]) <= octets.count(b"\n") + 1:
            return None
    elif ended.returncode == 0 and ended.stdout.endswith(b"end\nok\n"):
        return ended.stdout[:-3]
    raise NoAnswer(f"status {ended.returncode}, {ended.stdout!r}, {ended.stderr!r}")


def has_restore(program: str) -> bool:
    """Whether the program goes on from a state of a centre."""
    text = b"state 1 centre\nnext 1\nlast none\nidle\nend\n"
    try:
        return of_program(program, None, text) == text
    except NoAnswer:
        return False


def others(chance: random.Random, octets: bytes) -> Iterator[bytes]:
    """A text with each octet changed, left out and doubled, and with each line exchanged for another."""
    for at in range(len(octets)):
        octet = bytes([chance.choice(_OCTETS)])
        for part in (octet, b"", octets[at : at + 1] * 2):
            yield octets[:at] + part + octets[at + 1 :]
    lines = octets.splitlines(keepends=True)
    for at in range(len(lines)):
        to = chance.randrange(len(lines))
        swapped = [*lines]
        swapped[at], swapped[to] = lines[to], lines[at]
        yield b"".join(swapped)


def _has_more(octets: bytes) -> bool:
    """Whether something stands behind the first line `end`, or none is there: a co-process reads up to that line."""
    return re.search(rb"(?m)^end\r?\n", octets + b"\n") is None or not octets.endswith(b"end\n")


def faults(answer: Answer, texts: Iterator[bytes], is_live: bool = False) -> tuple[int, list[str]]:
    """How many texts were refused, or have the state whose text they are; and what was otherwise."""
    passed, found = 0, list[str]()
    for octets in texts:
        if is_live and _has_more(octets):
            continue
        try:
            told = answer(octets)
        except NoAnswer as other:
            found.append(f"{octets!r}: {other}")
            continue
        if told in (None, octets):
            passed += 1
        else:
            found.append(f"{octets!r} is taken for {told!r}")
    return passed, found
