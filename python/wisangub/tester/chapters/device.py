"""Objects beside the profile's that a sign claims: each of them read, and set within its range and beyond."""

from typing import Iterator

from wisangub.snmp import wire
from wisangub.tester.context import Context
from wisangub.tester.requests.objects import Name, Value, integer, octets
from wisangub.tester.requests.steps import Step, get, get_next, put
from wisangub.tester.sign.device_claims import DeviceClaim

from .block import Block, Chapter


def _before(name: Name) -> Name:
    """A name right before this one, so that this one is what comes next."""
    return (*name[:-1], name[-1] - 1) if name[-1] else name[:-1]


def _read(claim: DeviceClaim) -> list[Step]:
    """It is read by both communities, and by GetNext; what is none is asked for by Get alone."""
    both: list[Step] = [get(claim.name), get(claim.name, is_writer=False)]
    return [*both, get_next(_before(claim.name), rule="device next")] if claim.is_there else both


def _refused(claim: DeviceClaim, own: Value) -> list[Step]:
    """SETs that change nothing: one by the reader, one of another type, the name twice, and one past each end."""
    again, rule = get(claim.name), "device refused"
    another = octets(b"a") if claim.tag == wire.INTEGER else integer(1)
    steps: list[Step] = [put((claim.name, own), rule=rule, is_writer=False), put((claim.name, another), rule=rule)]
    steps += [put((claim.name, own), (claim.name, own), rule=rule), again]
    least, most = claim.ends or (0, 0)
    for size in (least - 1, most + 1):
        if _can_be(claim, size):
            steps += [put((claim.name, claim.example(size)), rule=rule), again]
    return steps


def _can_be(claim: DeviceClaim, size: int) -> bool:
    """Whether there is such a number, or a length that fits a datagram."""
    return 0 <= size <= 1000 if claim.tag == wire.OCTETS else -(2**31) <= size < 2**32


def _set(claim: DeviceClaim, own: Value) -> list[Step]:
    """Set to the least and the most, and put back."""
    steps: list[Step] = []
    for size in dict.fromkeys(claim.ends or ()):
        if _can_be(claim, size):
            steps += [put((claim.name, claim.example(size)), rule="device set"), get(claim.name)]
    return [*steps, put((claim.name, own), rule="device set"), get(claim.name)]


def _blocks(context: Context) -> Iterator[Block]:
    for claim in context.claims.device:
        own = context.device.get(claim.name, claim.example())
        if not claim.is_there:
            yield Block(f"{claim.word} is none", "device values", _read(claim), True)
            continue
        yield Block(f"{claim.word} is read", "device values", _read(claim), True)
        if claim.ends is None:
            alone: list[Step] = [put((claim.name, own), rule="device refused"), get(claim.name)]
            yield Block(f"{claim.word} is read alone", "device refused", alone)
        else:
            yield Block(f"{claim.word} is set", "device set", _set(claim, own), True)
            yield Block(f"{claim.word} is refused beyond", "device refused", _refused(claim, own), True)


CHAPTER = Chapter("device", "Objects beside", _blocks, is_of_claims=True)
