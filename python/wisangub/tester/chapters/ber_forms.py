"""Datagrams of the chapter on BER, made by hand: a Get with any of its elements in another form."""

from typing import Callable

from wisangub.tester.requests.spelling import Form, spelled
from wisangub.tester.requests.steps import Raw

BAD_TAGS = bytes.fromhex("00 01 03 10 22 24 26 31 45 46 47 1f 80 a4 a5 a6 a7 b0 bf ff")


def raw(rule: str, changes: dict[str, Form], **more: object) -> Raw:
    """A Get with these changes."""

    def make(number: int, communities: tuple[bytes, bytes]) -> bytes:
        return spelled(number, communities[1], changes, **more)  # type: ignore[arg-type]

    return Raw(make, rule)


def whole_changed(change: Callable[[bytes], bytes], rule: str = "") -> Raw:
    """A Get whose octets are changed as a whole."""
    return Raw(lambda number, names: change(spelled(number, names[1], {})), rule)


def of_kind(kind: int, is_writer: bool = True) -> Raw:
    """A Get with another tag of its PDU."""
    return Raw(lambda number, names: spelled(number, names[is_writer], {}, kind))
