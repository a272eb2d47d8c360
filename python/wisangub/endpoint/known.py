"""The lines that an end of a journal knows: a whole record with another one was written by another hand, or by a
front end of a later form."""

import re
from binascii import unhexlify
from typing import Callable

from wisangub.snmp.gets import MOST_DATAGRAM

_MOST_NUMBER = 2**32 - 1
_MOST_LINE = 65_536
_DATAGRAM_WORD = b"datagram "
_MOST_RECORDED = len(_DATAGRAM_WORD) + 2 * MOST_DATAGRAM  # of a sign: what is longer is lost, and is no record
_DATAGRAM = rb"datagram (?:-|(?:[0-9a-fA-F]{2})+)"
_LARGE = rb"([0-9]{1,10})"
_MOMENT = rb"[0-9]{1,18} -?[0-9]{1,18}"
_SIGN = re.compile(  # but for datagrams
    rb"tick|heard|power-lost|ticks %b|power-back %b|start [!-~]{1,63} %b|clock %b" % (_LARGE, _LARGE, _MOMENT, _MOMENT)
)
_CENTRE = re.compile(rb"%b|tick|restart|(?:publish|blank|activate)(?: .*)?" % _DATAGRAM, re.DOTALL)


def _are_octets(digits: bytes) -> bool:
    """Whether these are a datagram's octets, or `-` for none. Of a long journal most lines are looked at here."""
    try:
        return digits == b"-" or len(unhexlify(digits)) > 0
    except ValueError:
        return False


def of_sign(line: bytes) -> bool:
    """Whether a sign's journal may have this line behind its first."""
    if line.startswith(_DATAGRAM_WORD):
        return len(line) <= _MOST_RECORDED and _are_octets(line[len(_DATAGRAM_WORD) :])
    found = _SIGN.fullmatch(line)
    number = found[1] or found[2] if found else None
    return found is not None and (number is None or int(number) <= _MOST_NUMBER)


def of_centre(line: bytes) -> bool:
    """Whether a centre's may. A command is whatever an operator gave, and the program says what is wrong with it."""
    return _CENTRE.fullmatch(line) is not None and len(line) <= _MOST_LINE


def of(end: str) -> Callable[[bytes], bool]:
    """Which lines an end's journal may have."""
    return of_centre if end == "centre" else of_sign
