"""Types of options of the commands: each refuses what is none in words. And the address that `--to` says."""

import argparse
import math
import sys
from typing import Callable

from wisangub.refusal import Refusal

_MOST = 10**9  # seconds, or minutes, or hours: a wait for more is none that a system has


def number_of(word: str, wanted: str, is_wanted: Callable[[float], bool]) -> float:
    """A number of an option. Raises ArgumentTypeError, which says what is wanted, where it is another."""
    try:
        number = float(word)
    except ValueError:
        number = math.nan
    if not is_wanted(number):
        raise argparse.ArgumentTypeError(f"{wanted} is wanted, and not {word!r}")
    return number


def above_nothing(word: str) -> float:
    """A number above 0: the type of an option."""
    number_of(word, "a number above 0", lambda number: 0 < number < math.inf)
    return number_of(word, f"a number up to {_MOST}", lambda number: number <= _MOST)


def share(word: str) -> float:
    """A number from 0 to 100: the type of an option."""
    return number_of(word, "a number from 0 to 100", lambda number: 0 <= number <= 100)


def community(word: str) -> str:
    """A community, as a description can have it: the type of an option."""
    held = word.encode("utf-8", "replace")
    if not 1 <= len(held) <= 32 or any(octet in b" \n\r" for octet in held) or held.decode() != word:
        raise argparse.ArgumentTypeError(f"1 to 32 octets without a space are wanted, and not {word!r}")
    return word


def _counted(word: str, wanted: str, least: int = 0, most: int = sys.maxsize) -> int:
    """A whole number of an option, from the least to the most."""
    number_of(word, wanted, lambda number: word.isdecimal() and least <= number <= most)
    return int(word)


def whole(word: str) -> int:
    """A whole number that is not below 0: the type of an option."""
    return _counted(word, "a whole number from 0")


def count(word: str) -> int:
    """A whole number above 0: the type of an option."""
    return _counted(word, "a whole number above 0", 1)


def port(word: str) -> int:
    """A UDP port, or 0 for one that is free: the type of an option."""
    return _counted(word, "a port from 0 to 65535", most=65535)


def texts(word: str) -> int:
    """A whole number, or the word for more than there are: the type of an option."""
    return sys.maxsize if word == "all" else _counted(word, "a whole number, or all,")


def address(to: str) -> tuple[str, int]:
    """The host and the UDP port that `--to` says. Raises Refusal where it says none."""
    host, _, number = to.rpartition(":")
    if not host or not number.isdecimal() or not 0 < int(number) < 65536:
        raise Refusal(f"--to wants HOST:PORT, not {to}")
    return host.strip("[]"), int(number)
