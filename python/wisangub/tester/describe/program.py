"""A description made from the sign: wisangub-conform describe --to HOST:PORT [--communities READER WRITER] > my.sign

Size, rows, defaults and permanent messages are read; the order of checksums is that of a permanent message. Fonts are
taken from the sign's font table where it has one. Else texts that are validated, one a second of the sign, tell which
fonts and characters it has and how high, how wide and how far apart they are. What cannot be found has a comment at its
line. Standard error says what was written to the sign, and how it was put back. The exit status is 0 for a description,
2 where the command is wrong or the sign cannot be reached, and 3 where it could not be described: it stopped
answering, the command was interrupted, or texts do not tell its fonts; then the sign is put back where it answers.
"""

import argparse
import re
import sys
from types import FrameType

from wisangub.process.places import add_version, called
from wisangub.refusal import Refusal, reason
from wisangub.tester.ends import on_end, passed_over
from wisangub.tester.options import address, community, number_of
from wisangub.tester.sign.clock import RealClock
from wisangub.tester.sign.link import UdpLink
from wisangub.tester.sign.port import Port
from wisangub.tester.sign.way import Stopped

from .characters import PRINTABLE
from .client import Client, Unreached
from .describing import Describing
from .validations import Unlike

_COMMUNITIES = ("public", "administrator")  # those of signs/
_MOST = 65535  # the greatest number of a character


def numbers(word: str) -> tuple[int, ...]:
    """Characters as `32-126,176`: the type of an option."""
    found: list[int] = []
    for part in word.split(","):
        matched = re.fullmatch(r"([0-9]{1,5})(?:-([0-9]{1,5}))?", part)
        least, most = (int(matched[1]), int(matched[2] or matched[1])) if matched else (0, 0)
        if not 1 <= least <= most <= _MOST:
            raise argparse.ArgumentTypeError(f"numbers of characters are wanted, as 32-126,176, and not {word!r}")
        found += range(least, most + 1)
    return tuple(dict.fromkeys(found))


def seconds(word: str) -> float:
    """Seconds above 0: the type of an option."""
    return number_of(word, "a number above 0 and below 3600", lambda number: 0 < number < 3600)


def spelled_community(word: str) -> bytes:
    """A community in its octets: the type of an option."""
    return community(word).encode()


def _arguments() -> argparse.ArgumentParser:
    parser = argparse.ArgumentParser(
        prog=called("wisangub-conform describe"),
        description="makes a description from a sign over UDP, and prints it; it writes to one row of the sign",
    )
    add_version(parser, "wisangub-conform describe")
    parser.add_argument("--to", required=True, metavar="HOST:PORT", help="where the sign answers")
    parser.add_argument(
        "--communities",
        nargs=2,
        type=spelled_community,
        metavar=("READER", "WRITER"),
        default=[held.encode() for held in _COMMUNITIES],
        help=f"{' and '.join(_COMMUNITIES)} where nothing is said",
    )
    parser.add_argument("--wait", type=seconds, default=1.0, metavar="SECONDS", help="how long a reply may take")
    parser.add_argument(
        "--characters",
        type=numbers,
        default=tuple(PRINTABLE),
        metavar="NUMBERS",
        help="those that each font is asked for, as 32-126,176; each that is missing takes a second",
    )
    parser.add_argument("--by-texts", action="store_true", help="as if the sign had no font table")
    return parser


def _say(words: str) -> None:
    """A line on standard error."""
    print(words, file=sys.stderr, flush=True)


def _interrupted(_number: int, _frame: FrameType | None) -> None:
    """The first signal ends it; the sign is put back, whatever comes after it."""
    on_end(passed_over)
    raise KeyboardInterrupt


def described(made: Describing) -> tuple[str | None, int]:
    """The description, and the exit status; the sign is put back."""
    text: str | None = None
    status = 3
    try:
        text, status = made.run(), 0
    except Unreached as why:
        _say(str(why))
        status = 2
    except Stopped as why:
        _say(f"it stopped: {why}")
    except Unlike as why:
        _say(f"texts do not tell what the sign is: {why}")
    except KeyboardInterrupt:
        _say("it was interrupted")
    except OSError as fault:
        _say(reason(fault))
        status = 3 if made.client.written else 2
    finally:
        status = max(status, _put_back(made))
    return text, status


def _put_back(made: Describing) -> int:
    """The sign as it was: 0, or 3 where it is not."""
    if made.client.written:
        _say("written to the sign: " + "; ".join(made.written()))
    try:
        left = _left(made)
    except KeyboardInterrupt:  # it is the first, and no other follows
        left = _left(made)
    for line in made.client.port.way.words():
        _say(line)
    if left:
        _say(f"not put back: {', '.join(left)}")
        return 3
    if made.client.written:
        _say("put back: all of it reads as before")
    return 0


def _left(made: Describing) -> list[str]:
    """What of the sign cannot be put back."""
    try:
        made.client.port.way.begin_anew()
        return made.put_back()
    except (Stopped, Unlike, OSError) as why:
        return [f"what was written ({why})"]


def main() -> int:
    """Describes a sign; the exit status is as above."""
    asked = _arguments().parse_args()
    on_end(_interrupted)
    clock = RealClock()
    begun = clock.now()
    try:
        host, port = address(asked.to)
        reader, writer = asked.communities
        client = Client(Port(UdpLink(host, port, clock), clock, asked.wait), (reader, writer))
        made = Describing(client, _say, asked.characters, is_by_table=not asked.by_texts)
        text, status = described(made)
    except OSError as fault:
        raise Refusal(reason(fault)) from None
    if text is not None:
        print(text, end="", flush=True)
        count = 0 if made.texts is None else made.texts.count
        _say(f"described in {clock.now() - begun:.0f} s, with {count} validations")
    return status


if __name__ == "__main__":
    sys.exit(main())
