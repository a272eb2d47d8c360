"""What permanent messages tell of fonts: they fit, so the sign has what they name."""

import re
from collections.abc import Iterator, Sequence

from .fonts import MOST_FONTS
from .reading import Read

_ITEM = re.compile(rb"\[\[|\]\]|\[([^\[\]]*)\]|[^\[\]]", re.DOTALL)
_FONT = re.compile(rb"(?i)fo([0-9]{1,5})(?:,([0-9a-f]{4}))?")
_HEXADECIMAL = re.compile(rb"(?i)hc([0-9a-f]{1,4})")


def _items(read: Read) -> Iterator[tuple[bytes, bytes]]:
    """The items of all permanent texts: a tag's body, and nothing; or nothing, and a character's octets."""
    for held in read.permanent:
        for found in _ITEM.finditer(held.text):
            yield (found[1], b"") if found[1] is not None else (b"", found[0])


def characters(read: Read) -> list[int]:
    """The characters that stand in them, in order."""
    found = {octets[0] for _, octets in _items(read) if octets}
    found |= {int(named[1], 16) for tag, _ in _items(read) if (named := _HEXADECIMAL.fullmatch(tag))}
    return sorted(found - {0})


def versions(read: Read) -> list[tuple[int, int]]:
    """Fonts with a version, as they are named."""
    named = [found for tag, _ in _items(read) if (found := _FONT.fullmatch(tag)) and found[2]]
    return [(int(found[1]), int(found[2], 16)) for found in named]


def chosen(read: Read, numbers: Sequence[int]) -> list[int]:
    """As many of these fonts as a description has, in order: the default one, those that are named, the least."""
    named = [int(found[1]) for tag, _ in _items(read) if (found := _FONT.fullmatch(tag))]
    wanted = dict.fromkeys([read.defaults[4], *named, *sorted(numbers)])
    return sorted([number for number in wanted if number in numbers][:MOST_FONTS])
