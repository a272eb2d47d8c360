"""Defaults that decide on a text: it fits under some, and not under others."""

import itertools
from dataclasses import dataclass
from typing import Iterator

from wisangub.tester.context import Context
from wisangub.tester.requests.objects import DEFAULTS, Binding, integer
from wisangub.tester.requests.steps import Ask, put

from .edge_texts import unit_of


@dataclass(frozen=True)
class Telling:
    """A text that fits under one of two values of a default: the SETs of each."""

    member: int
    text: bytes
    own: Ask
    other: Ask
    good: Ask
    bad: Ask


def default(member: int, value: int) -> Binding:
    """A SET's binding of the default that has this place in a description, from 1."""
    return DEFAULTS[member - 1], integer(value)


def _with_default(context: Context, member: int, value: int) -> tuple[int, ...]:
    return tuple(value if at == member else held for at, held in enumerate(context.defaults, 1))


def _missing(context: Context) -> list[bytes]:
    """Texts in which a value is missing."""
    one = context.character()
    forms = (b"[fo]%s", b"[jp3]%s[jp]%s", b"[jl3]%s[jl]%s", b"[jl]%s[jl3]%s", b"[jp]%s[jp3]%s")
    return [form.replace(b"%s", one) for form in forms]


def _beginning(context: Context) -> list[bytes]:
    """Texts that begin as the defaults say."""
    one = context.character()
    texts = [one, one + b"[jp3]" + one, one + b"[jl3]" + one]
    if len(context.described.face.fonts) > 1:
        font = context.described.face.known_font(context.defaults[4])
        texts += [bytes([number]) for number in list(font.glyphs)[:3] if number < 256]
        texts += [b"[nl]".join([one] * count) for count in range(1, 9)] + [one * count for count in (3, 8, 16, 20, 40)]
    return texts


def spoiling(context: Context, text: bytes) -> list[Ask]:
    """SETs of a default each under which a text that fits does not."""
    values = [(5, font.number) for font in context.described.face.fonts]
    values += [(member, value) for member in (6, 7) for value in (2, 3, 4)]
    deciding = [pair for pair in values if context.fault(text, _with_default(context, *pair)) is not None]
    return [put(default(*pair)) for pair in deciding]


def _told_by(context: Context, member: int, value: int, texts: list[bytes]) -> list[Telling]:
    """The first of the texts that fits under one of the sign's own default and this one."""
    changed = _with_default(context, member, value)
    deciding = [text for text in texts if (context.fault(text) is None) != (context.fault(text, changed) is None)]
    if not deciding:
        return []
    text = deciding[0]
    own, other = put(default(member, context.defaults[member - 1])), put(default(member, value))
    good, bad = (own, other) if context.fault(text) is None else (other, own)
    return [Telling(member, text, own, other, good, bad)]


def telling(context: Context) -> list[Telling]:
    """A text for each default that decides on one; with --slow for each of its values, one in which it is missing and
    one that begins as it says."""
    found: list[Telling] = []
    for member in (5, 6, 7):
        values = [font.number for font in context.described.face.fonts] if member == 5 else (2, 3, 4)
        texts = _missing(context), _beginning(context)
        kinds = texts if context.is_slow else (texts[0] + texts[1],)
        told = [held for value in values for kind in kinds for held in _told_by(context, member, value, kind)]
        found += told if context.is_slow else told[:1]
    return found


def staying(context: Context) -> Iterator[tuple[int, Ask, bytes]]:
    """Of each default that decides on a text, a SET of another value, and for a new line and a new page a text that
    names none, and that is judged otherwise where the sign's first value holds again behind it."""
    for member, tag, betweens in (
        (5, b"fo", (b"[nl0]", b"[np]")),
        (6, b"jl", (b"[nl0]", b"[np]")),
        (7, b"jp", (b"[np]",)),
    ):
        values = [font.number for font in context.described.face.fonts] if member == 5 else (2, 3, 4)
        for between in betweens:
            held = (pair for value in values for pair in _lost(context, member, value, tag, between))
            found = sorted(itertools.islice(held, _TRIED), key=lambda pair: not pair[2])
            yield from ((member, put(default(member, value)), text) for value, text, _ in found[:1])


_TRIED = 20  # texts that tell, of which one that fits is taken


def _lost(context: Context, member: int, value: int, tag: bytes, between: bytes) -> Iterator[tuple[int, bytes, bool]]:
    """Texts that tell whether this value of a default stays, with whether they fit."""
    own, changed = context.defaults[member - 1], _with_default(context, member, value)
    fonts = context.described.face
    unit = unit_of(fonts.known_font(value if member == 5 else context.defaults[4]))
    if value == own or not unit:
        return
    for tail in _tails(unit, member):
        text, lost = (unit + between + middle + tail for middle in (b"", b"[%s%d]" % (tag, own)))
        kept, other = context.fault(text, changed), context.fault(lost, changed)
        if (kept is None) != (other is None):
            yield value, text, kept is None


def _tails(unit: bytes, member: int) -> list[bytes]:
    """What comes behind a new line or page: characters, lines, and parts of a line or a page."""
    if member == 5:
        return [unit * count for count in range(1, 65)] + [b"[nl0]".join([unit] * count) for count in range(2, 13)]
    tag = b"[jl%d]" if member == 6 else b"[jp%d]"
    counts = (1, 2, 3, 4, 6, 8, 12) if member == 6 else (1,)
    return [unit * count + tag % part + unit for count in counts for part in (2, 3, 4)]
