"""Texts for the chapters: good ones, and one for each fault, made for the faces that a sign has."""

import functools
import random
from dataclasses import replace

from wisangub.tester.context import Context
from wisangub.tester.requests.texts import tags_of

from .edge_texts import (
    Sample,
    closed,
    edges,
    fonts_at_closing,
    full,
    gaps,
    heights,
    longest,
    made,
    mixed,
    mixed_parts,
    spacings,
    touching,
)
from .joining import joined, with_faults
from .line_texts import mixed_heights, mixed_spacings
from .measured_texts import centred, exact
from .staying_texts import staying
from .tag_texts import ends

_MARKUP = [  # each with one fault of the markup, by the rule that it breaks
    ("markup code", [b"[zz]", b"[", b"]", b"[ nl]", b"[]", b"[nl", b"A]", b"[/f]", b"[/FLx", b"[n]", b"[[]"]),
    (
        "markup code",
        [
            b"[nl10]",
            b"[flt1t2]",
            b"[/fl1]",
            b"[nl000001]",
            b"[jl1]",
            b"[jl5]",
            b"[jp1]",
            b"[jp5]",
            b"[fo0]",
            b"[fo256]",
            b"[pb10]",
            b"[cb10]",
            b"[cf10]",
            b"[pt256]",
            b"[pto256]",
            b"[np1]",
            b"[hc]",
            b"[hc12345]",
            b"[hcg]",
            b"[flt100]",
            b"[flx]",
            b"[fo1,123]",
            b"[fo1,]",
            b"[fo,0001]",
            b"[nl ]",
            b"[nl-1]",
            b"[pt1o2o3]",
            b"[flo1o2]",
            b"[NL10]",
            b"[fo1,12345]",
            b"[flt1o100]",
            b"[flt1o2t3]",
            b"[fl5]",
            b"[ptx]",
            b"[pt1t2]",
            b"[fo1o0001]",
            b"[cf1,2]",
            b"[nl[[2]",
        ],
    ),
]
FIRST_MARKUP, OTHERS = 3, 1
_NEW_PAGE = "np"
_MOST_JOINED = 5  # pages of joined texts, so that one with a fault has a page behind them
_MOST_CARRIED = 200  # octets of a text of another chapter, so that a look at two of them has room in a datagram
_GOOD_MARKUP = [  # the last three have no place behind the others
    b"[cf][cf9][cb0][pb][pb9][cf00009][pb04]",
    b"[fl][FLt][flo][flt99o99][flo0t0][flto][flot][flt5][flo5][flt1o][flo1t][/fl][/FL]",
    b"[pt][pt255o255][pto][pt1o][PTO5][pt007o00255]",
    b"[jl][jl2][JL3][jl4]",
    b"[NL][nl9][nl00009]",
    b"[jp]",
    b"[fo]",
]


def _fonts(context: Context) -> list[Sample]:
    """Font tags: each font and its version, one that the sign has not, another version."""
    one, found = context.character(), []
    numbers = [font.number for font in context.described.face.fonts]
    missing = next(number for number in range(1, 256) if number not in numbers)
    for font in reversed(context.described.face.fonts):
        found += [
            b"[fo%d,%04x]" % (font.number, font.version) + one + b"[fo]" + one,
            b"[fo%d,%04x]" % (font.number, font.version ^ 1),
        ]
    found.insert(2, one + b"[fo%d,0001]" % missing)
    for font in context.described.face.fonts:
        found += [b"[fo%d]" % font.number + one, b"[fo%d,%04X]" % (font.number, font.version ^ 0x0100)]
    return made("fonts", [*found, b"[fo%d]" % missing, b"[fo255]", b"[fo%d,ABCD]" % numbers[0]], 3)


def _characters(context: Context) -> list[Sample]:
    """Characters that a font has not, also by their numbers."""
    one, font = context.character(), context.described.face.known_font(context.defaults[4])
    missing = next((number for number in range(1, 256) if number not in font.glyphs and number not in b"[]"), None)
    found = [one + bytes([missing]) + one] if missing is not None else []
    found += [
        b"[hc%X]" % one[0] if one else b"",
        one + b"[hcffff]",
        b"[[" + one + b"]]",
        b"[hcFFFF]",
        b"[HC%04x]" % one[0] if one else b"",
        b"[hc%x]" % (one[0] + 256) if one else b"",
        b"[[",
        b"]]",
    ]
    if missing is not None:
        found += [bytes([missing]), one + b"[hc%x]" % missing]
    for other in context.described.face.fonts:
        only = next(
            (number for number in other.glyphs if number not in font.glyphs and number < 256 and number not in b"[]"),
            None,
        )
        if only is not None:
            found += [b"[fo%d]" % other.number + bytes([only]), bytes([only])]
    return made("characters", found, 4)


def parts(context: Context) -> list[Sample]:
    """Texts about parts of a line, their places and what touches."""
    one = context.character()
    lines = [
        b"[jl3]%s[jl2]%s",
        b"[jl4]%s[nl][jl2]%s",
        b"[jl2]%s[jl2]%s",
        b"[jl4]%s[jl3]%s",
        b"[jl4]%s[np][jl2]%s",
        b"[jl4][nl0]%s[jl3]%s",
        b"[jl4][np]%s[jl3]%s",
        b"[jl3][nl0]%s[jl2]%s",
        b"[jl4]%s[nl0][jl2]%s",
        b"[jp2][jl4][jp3]%s[jl3]%s",
        b"[jp2][jl4]%s[jp4]%s[jl3]",
    ]
    pages = [
        b"[jp3]%s[jp2]%s",
        b"[jp4]%s[np][jp2]%s",
        b"[jp2]%s[jp2]%s",
        b"[jp3]%s[jp4]%s[jp2]",
        b"[jp2]%s[jp3][jp4]%s",
        b"[jp4]%s[jp3]%s",
        b"[jp3][jp2]%s%s",
        b"[jp2]%s[jp4]%s",
        b"[jp2]%s[jp3]%s",
        b"[jp2]%s[jp3][jp2]%s",
        b"[jp4][np]%s[jp3]%s",
        b"[jp3][np]%s[jp2]%s",
    ]
    found = made("line parts", [*[form % (one, one) for form in lines], b"[jl4]" + one + b"[jl3]"], 2)
    both = b"[jp3]" + full(context) + b"[nl0][jp2]"
    return found + made("page parts", [*[form % (one, one) for form in pages], b"[jp3][nl0][jp2]" + one, both], 4)


def pages(context: Context) -> list[Sample]:
    """Texts about pages, their lines and what is missing."""
    one, last = context.character(), b"[np]" * 5 + full(context) + b"[nl0][np]"
    found = [one + b"[np]" * 5 + one, b"[np]" * 6, b"[np]" * 5, one + b"[np]" * 6 + one, (one + b"[np]") * 7, last]
    return made("pages", found, 2)


def both(context: Context) -> list[Sample]:
    """A fault of the markup before, and after, one of the layout."""
    one = context.character()
    many = one * ((longest(context, one) or 500) + 1)
    found = [
        b"[fo255][zz]",
        one + b"[zz]" + many,
        b"[fl]" * 128,
        one + b"[np]" + one + b"[nl10]",
        b"[zz][fo255]",
        many[:480] + b"[zz]",
        b"[fl]" * 100 + b"[zz]",
        b"A" * 512,
    ]
    return made("layout", found, 3)


def _markup(context: Context) -> list[Sample]:
    """Texts with tags of all kinds, and with one fault of the markup each."""
    found = made("markup", [b"".join(_GOOD_MARKUP[:-3]), *_GOOD_MARKUP], 1)
    for rule, texts in _MARKUP:
        found += made(rule, [context.character() + text for text in texts], FIRST_MARKUP)
    return found


_CLASSES = (
    *(spacings, heights, staying, exact, centred, mixed_heights, mixed_spacings, touching, parts, pages, _fonts),
    *(_characters, gaps, closed, fonts_at_closing, edges, mixed, mixed_parts, both, _markup, ends),
)


@functools.lru_cache(maxsize=2)
def known(context: Context) -> list[Sample]:
    """All texts, each once; those of each class are spread over the whole, so that none comes late."""
    held: dict[bytes, tuple[float, Sample]] = {}
    for texts in (made_of(context) for made_of in _CLASSES):
        for at, sample in enumerate(texts):
            place, before = held.setdefault(sample.text, (at / len(texts), sample))
            if sample.is_first and not before.is_first:
                held[sample.text] = place, replace(before, is_first=True)
    return [sample for _, sample in sorted(held.values(), key=lambda found: found[0])]


def _chosen(context: Context) -> tuple[list[Sample], list[Sample]]:
    """The texts that are sent, and those that are left: the first of each rule and some others by the seed, or as many
    as --texts says."""
    found = known(context)
    first, rest = ([sample for sample in found if sample.is_first is is_first] for is_first in (True, False))
    order = random.Random(context.seed).sample(rest, len(rest))
    many = len(first) + OTHERS if context.texts is None else context.texts
    order = (first + order)[:many]
    return [sample for sample in found if sample in order], [sample for sample in found if sample not in order]


def samples(context: Context) -> list[Sample]:
    """Those that are sent: unless all are, those that fit are joined, and those with a fault stand behind them, one
    each; then the faults that are left, and those with a tag that the sign does not take."""
    chosen, left = _chosen(context)
    if not left or _NEW_PAGE in context.claims.tags:
        return chosen
    taken = [one for one in chosen if _is_taken(context, one)]
    fitting, faulty = ([one for one in taken if (context.fault(one.text) is None) is fits] for fits in (True, False))
    held = with_faults(context, joined(context, fitting, pages=_MOST_JOINED), faulty)
    return held + [one for one in chosen if one not in taken]


def _is_taken(context: Context, sample: Sample) -> bool:
    """Whether the sign claims to take each tag of a text."""
    return not tags_of(sample.text) & context.claims.tags


def more(context: Context) -> list[Sample]:
    """Those that fit of the texts that are left, joined: other chapters send them in rows that they validate."""
    left = [one for one in _chosen(context)[1] if _is_taken(context, one) and context.fault(one.text) is None]
    return left if _NEW_PAGE in context.claims.tags else joined(context, left, _MOST_CARRIED)
