"""Texts in one, so that one validation tells of all: those that fit page after page, and one with a fault behind them.

Items of a text are taken one by one and its first fault is told, so a fault at the end is told where all before it
fits, and else what does not.
"""

from wisangub.tester.context import Context
from wisangub.tester.requests.texts import tags_of
from wisangub.tester.sign.judge import MOST_TEXT

from .edge_texts import Sample

_OPEN = 4  # texts to whose end another may be joined
_PAGES = 6  # that a text has at most
_NEW_PAGE = b"[np]"


def _followed(text: bytes, after: bytes) -> bytes:
    """A text, and another on a page of its own, where font and justifications are the defaults' again."""
    tags = tags_of(text)
    return text + _NEW_PAGE + b"".join(b"[%s]" % tag.encode() for tag in ("fo", "jl", "jp") if tag in tags) + after


def _pages(text: bytes) -> int:
    return text.count(_NEW_PAGE) + 1


def joined(context: Context, chosen: list[Sample], most: int = MOST_TEXT, pages: int = _PAGES) -> list[Sample]:
    """Those that fit one page after the other in one text, of so many octets and pages at most."""
    found: list[Sample] = []
    for sample in chosen:
        longer = [_followed(held.text, sample.text) for held in found[-_OPEN:]]
        fits = (len(text) <= most and _pages(text) <= pages and context.fault(text) is None for text in longer)
        fitting = (len(found) - len(longer) + at for at, is_fitting in enumerate(fits) if is_fitting)
        at = next(fitting, len(found))
        text, parts = (
            (_followed(found[at].text, sample.text), found[at].parts) if at < len(found) else (sample.text, ())
        )
        found[at : at + 1] = [Sample(text, sample.rule, parts=(*parts, sample))]
    return found


def with_faults(context: Context, fitting: list[Sample], faulty: list[Sample]) -> list[Sample]:
    """Joined texts, as many of them as can have one with a fault behind them, and then the faults that are left."""
    found, alone, left = list(fitting), list(range(len(fitting))), list[Sample]()
    for sample in faulty:
        tried = ((at, _ended(context, found[at].text, sample.text)) for at in alone[:_OPEN])
        at, text = next(((at, text) for at, text in tried if text), (-1, b""))
        if text:
            found[at] = Sample(text, sample.rule, parts=(sample, *found[at].parts))
            alone.remove(at)
        else:
            left.append(sample)
            alone = alone[_OPEN:] + alone[:_OPEN]  # the next one is tried with others
    return found + left


def _ended(context: Context, text: bytes, faulty: bytes) -> bytes:
    """A text that fits with one behind it whose fault is the same there; nothing where it is another."""
    whole, fault = _followed(text, faulty), context.fault(faulty)
    if fault is None or len(whole) > MOST_TEXT or _pages(whole) > _PAGES:
        return b""
    moved = fault[0], fault[1] + len(whole) - len(faulty)
    return whole if context.fault(whole) == moved else b""
