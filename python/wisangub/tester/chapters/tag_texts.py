"""Texts of one tag each: values at both ends of its range, and one past each."""

from wisangub.tester.context import Context

from .edge_texts import Sample, made

# the numbers of each tag, before which its letters stand
_NUMBERS: dict[bytes, tuple[int, int]] = {
    b"cb": (0, 9),
    b"pb": (0, 9),
    b"cf": (0, 9),
    b"flt": (0, 99),
    b"flo": (0, 99),
    b"flt5o": (0, 99),
    b"flo5t": (0, 99),
    b"jl": (2, 4),
    b"jp": (2, 4),
    b"nl": (0, 9),
    b"pt": (0, 255),
    b"pto": (0, 255),
    b"pt5o": (0, 255),
}
# numbers of fonts and characters at their ends, and one past them
_WRONG = (b"[fo0]", b"[fo255]", b"[fo256]", b"[hc0]", b"[hcFFFF]", b"[hc10000]", b"[fo1,00001]", b"[fo1,001]")
_DIGITS = 5  # that a number has at most
_VALUE = 4  # the code of the fault of a value that no tag has


def _good(context: Context) -> list[bytes]:
    """Each end by itself, without a value, and with as many digits as there may be."""
    one, found = context.character(), []
    for letters, ends in _NUMBERS.items():
        found += [b"[%s%d]" % (letters, end) + one for end in ends]
    for letters, (_, most) in _NUMBERS.items():
        found += [b"[%s]" % letters + one, b"[%s%0*d]" % (letters, _DIGITS, most) + one]
    code = one[0] if one else 0x20
    found += [b"[hc%X]" % code, b"[hc%04x]" % code, b"[fo]" + one]
    return [text for text in found if context.fault(text) is None]


def _tight(context: Context) -> list[bytes]:
    """Ends for which a low matrix has no room, which is another fault than that of a value that no tag has."""
    texts = [b"[%s%d]" % (letters, end) + context.character() for letters, ends in _NUMBERS.items() for end in ends]
    return [text for text in texts if (context.fault(text) or (_VALUE, 0))[0] != _VALUE]


def _bad(context: Context) -> list[bytes]:
    """One past each end, and one digit more."""
    one, found = context.character(), []
    for letters, (least, most) in _NUMBERS.items():
        found += [one + b"[%s%d]" % (letters, most + 1)] + ([one + b"[%s%d]" % (letters, least - 1)] if least else [])
    found += [one + text for text in _WRONG]
    return found + [one + b"[%s%0*d]" % (letters, _DIGITS + 1, most) for letters, (_, most) in _NUMBERS.items()]


def ends(context: Context) -> list[Sample]:
    """Values at both ends of each tag's range, each by itself, and one past each end."""
    good, bad = [*_good(context), *_tight(context)], _bad(context)
    return made("markup code", good, len(good)) + made("markup code", bad, len(bad) - len(_NUMBERS))
