"""Texts: the items of each, the fault of its markup, its canonical text, and its pages or the fault of its layout."""

from collections.abc import Iterator

from model import layout, multi, text

from .messages import Case

_Named = tuple[str, str]


def tags() -> Iterator[_Named]:
    yield "no text", ""
    for octet in "A B 1 [[ ]] AB C [[A]]".split(" "):
        yield f"the characters {octet}", octet
    for tag in ("cb", "pb", "cf", "fo", "fl", "/fl", "hc", "jl", "jp", "nl", "np", "pt"):
        yield f"the tag {tag} without a value", f"A[{tag}]A"
        yield f"the tag {tag} in capital letters", f"A[{tag.upper()}]A"
        yield f"the tag {tag} with a letter after it", f"A[{tag}x]A"
        yield f"the tag {tag} that nothing closes", f"A[{tag}"


def values() -> Iterator[_Named]:
    greatest = (("cb", 9), ("pb", 9), ("cf", 9), ("nl", 9), ("jl", 4), ("jp", 4), ("fo", 255), ("pt", 255))
    for tag, most in greatest:
        for number in sorted({0, 1, 2, 3, 4, most, most + 1, 99999, 100000}):
            yield f"the tag {tag} with {number}", f"[{tag}{number}]A"
        yield f"the tag {tag} with leading zeros", f"[{tag}00002]A"
    flashes = "flt flo flto flot flt1 flo1 flt1o2 flo2t1 flt99o99 flt100 flto100 flt1o2t3 flt1t2 flx fl5 flto5 flt5o"
    for body in flashes.split(" "):
        yield f"a flash {body}", f"[{body}]A[/fl]1"
    for body in ("pt", "pto", "pt5", "pt5o", "pto5", "pt5o5", "pt255o255", "pt256", "pt5o256", "ptx", "pt5x5"):
        yield f"page times {body}", f"[{body}]A"
    for body in ("hc41", "hc0041", "hc041", "hc00041", "hc", "hcG", "hc0", "hcFFFF", "hc5b", "hc5B"):
        yield f"a character by number {body}", f"[{body}]"
    for body in ("fo1,0001", "fo2,0002", "fo1,0002", "fo2,2", "fo1,", "fo,0001", "fo3", "fo1,000A", "fo1,00001"):
        yield f"a font {body}", f"[{body}]A"
    yield "a bracket alone", "A]"
    yield "an open bracket at the end", "A["
    yield "an unknown tag", "[xx]A"
    yield "an empty tag", "[]"
    yield "a tag of a space", "[ ]"


def counts() -> Iterator[_Named]:
    for count in (1, 2, 3, 4, 5):
        yield f"{count} As, of which three fit a line", "A" * count
        yield f"{count} As in the small font", "[fo2]" + "A" * count
        yield f"{count} lines", "[nl]".join("A" * count)
        yield f"{count} lines in the small font with gap 0", "[fo2]" + "[nl0]".join("A" * count)
        yield f"{count} empty lines and an A", "[nl]" * count + "A"
    for count in (2, 5, 6, 7):
        yield f"{count} pages", "[np]".join("A" * count)
        yield f"{count} pages without a character", "[np]" * (count - 1)
    for gap in (0, 1, 2, 5, 9):
        yield f"two lines in the small font with gap {gap}", f"[fo2]A[nl{gap}]A"
    for first in (2, 3, 4):
        for second in (2, 3, 4):
            yield f"part {first} of a line and then part {second}", f"[jl{first}]A[jl{second}]1"
            yield f"part {first} of a page and then part {second}", f"[fo2][jp{first}]A[jp{second}]A"
            yield f"part {first} of a page without a character and then part {second}", f"[jp{first}][jp{second}]A"


def _mixtures() -> Iterator[_Named]:
    yield "three parts of a line that touch", "[fo2][jl2]AA[jl3]A[jl4]AA"
    yield "parts of a line that overlap", "[jl2]AA[jl3]AA"
    yield "parts of a page that overlap", "[jp2]A[nl]A[jp4]A"
    yield "two fonts in a line", "A[fo2]A[fo1]A"
    yield "a small line above a large one", "[fo2]A[nl][fo1]A"
    yield "an open line without a character at the end", "A[nl]"
    yield "a background that the next page keeps", "[cb2]A[np]A"
    yield "the last background of a page", "[cb2]A[pb3]"
    yield "colours that change in a line", "[cf1]A[cf2]1[cf]B"
    yield "page times that the next page keeps", "[pt5o2]A[np]A"
    yield "a flash over two pages", "[flt1o1]A[np]A[/fl]A"
    yield "512 octets", "[fo]" * 128
    yield "513 octets", "[fo]" * 128 + "A"
    yield "a fault of the layout before one of the markup", "AAAAA[xx]"
    yield "a fault of the markup before one of the layout", "[xx]AAAAA"


def texts() -> Iterator[_Named]:
    for some in (tags, values, counts, _mixtures):
        yield from some()


def cases() -> Iterator[Case]:
    face = text.bench().face
    for name, made in texts():
        octets = made.encode()
        spots, fault = multi.items(octets)
        case: Case = {"name": name, "text": made, "items": [[at, *item] for item, at in spots]}
        case["markup"] = None if fault is None else {"code": fault[0], "offset": fault[1]}
        canonical = multi.canonical([item for item, _ in spots])
        if fault is None and len(canonical) <= 512:
            case["canonical"] = canonical.decode()
        pages, fault = layout.laid_out(face, face.defaults, octets)
        if pages is not None:
            case["pages"] = layout.drawn(face, pages)
        elif fault is not None:
            case["fault"] = {"code": fault[0], "offset": fault[1]}
        yield case
