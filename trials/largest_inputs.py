"""The largest inputs of each call of the program, with what it is to answer, for trials/small_stack.py."""

from __future__ import annotations

import pathlib
from collections.abc import Iterator
from dataclasses import dataclass

from model import wire
from model.objects import DMS
from trials import memory_cases

TOP = pathlib.Path(__file__).resolve().parent.parent
_MOST_INPUT = 1_048_576
_MOST_LINE = 65_536
_MANY_LINES = 10_000
HEAD = """size 256 64
communities {reader} {writer}
rows 64 16
order high
has 1 1
defaults 0 9 5 5 1 3 2 30 0
first 1
""".format(
    reader="r" * 32, writer="w" * 32
)


@dataclass(frozen=True)
class Case:
    """A call, its exit status, how its output begins, and a line of its standard error."""

    name: str
    words: tuple[str, ...]
    stdin: bytes = b""
    status: int = 0
    first: str = ""
    said: str = ""


def _filled(begin: str, line: str, end: str = "") -> bytes:
    """A text of as many octets as an input may have at most: this line again and again, between a begin and an end."""
    count = (_MOST_INPUT - len(begin) - len(end)) // len(line)
    return (begin + line * count + end).encode()


def _padded(begin: str, end: str) -> bytes:
    """A text of as many octets as an input may have, with one long line that is no line of it."""
    return (begin + "#" * (_MOST_INPUT - len(begin) - len(end) - 1) + "\n" + end).encode()


def _count_of(octets: bytes) -> int:
    return octets.count(b"\n")


def fonts(count: int = 4, glyphs: int = 255) -> str:
    """Fonts of the highest and widest characters, each with as many as a font may have."""
    lines = []
    for number in range(1, count + 1):
        lines.append(f"font {number} height 32 space 32 line 32 version ffff")
        lines += [f"glyph {64 + glyph} 32 {'a5' * 128}" for glyph in range(1, glyphs + 1)]
    return "\n".join(lines) + "\n"


def rows(count: int, text: str) -> str:
    return f"permanent {text.encode().hex()} {'6f' * 127} 1 1 255\n" * count


_FULL = "[jl3]" * 102 + "AA"
LARGEST_SIGN = _padded(HEAD + rows(16, _FULL) + fonts(), "end\n")
_SMALL_FONT = "font 1 height 1 space 0 line 0 version 0000\n"


def refused_descriptions() -> Iterator[tuple[str, bytes, int]]:
    """Descriptions at fault, with the line of the fault."""
    yield "a fault on the first line", _padded("x\n", ""), 1
    for name, line in (("rows", "permanent - - 0 0 0\n"), ("fonts", _SMALL_FONT), ("comments", "# a comment\n")):
        begin = HEAD if name == "rows" else HEAD + _SMALL_FONT
        for what, end in (("a word that is none, after {}", "x\n"), ("no end, after {}", "")):
            text = _filled(begin, line, end)
            yield what.format(name), text, _count_of(text) + (not end)
    for name, text in (
        ("rows", _filled(HEAD, "permanent - - 0 0 0\n", _SMALL_FONT + "end\n")),
        ("fonts", _filled(HEAD, _SMALL_FONT, "end\n")),
    ):
        yield f"too many {name}", text, _count_of(text)
    text = _filled(HEAD + _SMALL_FONT, "\n", "x\n")
    yield "a word that is none, after empty lines", text, _count_of(text)
    glyphs = _filled(HEAD + fonts(4, 200), f"glyph 65535 32 {'a5' * 128}\n")
    yield "a character that stands twice", glyphs, _count_of((HEAD + fonts(4, 200)).encode()) + 2


def descriptions() -> Iterator[Case]:
    get = memory_cases.get(memory_cases.STATUS)
    calls: tuple[tuple[str, ...], ...] = (
        ("check", "A", "--sign"),
        ("check", "--json", "A", "--sign"),
        ("pages", "A", "--sign"),
        ("pages", "--svg", "A", "--sign"),
        ("answer", get.hex(), "--sign"),
        ("sign", "--sign"),
        ("centre", "--sign"),
        ("replay",),
    )
    for call in calls:
        short = " ".join(word for word in call if len(word) < 10)
        is_dropped = call[0] == "answer"
        yield Case(f"{short}: the largest sign", call, LARGEST_SIGN, int(is_dropped), "dropped" if is_dropped else "")
        for name, text, line in refused_descriptions():
            first = f'{{"refused":"line {line}"}}' if "--json" in call else f"line {line}"
            yield Case(f"{short}: {name}", call, text, 1, first, f"line {line}: ")
        yield Case(
            f"{short}: one octet too many",
            call,
            LARGEST_SIGN + b"\n" if call[0] not in ("sign", "centre") else LARGEST_SIGN[:-4] + b"\nend\n",
            1,
            '{"refused":"too long"}' if "--json" in call else "too long",
        )


def texts() -> Iterator[Case]:
    """Texts of 512 octets, longer ones, and what is at fault with each."""
    shapes = {
        "tags": (_FULL, "ok pages 1"),
        "characters of tags": ("[[" * 256, "fault 5 at"),
        "a tag without an end": ("[" + "1" * 511, "fault"),
        "ends of tags": ("]" * 512, "fault"),
        "lines": ("[nl]" * 128, "fault"),
        "pages": ("[np]" * 128, "fault"),
        "flashes": (("[flt1o1]A[/fl]" * 37)[:504] + "[cb1]", "fault"),
        "a number in five hundred digits": ("[cf" + "0" * 508 + "1", "fault"),
        "513 octets": ("A" * 513, "fault"),
        "60,000 octets": ("[jl3]" * 12_000, "fault"),
        "60,000 octets of one tag": ("[" + "j" * 59_998 + "]", "fault"),
        "octets that are no text of the font": ("\u00e4" * 256, "fault"),
    }
    for name, (text, first) in shapes.items():
        is_good = first.startswith("ok")
        yield Case(f"check: {name}", ("check", text), b"", int(not is_good), first)
        yield Case(f"check --json: {name}", ("check", "--json", text), b"", int(not is_good), "{")
        yield Case(f"pages: {name}", ("pages", text), b"", int(not is_good), "page 1 on" if is_good else first)
        yield Case(
            f"pages --svg: {name}", ("pages", "--svg", text), b"", int(not is_good), "<svg" if is_good else first
        )
        yield Case(
            f"pages --page: {name}", ("pages", "--page", "1", text), b"", int(not is_good), "page 1" if is_good else ""
        )
        yield Case(f"items: {name}", ("items", text), b"", -1)
        yield Case(f"items --json: {name}", ("items", "--json", text), b"", -1, "{")
        is_short = len(text.encode()) <= 512
        yield Case(
            f"code: {name}", ("code", "3", "1", text), b"", int(not is_short), "crc" if is_short else "text too long"
        )
    sixths = "[np]".join(["[fo2]A[nl][fl]A[/fl]"] * 6)
    for call in (("pages",), ("pages", "--svg"), ("check",)):
        yield Case(f"{' '.join(call)}: six pages", (*call, sixths))


def datagrams() -> Iterator[tuple[str, bytes]]:
    """Datagrams of up to 1,472 octets with most bindings, and with deepest and longest elements."""
    yield "205 names", memory_cases.answers()["get-next-of-205-names"]
    settings = [(memory_cases.SHORT_POWER_LOSS_TIME, (wire.INTEGER, number)) for number in range(62)]
    yield "62 settings", memory_cases.request(wire.SET, b"admin", *settings)
    yield "a long value", memory_cases.request(wire.SET, b"admin", (memory_cases.TEXT, (wire.OCTETS, b"A" * 1400)))
    yield "a long name", memory_cases.request(wire.GET, b"public", (DMS + (2**28,) * 110, memory_cases.NULL))
    yield "sequences in sequences", b"\x30\x82\x05\xbc" * 368
    yield "lengths of four octets", b"\x30\x84\x00\x00\x05\xba" + b"\x02\x84\x00\x00\x00\x01\x00" * 209
    yield "1,472 octets of 255", b"\xff" * wire.MOST_DATAGRAM
    yield "30,000 octets", b"\x30" * 30_000


def requests() -> Iterator[Case]:
    for name, octets in datagrams():
        yield Case(f"answer: {name}", ("answer", octets.hex()), b"", -1)
        for call in (("decode",), ("decode", "--json")):
            yield Case(f"{' '.join(call)}: {name}", (*call, octets.hex()), b"", -1)
        yield Case(f"decode --spaced: {name}", ("decode", "--spaced", octets.hex(" ")), b"", -1)
    yield Case("activation", ("activation", "3", "65535", "ffff", "--address", "255.255.255.255"), b"", 0, "code ")
    yield Case("activation: a long number", ("activation", "3", "1" * 60_000, "ffff"), b"", 2)
    yield Case("code: a long address", ("code", "3", "1", "A", "--address", "1." * 30_000), b"", 2, "bad address")


def scripts() -> Iterator[Case]:
    """Scripts of as many and as long lines as there is room for."""
    for line in ("sign-tick\n", "centre-tick\n", "centre-restart\n", "power-lost\n", "to-sign 0\n", "forge-sign -\n"):
        text = _filled("bench\n", line)
        yield Case(f"replay: {line.strip()}", ("replay",), text, 0, f"events {_count_of(text) - 1}")
        text = _filled("bench\n", line, "x\n")
        number = _count_of(text)
        yield Case(f"replay: {line.strip()}, then no event", ("replay",), text, 1, f"line {number}", f"line {number}: ")
    text = b"bench\n" + b"sign-tick\n" * 104_800 + b"x\n"
    yield Case("replay: no event after 104,800", ("replay",), text, 1, "line 104802", "line 104802: ")
    yield Case(
        "replay: one long word", ("replay",), b"bench\n" + b"x" * (_MOST_INPUT - 7) + b"\n", 1, "line 2", "line 2: "
    )
    words = b"bench\nsign-tick" + b" x" * ((_MOST_INPUT - 16) // 2) + b"\n"
    yield Case("replay: many words", ("replay",), words, 1, "line 2", "line 2: ")
    for name, octets in datagrams():
        for end in ("sign", "centre"):
            text = _filled("bench\n", f"forge-{end} {octets[: wire.MOST_DATAGRAM].hex()}\n")
            yield Case(f"replay: {name}, to the {end}", ("replay",), text, 0, f"events {_count_of(text) - 1}")
    publish = f"publish 3 1 {_FULL.encode().hex()} {'6f' * 127} 0 0 200 65535 255 192.0.2.1\n"
    text = _filled("bench\n", publish + "centre-restart\n")
    yield Case("replay: publications", ("replay",), text, 0, f"events {_count_of(text) - 1}")
    text = _filled("bench\n", "blank 5 60 255 192.0.2.1\nto-sign 0\ncentre-restart\n")
    yield Case("replay: activations", ("replay",), text, 0, f"events {_count_of(text) - 1}")


def _conversations() -> Iterator[Case]:
    """Co-processes that are handed many and long lines."""
    signs = ["tick", "ticks 60", "show", "state", "heard", "power-back 1", "x", ""]
    signs += [f"datagram {octets[: wire.MOST_DATAGRAM].hex()}" for _, octets in datagrams()]
    centres = ["tick", "restart", "status", "x", "publish 3 1 41 - 0 0 200 65535 255 192.0.2.1", ""]
    centres += ["activate ffffff0300019a66c0000201"] + signs[-8:]
    for call, lines in (("sign", signs), ("centre", centres)):
        for line in lines:
            short = line if len(line) < 30 else f"{line[:30]}.."
            yield Case(f"{call}: {_MANY_LINES} times '{short}'", (call,), f"{line}\n".encode() * _MANY_LINES)
        for size in (_MOST_LINE, _MOST_LINE + 1, _MOST_INPUT, 8 * _MOST_INPUT):
            yield Case(f"{call}: a line of {size} octets", (call,), b"x" * size + b"\nstate\n", 0, "bad line")
        words = b"datagram" + b" 00" * 20_000 + b"\n"
        yield Case(f"{call}: a line of many words", (call,), words, 0, "bad line")
    pairs = b"blank 5 60 255 192.0.2.1\nrestart\n" * (_MANY_LINES // 2) + b"status\n"
    yield Case("centre: a long ledger", ("centre",), pairs, 0, "send ")
    for call in ("sign", "centre"):
        yield Case(
            f"{call}: the largest sign, and lines", (call, "--sign"), LARGEST_SIGN + b"tick\n" * _MANY_LINES, 0, "ok"
        )


def cases() -> Iterator[Case]:
    yield from texts()
    yield from requests()
    yield from descriptions()
    yield from scripts()
    yield from _conversations()
    yield Case("no words", (), b"", 2)
    yield Case("help", ("--help",), b"", 2)
