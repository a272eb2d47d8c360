"""Descriptions and scripts that are mostly at fault: those of a sign, changed in their words and lines."""

import random
import re

from model import text
from trials import compare_model
from wisangub.process.places import TOP

_NUMBERS = (
    "0 1 2 3 4 5 9 10 16 17 32 33 64 65 255 256 257 65535 65536 4294967295 4294967296 00001 000001 -1 +1 x 1.0".split()
)
_OCTETS = ["-", "4", "41", "4142", "4A4b", "xy", "--", "5b5d", "5b666f395d", "5b", "00" * 12, "41" * 513, "6d" * 128]
_ADDRESSES = ["192.0.2.1", "0.0.0.0", "1.2.3", "1.2.3.4.5", "1.2.3.256", "1..2.3", "0001.2.3.4", "1.2.3.4."]
_OTHERS = [
    "",
    "end",
    "high",
    "swapped",
    "low",
    "size",
    "\t",
    "\r",
    "#",
    "abcd",
    "012",
    "FFFF",
    "gggg",
    "public",
    "admin",
    "a" * 33,
]
_LINES = [
    *(
        "end",
        "end now",
        "stop",
        " end",
        "# nothing",
        "",
        "\r",
        "bench",
        "size 23 14",
        "permanent 42 - 0 0 100",
        "font",
        "glyph",
    ),
    *(
        "permanent 4263 - 0 0 1",
        "permanent 41 - 1 1 1",
        "permanent - - 0 0 0",
        "permanent 5b6e70 6d65 0 0 9",
        "permanent 42",
    ),
    *("font 2 height 5 space 1 line 1 version 0002", "font 9 height 1 space 0 line 0 version ffff", "glyph 65 3 57da"),
    *(
        "glyph 65 1 80",
        "glyph 66 8 00",
        "sign-tick",
        "power-back 5",
        "to-sign 0",
        "forge-sign 30",
        "activate " + "00" * 12,
    ),
]
_SIGNS = [
    *(
        "size 0 14",
        "size 257 14",
        "size 23 0",
        "size 23 65",
        "size 65535 65535",
        "rows 65 1",
        "rows 2 17",
        "rows 255 255",
    ),
    *("communities public public", f"communities {'a' * 33} b", f"communities a {'b' * 33}", "has 0 0", "has 1 1"),
    *(f"defaults {numbers}" for numbers in ("10 9 5 5 1 3 2 30 0", "0 10 5 5 1 3 2 30 0", "0 9 5 5 9 3 2 30 0")),
    *(
        f"defaults {numbers}"
        for numbers in ("0 9 5 5 1 1 2 30 0", "0 9 5 5 1 3 5 30 0", "255 255 255 255 255 255 255 255 255")
    ),
    *(
        f"permanent {'41' * 513} - 0 0 1",
        f"permanent 41 {'6d' * 128} 0 0 1",
        "permanent 41 - 2 0 1",
        "permanent 41 - 0 2 1",
    ),
    *(
        "permanent 41 - 0 0 0",
        "permanent 41 - 1 0 1",
        "permanent 41 - 0 1 1",
        "permanent 41 - 1 1 1",
        "permanent 42 - 0 0 100",
    ),
]
_TEXTS = [
    *(
        "[x]",
        "]",
        "A[cb99]",
        "[jl4]A[jl2]B",
        "[jp4]A[jp2]B",
        "[np][np][np][np][np][np]",
        "[fo9]",
        "[fo1,0009]",
        "[fo2]1",
    ),
    *(
        "AAAAAAAAAAAAAAAAAAAAAAAAAAAAAAAAAAAAAAAAAAAAAAAAAAAAAAAAAAAAAAA",
        "A[nl]A[nl]A[nl]A[nl]A[nl]A[nl]A[nl]A[nl]A",
        "B[hc1]",
    ),
]
_EVENTS = [
    *("sign-tick", "centre-tick", "power-lost", "centre-restart", "to-sign 0", "to-centre 4294967295", "power-back 60"),
    *("forge-sign 3003020100", "forge-centre -", "activate ffffff07000100007f000001", "blank 5 65535 255 192.0.2.1"),
    "publish 3 1 4142 6d65 0 0 200 65535 255 192.0.2.1",
]


class Cases:
    """Random descriptions and scripts. The same seed makes the same."""

    def __init__(self, seed: int) -> None:
        self.chance = random.Random(seed)
        self.signs = compare_model.Cases(seed)
        self.known = [
            text.BENCH.decode(),
            *(path.read_text(encoding="utf-8") for path in sorted(TOP.glob("signs/*.sign"))),
        ]

    def description(self) -> str:
        """A description that a sign's reader takes."""
        return self.chance.choice([self.known[0], self.known[0], self.signs.sign(), self.chance.choice(self.known)])

    def script(self) -> str:
        """A script that is one."""
        count = self.chance.randrange(1, 6)
        begun = self.chance.choice(["bench\n", "bench\n", self.description()])
        return begun + "".join(self.chance.choice(_EVENTS) + "\n" for _ in range(count))

    def word(self, found: str) -> str:
        """What stands in the place of a word: mostly something of its kind."""
        draw = self.chance.random()
        if draw < 0.6:
            pools = [(r"[0-9]+", _NUMBERS), (r"[0-9.]+", _ADDRESSES), (r"-|[0-9a-fA-F]+", _OCTETS)]
            pool = next((pool for shape, pool in pools if re.fullmatch(shape, found)), _OTHERS)
            return self.chance.choice(pool)
        if draw < 0.7 and found:
            place = self.chance.randrange(len(found))
            return found[:place] + self.chance.choice("0 9afzA\t-.\x7f") + found[place + 1 :]
        return self.chance.choice(self.chance.choice([_NUMBERS, _OCTETS, _ADDRESSES, _OTHERS]))

    def line(self, line: str) -> str:
        """A line with another word, a word more or a word less."""
        words = line.split(" ")
        place = self.chance.randrange(len(words))
        if place == 0 and self.chance.random() < 0.8:
            place = len(words) - 1
        draw = self.chance.random()
        if draw < 0.7:
            words[place] = self.word(words[place])
        elif draw < 0.8:
            words.insert(self.chance.randrange(len(words) + 1), self.word(words[place]))
        elif draw < 0.9:
            del words[place:]
        else:
            del words[place]
        return " ".join(words)

    def moved(self, lines: list[str], at: int) -> None:
        """Lines that are gone, stand twice or many times, or stand elsewhere."""
        draw = self.chance.random()
        if draw < 0.3:
            del lines[at]
        elif draw < 0.5:
            lines.insert(self.chance.randrange(len(lines) + 1), lines[at])
        elif draw < 0.6:
            lines[at:at] = [lines[at]] * self.chance.choice([2, 4, 16, 17])
        elif draw < 0.7:
            lines[at:] = []
        else:
            other = self.chance.randrange(len(lines))
            lines[at], lines[other] = lines[other], lines[at]

    def other_sign(self, lines: list[str]) -> None:
        """A line that spells a sign that may not be made in the place of one with the same first word."""
        new = self.chance.choice(_SIGNS)
        if new.startswith("permanent ") and self.chance.random() < 0.5:
            new = f"permanent {self.chance.choice(_TEXTS).encode().hex()} - 0 0 1"
        word = new.split(" ")[0]
        places = [at for at, line in enumerate(lines) if line.split(" ")[0] == word]
        if places:
            lines[self.chance.choice(places)] = new
        elif len(lines) > 7:
            lines.insert(7, new)

    def many_glyphs(self, lines: list[str]) -> None:
        """So many characters that a font has just enough of them, or one too many."""
        fonts = [at for at, line in enumerate(lines) if re.fullmatch(r"font [0-9]+ height [0-9]+ .*", line)]
        if fonts:
            at = self.chance.choice(fonts)
            height = int(lines[at].split(" ")[3])
            bits = "00" * ((height + 7) // 8)
            count = self.chance.choice([249, 250, 251, 252, 253, 254, 255, 256])
            lines[at + 1 : at + 1] = [f"glyph {1000 + each} 1 {bits}" for each in range(count)]

    def place(self, count: int) -> int:
        """A line that is changed, often one of those with which a description begins."""
        return self.chance.randrange(min(9, count) if self.chance.random() < 0.4 else count) if count else 0

    def changed(self, made: str) -> bytes:
        """A text with one to three changes, or a tail, or none."""
        lines = made.split("\n")[:-1]
        for _ in range(self.chance.choice([0, 1, 1, 1, 1, 2, 3])):
            at = self.place(len(lines))
            draw = self.chance.random()
            if not lines or draw < 0.2:
                lines.insert(at, self.chance.choice(_LINES))
            elif draw < 0.4:
                self.other_sign(lines)
            elif draw < 0.75:
                lines[at] = self.line(lines[at])
            elif draw < 0.95:
                self.moved(lines, at)
            elif draw < 0.97:
                self.many_glyphs(lines)
            else:
                lines[at] += self.chance.choice(["\r", " ", "\0", "\xff", "\r\r"])
        ended = self.chance.choice(["\r\n", *["\n"] * 9])
        return (ended.join(lines) + self.chance.choice(["", "\r", *[ended] * 8])).encode("latin-1")

    def case(self) -> tuple[list[str], bytes]:
        """The words of a call and its standard input."""
        words = self.chance.choice(
            [["check", "--sign", "--", ""], ["sign", "--sign"], ["centre", "--sign"], ["replay"], ["replay"]]
        )
        return words, self.changed(self.script() if words == ["replay"] else self.description())
