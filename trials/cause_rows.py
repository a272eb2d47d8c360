"""What is said of descriptions and scripts that are at fault: a row or more for each cause that there is, worked by
hand."""

from model.text import BENCH

Row = tuple[int, bytes, int, str]  # a line of the bench sign's description, another one, the line at fault, the words
_LINES = BENCH.split(b"\n")

_WORDS: list[Row] = [
    (1, b"width 23 14", 1, "word 1: the word size is wanted"),
    (1, b"size 23", 1, "word 3: the line ends where a number from 0 to 65535 is wanted"),
    (1, b"size 23  14", 1, "word 3: two spaces, or a space at an end of the line"),
    (1, b"size 23 14 ", 1, "word 4: two spaces, or a space at an end of the line"),
    (1, b"size 000023 14", 1, "word 2: a number from 0 to 65535 is wanted"),
    (1, b"size 23 14 1", 1, "word 4: no more words are wanted"),
    (2, b"communities", 2, "word 2: the line ends where the first community is wanted"),
    (2, b"communities public", 2, "word 3: the line ends where the second community is wanted"),
    (3, b"rows 2 256", 3, "word 3: a number from 0 to 255 is wanted"),
    (4, b"order low", 4, "word 2: high or swapped is wanted"),
    (5, b"has 2 0", 5, "word 2: a number from 0 to 1 is wanted"),
    (6, b"defaults 0 9 5 5 1 3 2 30", 6, "word 10: the line ends where a number from 0 to 255 is wanted"),
    (7, b"first 4294967296", 7, "word 2: a number from 0 to 4294967295 is wanted"),
    (8, b"permanent 4 - 0 0 100", 8, "word 2: a text in hexadecimal is wanted"),
    (8, b"permanent 42 x 0 0 100", 8, "word 3: an owner in hexadecimal is wanted"),
    (9, b"font 0 height 7 space 1 line 1 version 0001", 9, "word 2: a number from 1 to 255 is wanted"),
    (9, b"font 1 high 7 space 1 line 1 version 0001", 9, "word 3: the word height is wanted"),
    (9, b"font 1 height 7 space 1 line 1 version 1", 9, "word 10: a version of four hexadecimal digits is wanted"),
    (10, b"glyph 49 2", 10, "word 4: the line ends where a picture in hexadecimal is wanted"),
    (10, b"glyph 49 33 zz", 10, "word 3: a number from 1 to 32 is wanted"),
    (10, b"glyph 49 2 zz 1", 10, "word 4: a picture in hexadecimal is wanted"),
    (17, b"end now", 17, "word 2: no more words are wanted"),
]
_TAB = "; its octet %d is a tab, and words have a space between them"
_MARK = "; it begins with a byte order mark, the octets EF BB BF"
_UNSEEN: list[Row] = [
    (1, b"\xef\xbb\xbfsize 23 14", 1, "word 1: the word size is wanted" + _MARK),
    (1, b"\xef\xbb\xbfsize\t23 14", 1, "word 1: the word size is wanted" + _MARK),
    (1, b"\xef\xbbsize\t23 14", 1, "word 1: the word size is wanted" + _TAB % 7),
    (3, b"rows 2\t3\t4", 3, "word 2: a number from 0 to 255 is wanted" + _TAB % 7),
    (17, b"end\t", 17, "a row, a font, a character or `end` is wanted" + _TAB % 4),
    (17, b"end\n\n\tend", 19, "no line may stand after `end`" + _TAB % 1),
]
_PLACES: list[Row] = [
    (8, b"glyph 49 2 7554", 8, "a character stands after its font"),
    (10, b"glyph 49 2 zz", 10, "bits that do not fit the picture"),
    (10, b"glyph 49 2 75", 10, "bits that do not fit the picture"),
    (12, b"glyph 65 5 f463e8c7c0", 12, "a character for the second time"),
    (16, b"\n".join(b"glyph %d 3 57da" % at for at in range(1, 257)), 271, "more than 255 characters"),
    (17, b" end", 17, "a row, a font, a character or `end` is wanted"),
    (17, b"permanent x", 17, "a permanent row stands before all fonts"),
    (17, b"#", 18, "the text ends before its line `end`"),
    (17, b"end\n\nend", 19, "no line may stand after `end`"),
]
_FONT = b"font %d height 1 space 0 line 0 version 0000"
_SIGNS: list[Row] = [
    (1, b"size 0 65", 17, "the matrix has no columns"),
    (1, b"size 257 65", 17, "the matrix is wider than 256"),
    (1, b"size 23 0", 17, "the matrix has no rows"),
    (1, b"size 23 65", 17, "the matrix is higher than 64"),
    (17, b"\n".join([_FONT % 3, _FONT % 4, _FONT % 5, b"end"]), 20, "there are more than four fonts"),
    (15, b"font 1 height 5 space 1 line 1 version 0002", 17, "two fonts have the number 1"),
    (6, b"defaults 10 9 5 5 1 3 2 30 0", 17, "the default background 10 is no colour"),
    (6, b"defaults 0 10 5 5 1 3 2 30 0", 17, "the default foreground 10 is no colour"),
    (6, b"defaults 0 9 5 5 1 1 2 30 0", 17, "the default line justification 1 is none"),
    (6, b"defaults 0 9 5 5 1 3 5 30 0", 17, "the default page justification 5 is none"),
    (6, b"defaults 0 9 5 5 3 3 2 30 0", 17, "the default font 3 is none of the face's"),
    (2, b"communities %s admin" % (b"a" * 33), 17, "the first community has not 1 to 32 octets"),
    (2, b"communities public %s" % (b"a" * 33), 17, "the second community has not 1 to 32 octets"),
    (2, b"communities a a", 17, "both communities are the same"),
    (8, b"\n".join([b"permanent 42 - 0 0 100"] * 17), 33, "there are more than 16 permanent rows"),
    (3, b"rows 65 1", 17, "there are more than 64 changeable rows"),
    (3, b"rows 2 17", 17, "there are more than 16 volatile rows"),
]
_ROWS: list[Row] = [
    (8, b"permanent %s - 0 0 100" % (b"41" * 513), 17, "permanent row 1: its text is longer than 512 octets"),
    (8, b"permanent 42 %s 0 0 100" % (b"6d" * 128), 17, "permanent row 1: its owner is longer than 127 octets"),
    (8, b"permanent 42 - 2 0 100", 17, "permanent row 1: its beacon is neither 0 nor 1"),
    (8, b"permanent 42 - 0 2 100", 17, "permanent row 1: its pixel service is neither 0 nor 1"),
    (8, b"permanent 42 - 0 0 0", 17, "permanent row 1: its priority is 0"),
    (8, b"permanent 42 - 1 1 1", 17, "permanent row 1: the sign has no pixel service"),
    (
        8,
        b"permanent - - 0 0 1\npermanent 4261 - 0 0 1",
        18,
        "permanent row 2: its text: character not defined at octet 1",
    ),
    *(
        (8, b"permanent %s - 0 0 100" % shown.hex().encode(), 17, f"permanent row 1: its text: {words}")
        for shown, words in (
            (b"[x]", "unsupported tag at octet 0"),
            (b"A[cb99]", "unsupported tag value at octet 1"),
            (b"AAAAAA", "text too big at octet 4"),
            (b"[fo9]A", "font not defined at octet 0"),
            (b"[fo1,0009]A", "another version of the font at octet 0"),
            (b"[jl4]A[jl2]B", "tag conflict at octet 6"),
            (b"[np]" * 6, "too many pages at octet 20"),
        )
    ),
]
EVENTS: list[tuple[bytes, str]] = [
    (b"stop", "no event begins with this word"),
    (b" sign-tick", "no event begins with this word"),
    (b"sign-tick now", "word 2: no more words are wanted"),
    (b"power-back\t5", "no event begins with this word" + _TAB % 11),
    (b"centre-tick ", "word 2: two spaces, or a space at an end of the line"),
    (b"to-sign", "word 2: the line ends where a number from 0 to 4294967295 is wanted"),
    (b"power-back -1", "word 2: a number from 0 to 4294967295 is wanted"),
    (b"blank 65536 65535 255 192.0.2.1", "word 2: a number from 0 to 65535 is wanted"),
    (b"blank 1 1 1 1.2.3", "word 5: an address, as 192.0.2.1, is wanted"),
    (b"activate 00", "word 2: a code of 24 hexadecimal digits is wanted"),
    (b"forge-sign", "word 2: the line ends where a datagram in hexadecimal is wanted"),
    (b"forge-centre 0", "word 2: a datagram in hexadecimal is wanted"),
    (b"publish 3 1 4 - 0 0 200 65535 255 192.0.2.1", "word 4: a text in hexadecimal is wanted"),
    (b"publish 3 1 41 x 0 0 200 65535 255 192.0.2.1", "word 5: an owner in hexadecimal is wanted"),
]


def _edited(number: int, line: bytes) -> bytes:
    """The bench sign's description with another line of this number."""
    return b"\n".join([*_LINES[: number - 1], line, *_LINES[number:]])


def described() -> list[tuple[bytes, int, str]]:
    """Descriptions, the line at fault, and what is said of it."""
    without = [b"#" if line.startswith((b"font ", b"glyph ")) else line for line in _LINES]
    beacons = _edited(8, b"permanent 42 - 1 0 100").replace(b"\nhas 1 0\n", b"\nhas 0 0\n")
    return [
        *(
            (_edited(number, line), at, words)
            for number, line, at, words in (*_WORDS, *_UNSEEN, *_PLACES, *_SIGNS, *_ROWS)
        ),
        (b"\n".join(without), 17, "there is no font"),
        (beacons, 17, "permanent row 1: the sign has no beacons"),
        (b"", 1, "the text ends before its line `end`"),
    ]


def scripts() -> list[tuple[bytes, int, str]]:
    """The same of scripts: each event at fault, and a sign at fault."""
    return [
        *((b"bench\nsign-tick\n# more\n%s\nstop\n" % line, 4, words) for line, words in EVENTS),
        *((octets, at, words) for octets, at, words in described() if not words.startswith("no line may stand")),
        (b"bench now\n", 1, "word 1: the word size is wanted"),
        (BENCH + b"stop\n", 18, "no event begins with this word"),
    ]
