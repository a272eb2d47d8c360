#!/usr/bin/env python3
"""Turns drawn letters into the lines of a font as a sign's description has them, and back.

    tools/font.py lines DRAWING             prints the font's lines
    tools/font.py drawing FONT              prints the drawing of a font's lines
    tools/font.py write SIGN..              puts the fonts into descriptions: below a line `# font FILE` come the lines
                                            of the drawing FILE (beside the description) up to the next `# font` or
                                            `end`
    tools/font.py check SIGN..              fails where `write` would change a description, or where a drawing does not
                                            come back from its own lines

A drawing is the source. It has lines that begin with `# `, which are skipped, the font's line `font N height H ..`, and
for each character a line `character NUMBER`, perhaps with the character after it, and then H lines of dots and hashes.
"""

import pathlib
import sys


class _Wrong(Exception):
    """A drawing or a font that is not in order, with its line."""


def _drawn(text: str) -> tuple[str, list[tuple[int, list[str]]]]:
    """The font's line and the characters of a drawing: number and rows of each."""
    kept = [(number, line) for number, line in enumerate(text.splitlines(), 1) if line and not line.startswith("# ")]
    if not kept or not kept[0][1].startswith("font "):
        raise _Wrong("line 1: no line `font N height H ..`")
    head = kept[0][1]
    height = int(head.split()[3])
    characters, at = [], 1
    while at < len(kept):
        number, line = kept[at]
        words = line.split(" ", 2)
        rows = [row for _, row in kept[at + 1 : at + 1 + height]]
        if words[0] != "character" or not words[1].isdigit():
            raise _Wrong(f"line {number}: no line `character NUMBER`")
        if len(rows) != height or len({len(row) for row in rows}) != 1 or set("".join(rows)) - {".", "#"}:
            raise _Wrong(f"line {number}: not {height} rows of dots and hashes of one width")
        if not 1 <= len(rows[0]) <= 32:
            raise _Wrong(f"line {number}: wider than 32, or nothing")
        characters.append((int(words[1]), rows))
        at += 1 + height
    if len({number for number, _ in characters}) != len(characters):
        raise _Wrong("a character stands twice")
    return head, characters


def _lines_of(text: str) -> list[str]:
    """The lines of a font, from its drawing."""
    head, characters = _drawn(text)
    lines = [head]
    for number, rows in characters:
        bits = "".join(rows).replace(".", "0").replace("#", "1")
        bits += "0" * (-len(bits) % 8)
        lines.append(f"glyph {number} {len(rows[0])} {int(bits, 2):0{len(bits) // 4}x}")
    return lines


def _drawing_of(lines: list[str]) -> list[str]:
    """The drawing of a font's lines."""
    kept = [line for line in lines if line and not line.startswith("#")]
    height = int(kept[0].split()[3])
    drawing = [kept[0]]
    for line in kept[1:]:
        _, number, width, digits = line.split(" ")
        bits = f"{int(digits, 16):0{4 * len(digits)}b}".replace("0", ".").replace("1", "#")
        shown = chr(int(number)) if 32 < int(number) < 127 else ""
        drawing.append(f"character {number} {shown}".rstrip())
        drawing += [bits[row * int(width) : (row + 1) * int(width)] for row in range(height)]
    return drawing


def _with_fonts(path: pathlib.Path) -> str:
    """A description with the lines of its drawings."""
    lines, skipping = [], False
    for line in path.read_text(encoding="ascii").splitlines():
        if line.startswith("# font "):
            lines.append(line)
            lines += _lines_of((path.parent / line.removeprefix("# font ")).read_text(encoding="ascii"))
            skipping = True
        elif line == "end":
            skipping = False
        if not skipping:
            lines.append(line)
    return "\n".join(lines) + "\n"


def check(path: pathlib.Path) -> bool:
    """Whether the description is what its drawings say, and each drawing comes back from its lines."""
    well = path.read_text(encoding="ascii") == _with_fonts(path)
    for line in path.read_text(encoding="ascii").splitlines():
        if line.startswith("# font "):
            source = (path.parent / line.removeprefix("# font ")).read_text(encoding="ascii")
            kept = [row for row in source.splitlines() if row and not row.startswith("# ")]
            well = well and _drawing_of(_lines_of(source)) == kept
    return well


def main(words: list[str]) -> int:
    if words in (["--help"], ["-h"]):
        print(__doc__)
        return 0
    if len(words) < 2 or words[0] not in ("lines", "drawing", "write", "check"):
        print(__doc__, file=sys.stderr)
        return 2
    failed = 0
    for word in words[1:]:
        path = pathlib.Path(word)
        try:
            if words[0] == "lines":
                print("\n".join(_lines_of(path.read_text(encoding="ascii"))))
            elif words[0] == "drawing":
                print("\n".join(_drawing_of(path.read_text(encoding="ascii").splitlines())))
            elif words[0] == "write":
                path.write_text(_with_fonts(path), encoding="ascii")
            elif not check(path):
                print(f"{path}: not what its drawings say; tools/font.py write {path}")
                failed = 1
        except _Wrong as fault:
            print(f"{path}: {fault}", file=sys.stderr)
            failed = 1
    return failed


if __name__ == "__main__":
    sys.exit(main(sys.argv[1:]))
