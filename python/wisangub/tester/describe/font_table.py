"""The fonts of a sign that has NTCIP 1203's font table and character table, as they stand there."""

from wisangub.snmp.names import DMS
from wisangub.tester.requests.objects import Name

from .client import Client
from .fonts import MOST_SIDE, Found

_FONTS: Name = (*DMS, 3, 2, 1)
_CHARACTERS: Name = (*DMS, 3, 4, 1)
_NUMBER, _HEIGHT, _SPACE, _LINE, _VERSION, _STATUS = 2, 4, 5, 6, 7, 8  # columns of fontTable
_WIDTH, _BITMAP = 2, 3  # columns of characterTable
_NOT_USED = 1


def fonts(client: Client) -> list[Found]:
    """The fonts that are in use in the table, in the order of their numbers; none where the sign has no such table."""
    columns = [(*_FONTS, column) for column in (_NUMBER, _HEIGHT, _SPACE, _LINE, _VERSION)]
    held = client.walk(*columns)
    statuses = {name[-1]: value for name, (_, value) in client.walk((*_FONTS, _STATUS)).items()}
    found: dict[int, Found] = {}
    for name in held:
        if name[: len(columns[0])] != columns[0] or statuses.get(name[-1]) == _NOT_USED:
            continue
        row = [held.get((*column, name[-1]), (0, None))[1] for column in columns]
        numbers = [value for value in row if isinstance(value, int)]
        if len(numbers) == len(columns) and 1 <= numbers[0] <= 255 and 1 <= numbers[1] <= MOST_SIDE:
            number, height, space, line, version = numbers
            found[name[-1]] = Found(number, height, space, line, version, is_spaced=True, is_high=True)
    _add_characters(client, found)
    return sorted(found.values(), key=lambda font: font.number)


def _add_characters(client: Client, found: dict[int, Found]) -> None:
    """The characters of each font, with their pictures."""
    for index, font in found.items():
        columns = [(*_CHARACTERS, column, index) for column in (_WIDTH, _BITMAP)]
        held = client.walk(*columns)
        for name, (_, width) in held.items():
            if name[: len(columns[0])] != columns[0] or not isinstance(width, int) or not 1 <= width <= MOST_SIDE:
                continue
            bitmap = held.get((*columns[1], name[-1]), (0, None))[1]
            font.widths[name[-1]] = width
            if isinstance(bitmap, bytes) and len(bitmap) == (width * font.height + 7) // 8:
                font.bitmaps[name[-1]] = bitmap
        font.characters = sorted(font.widths)
