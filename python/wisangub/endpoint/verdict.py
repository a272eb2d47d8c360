"""What a sign found wrong with a message that it was asked to validate."""

from typing import Sequence

from wisangub.snmp.mib import Mib

from .asking import Name
from .lack import lack

_OBJECTS = ("dmsValidateMessageError", "dmsMultiSyntaxError", "dmsMultiSyntaxErrorPosition")
_NONE, _SYNTAX = 2, 5
_LACKS = {3: "the sign has no beacons", 4: "the sign has no pixel service"}


def names(mib: Mib) -> list[Name]:
    """The names of what is asked for; none where the MIB is not here."""
    places = {object_: name for name, object_ in mib.objects.items()}
    return [(*places[object_], 0) for object_ in _OBJECTS if object_ in places]


def text_of(line: str) -> bytes | None:
    """The text of a centre's line `publish ..`."""
    words = line.split(" ")
    try:
        return bytes.fromhex(words[3].replace("-", "")) if words[0] == "publish" and len(words) > 3 else None
    except ValueError:
        return None


def words(mib: Mib, values: Sequence[int | str], line: str, program: str, description: bytes | None) -> str:
    """The verdict in words, the fault of a text in those of `signtool check` where that finds the same; nothing where
    the sign says no more than that."""
    numbers = [value for value in values if isinstance(value, int)]
    if len(numbers) != len(_OBJECTS) or numbers[0] == _NONE:
        return ""
    verdict, code, at = numbers
    if verdict != _SYNTAX:
        word = mib.words.get(_OBJECTS[0], {}).get(verdict, "")
        more = _LACKS.get(verdict, word)
        return f"the sign's verdict is {verdict}" + (f": {more}" if more else "")
    text = text_of(line)
    why = lack(program, description, text, code, at) if text is not None else ""
    why = why or mib.words.get(_OBJECTS[1], {}).get(code, "")
    return f"the sign found fault {code} at octet {at}" + (f": {why}" if why else "")
