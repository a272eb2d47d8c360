"""What a sign is asked of itself, by the names of the MIB, and its errors in words."""

import re

from wisangub.objects.known import known
from wisangub.snmp.names import Name

_COLUMNS = ("moduleMake", "moduleModel", "moduleVersion")  # of the first module
_PLACES = {"CtrlCabinet": "control cabinet", "Ambient": "air around it", "SignHousing": "housing"}
ERRORS = "shortErrorStatus"
CONTROL, LEVEL, LEVELS = "dmsIllumControl", "dmsIllumManLevel", "dmsIllumNumBrightLevels"
MOST_LEVEL = 255
LASTING = (
    "sysName",
    "sysDescr",
    *_COLUMNS,
    "dmsSignWidth",
    "dmsSignHeight",
    CONTROL,
    LEVELS,
    LEVEL,
    "dmsStatDoorOpen",
    ERRORS,
)
TEMPERATURES = {place: (f"tempMin{word}", f"tempMax{word}") for word, place in _PLACES.items()}
MEASURED = (
    "dmsIllumBrightLevelStatus",
    "dmsIllumLightOutputStatus",
    *(name for pair in TEMPERATURES.values() for name in pair),
)  # which may be another at each reading
ASKED: dict[str, Name] = {name: (*known(name).numbers, 1 if name in _COLUMNS else 0) for name in (*LASTING, *MEASURED)}

SET = (CONTROL, LEVEL)  # the objects that a worker writes beside a centre: of the device alone (docs/CONTROL.md)
_CONTROLS = {word: number for number, word in known(CONTROL).words.items()}
BY_HAND = (_CONTROLS["manual"], _CONTROLS["manualIndexed"])
CONTROLS = (_CONTROLS["photocell"], _CONTROLS["timer"], *BY_HAND)  # that may be asked for


def bits(number: int) -> list[int]:
    """The bits of a number that are 1, from 0 on."""
    return [bit for bit in range(number.bit_length()) if number >> bit & 1] if number > 0 else []


def _apart(word: str) -> str:
    """A word of the MIB as words: attachedDevice."""
    return re.sub(r"([a-z])([A-Z])", r"\1 \2", word).lower()


def errors(status: int) -> list[str]:
    """What is wrong, in words, by the bits of shortErrorStatus."""
    held = known(ERRORS).words
    if status < 0:
        return [f"{ERRORS} {status}"]
    return [_apart(held[bit]) if bit in held else f"bit {bit}" for bit in bits(status)]


def control(number: int) -> str:
    """What sets the brightness, in words."""
    word = known(CONTROL).words.get(number)
    return _apart(word) if word else f"mode {number}"


def brightness(number: int, level: int | None) -> str:
    """What sets the brightness, and the level where it is set by hand, in words."""
    return control(number) + ("" if level is None or number not in BY_HAND else f", level {level}")
