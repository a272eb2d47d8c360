"""What a sign says of itself, in words: a line for each thing that it has."""

from typing import Iterator

from wisangub.room import device
from wisangub.room.store.devices import DeviceView

from .words import text_of

_MOST_OUTPUT = 65535


def _text(it: DeviceView, *names: str) -> str:
    """What these say, without characters that cannot be read."""
    said = " ".join(filter(None, (text_of(it.octets(name)).strip() for name in names)))
    return "".join(one if one.isprintable() else "?" for one in said)


def _brightness(it: DeviceView) -> str:
    """The level that is shown, what sets it, and how bright that is."""
    level, levels = it.number("dmsIllumBrightLevelStatus"), it.number("dmsIllumNumBrightLevels")
    wanted, control = it.number("dmsIllumManLevel"), it.number("dmsIllumControl")
    output = it.number("dmsIllumLightOutputStatus")
    words = [f"level {level}" + (f" of {levels}" if levels is not None else "")] if level is not None else []
    words += [f"set by {device.control(control)}"] if control is not None else []
    words += [f"level {wanted} is asked for"] if wanted is not None and wanted != level else []
    words += [f"{100 * output // _MOST_OUTPUT} % of its light"] if output is not None else []
    return ", ".join(words)


def doors(it: DeviceView) -> str:
    """Which doors are open."""
    status = it.number("dmsStatDoorOpen")
    if status is None:
        return ""
    return ", ".join(f"door {bit + 1} is open" for bit in device.bits(status)) or "closed"


def faults(it: DeviceView) -> str:
    """What is wrong."""
    status = it.number(device.ERRORS)
    return "" if status is None else ", ".join(device.errors(status)) or "none"


def temperatures(it: DeviceView) -> Iterator[tuple[str, int, int]]:
    """Where, and the least and the greatest there, in degrees Celsius."""
    for place, names in device.TEMPERATURES.items():
        found = [number for number in map(it.number, names) if number is not None]
        if found:
            yield place, min(found), max(found)


def facts(it: DeviceView) -> list[tuple[str, str]]:
    """What it says, each in a word and what it is; what it has not is left out."""
    width, height = it.number("dmsSignWidth"), it.number("dmsSignHeight")
    heat = (f"{place} {least}" + (f" to {most}" if most != least else "") for place, least, most in temperatures(it))
    said = (
        ("Name", _text(it, "sysName")),
        ("What it is", _text(it, "sysDescr")),
        ("Made by", _text(it, "moduleMake", "moduleModel", "moduleVersion")),
        ("Size", f"{width} by {height} mm" if width is not None and height is not None else ""),
        ("Brightness", _brightness(it)),
        ("Faults", faults(it)),
        ("Doors", doors(it)),
        ("Temperatures, °C", ", ".join(heat)),
    )
    return [(word, words) for word, words in said if words]
