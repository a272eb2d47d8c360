"""A file of objects, made of a sign's description and of what its maker says of the machine."""

from __future__ import annotations

import re
import textwrap
import zlib
from collections.abc import Iterator
from dataclasses import dataclass, field

from wisangub import __version__
from wisangub.refusal import Refusal
from wisangub.snmp import wire
from wisangub.snmp.names import DMS

from .known import By, Known, known
from .lines import Access, Object, dotted

PAGES, TEXT = 6, 512  # the most of a message, as docs/PROFILE.md has it
_SERVICES = 72  # an application over transport: 2 to the power of 6, and of 3
_NO_LEGEND, _FULL_MATRIX, _LED = 2, 6, 1
_OTHER, _NONE = 1, 2  # of dmsBeaconType and of dmsIllumBrightnessValuesError
_EIGHT_BIT, _CENTRAL, _NORMAL, _FAST, _MANUAL, _NO_SAVING = 2, 4, 2, 2, 4, 2
_HARDWARE, _SOFTWARE = 2, 3
_MOST_OUTPUT, _MOST_MILLIMETRES = 65_535, 65_535
_COOL = 20  # degrees, until firmware knows it
_SIZE = re.compile(rb"^size ([0-9]{1,5}) ([0-9]{1,5})\r?$", re.MULTILINE)
_HAS = re.compile(rb"^has ([01]) ([01])\r?$", re.MULTILINE)
_HEAD = """\
# Objects beside those of the sign %s, made by wisangub-objects: docs/OBJECTS.md has the form of this file.
# Names, numbers and enumerations are from memory of the public MIBs (RFC 1213, NTCIP 1201, NTCIP 1203 v03).
# What firmware measures stands here as it is at first: door, errors, temperatures, photocell, brightness.
"""


@dataclass(frozen=True)
class Machine:
    """What a maker says of a sign. `acts`: the objects that firmware acts on where a manager writes them."""

    make: str
    model: str
    version: str
    name: str = ""
    contact: str = ""
    location: str = ""
    object_id: wire.Name = (0, 0)
    pitch: int = 20  # millimetres from one lamp to the next
    border: int = 0  # millimetres around all lamps
    levels: int = 8  # of brightness, beside darkness
    entry: str = "front"  # how a person gets into it
    has_fonts: bool = True
    acts: frozenset[str] = frozenset()


@dataclass(frozen=True)
class Sign:
    """What the objects need of a description."""

    columns: int
    rows: int
    has_beacons: bool
    sum: int  # of the description

    @staticmethod
    def of(text: bytes) -> Sign:
        """That of a description."""
        size, has = _SIZE.search(text), _HAS.search(text)
        if size is None or has is None:
            raise Refusal("the description has no line `size` or no line `has`")
        return Sign(int(size[1]), int(size[2]), has[1] == b"1", zlib.crc32(text) & 0xFFFF)


@dataclass
class _Page:
    """The lines so far."""

    acts: frozenset[str]
    lines: list[str] = field(default_factory=list)

    def part(self, words: str) -> None:
        """What the next lines are about."""
        self.lines += ["", f"# {words}"]

    def put(self, name: str, held: int | bytes | wire.Name, row: wire.Name = (0,), most: int | None = None) -> None:
        """An object, and what it reads. `most` is the greatest number that it takes."""
        of = known(name)
        instance = (*of.numbers, *row)
        made = Object(instance, (of.tag, held), self.access(of, most))
        self.lines += [f"# {name}.{dotted(row)}: {_said(of, held)}".rstrip(": "), made.line().decode()]

    def access(self, of: Known, most: int | None) -> Access | None:
        """What a manager may write."""
        if of.by is By.FIRMWARE or of.by is By.ACTING and of.name not in self.acts:
            return None
        least = min(of.words) if of.words else of.least or 0
        greatest = most if most is not None else max(of.words) if of.words else of.most or 0
        return Access(of.tag, least, greatest)

    def kept(self, keyword: str, name: str) -> None:
        """An object that the front end keeps."""
        self.lines += [f"# {name}.0", f"{keyword} {dotted((*known(name).numbers, 0))}"]


def _said(of: Known, held: int | bytes | wire.Name) -> str:
    """A value as a person reads it."""
    if isinstance(held, tuple):
        return dotted(held)
    if isinstance(held, bytes):
        is_text = of.tag == wire.OCTETS and not of.is_bits and held.isascii() and held.decode().isprintable()
        return held.decode() if is_text else held.hex()
    if of.is_bits:
        return ", ".join(word for bit, word in of.words.items() if held >> bit & 1) or "none"
    return f"{of.words[held]} ({held})" if held in of.words else str(held)


def file_of(sign: Sign, machine: Machine, name: str) -> str:
    """The text of the file."""
    page = _Page(machine.acts)
    if machine.has_fonts:
        page.part("fontDefinition of NTCIP 1203: the objects of the sign's fonts")
        page.lines.append("fonts")
    for part in (_system, _global, _sign, _messages, _illumination, _state):
        part(page, sign, machine)
    return _HEAD % name + "\n".join(page.lines) + "\n"


def _system(page: _Page, sign: Sign, machine: Machine) -> None:
    page.part("the system group of RFC 1213")
    words = f"{machine.make} {machine.model} {machine.version}, a message sign of {sign.columns} by {sign.rows} lamps"
    page.put("sysDescr", words.encode())
    page.put("sysObjectID", machine.object_id)
    page.kept("uptime", "sysUpTime")
    page.put("sysContact", machine.contact.encode())
    page.put("sysName", machine.name.encode())
    page.put("sysLocation", machine.location.encode())
    page.put("sysServices", _SERVICES)


def _global(page: _Page, sign: Sign, machine: Machine) -> None:
    page.part("global objects of NTCIP 1201")
    page.put("globalSetIDParameter", sign.sum)
    page.put("globalMaxModules", 2)
    modules = (
        (machine.make, machine.model, machine.version, _HARDWARE),
        ("Wisangub", "wisangub-sign", __version__, _SOFTWARE),
    )
    for column, name in enumerate(("moduleNumber", "moduleDeviceNode"), 1):
        for number in (1, 2):
            page.put(name, number if column == 1 else DMS, (number,))
    for column, name in enumerate(("moduleMake", "moduleModel", "moduleVersion")):
        for number, module in enumerate(modules, 1):
            page.put(name, str(module[column]).encode(), (number,))
    for number, module in enumerate(modules, 1):
        page.put("moduleType", module[3], (number,))
    page.put("controllerBaseStandards", b"RFC 1157\nNTCIP 1203 v03, narrowed to a profile")
    page.kept("clock", "globalTime")
    page.put("globalDaylightSaving", _NO_SAVING)


def _sign(page: _Page, sign: Sign, machine: Machine) -> None:
    page.part("dmsSignCfg and vmsCfg of NTCIP 1203")
    bits = {word: bit for bit, word in known("dmsSignAccess").words.items()}
    height, width = (
        min(machine.pitch * lamps + 2 * machine.border, _MOST_MILLIMETRES) for lamps in (sign.rows, sign.columns)
    )
    page.put("dmsSignAccess", 1 << bits[machine.entry])
    page.put("dmsSignType", _FULL_MATRIX)
    page.put("dmsSignHeight", height)
    page.put("dmsSignWidth", width)
    page.put("dmsHorizontalBorder", machine.border)
    page.put("dmsVerticalBorder", machine.border)
    page.put("dmsLegend", _NO_LEGEND)
    page.put("dmsBeaconType", _OTHER if sign.has_beacons else _NONE)
    page.put("dmsSignTechnology", 1 << _LED)
    page.put("vmsCharacterHeightPixels", 0)
    page.put("vmsCharacterWidthPixels", 0)
    page.put("vmsHorizontalPitch", machine.pitch)
    page.put("vmsVerticalPitch", machine.pitch)
    page.put("monochromeColor", bytes.fromhex("ffbf00000000"))


def _messages(page: _Page, sign: Sign, machine: Machine) -> None:
    page.part("multiCfg and signControl of NTCIP 1203")
    tags = sum(1 << bit for bit in known("dmsSupportedMultiTags").words)
    page.put("defaultCharacterSet", _EIGHT_BIT)
    page.put("dmsSupportedMultiTags", tags.to_bytes(4, "big"))
    page.put("dmsMaxNumberPages", PAGES)
    page.put("dmsMaxMultiStringLength", TEXT)
    page.put("dmsControlMode", _CENTRAL)
    page.put("dmsSWReset", 0)
    page.put("dmsResetMessage", bytes.fromhex("0700010000"))
    page.put("dmsMemoryMgmt", _NORMAL)
    page.put("dmsActivateMessageState", _FAST)


def _levels(count: int) -> bytes:
    """dmsIllumBrightnessValues: how many levels, and of each the output and where a photocell goes down and up to it,
    each in two octets."""
    numbers = [
        number
        for level in range(1, count + 1)
        for number in (
            _MOST_OUTPUT * level // count,
            _MOST_OUTPUT * (level - 1) // (count + 1),
            _MOST_OUTPUT * level // (count + 1),
        )
    ]
    return bytes([count]) + b"".join(number.to_bytes(2, "big") for number in numbers)


def _illumination(page: _Page, sign: Sign, machine: Machine) -> None:
    page.part("illum of NTCIP 1203: firmware follows dmsIllumControl and dmsIllumManLevel")
    page.put("dmsIllumControl", _MANUAL)
    page.put("dmsIllumMaxPhotocellLevel", _MOST_OUTPUT)
    page.put("dmsIllumPhotocellLevelStatus", 0)
    page.put("dmsIllumNumBrightLevels", machine.levels)
    page.put("dmsIllumBrightLevelStatus", machine.levels)
    page.put("dmsIllumManLevel", machine.levels, most=machine.levels)
    page.put("dmsIllumBrightnessValues", _levels(machine.levels))
    page.put("dmsIllumBrightnessValuesError", _NONE)
    page.put("dmsIllumLightOutputStatus", _MOST_OUTPUT)


def _temperatures() -> Iterator[str]:
    for where in ("CtrlCabinet", "Ambient", "SignHousing"):
        yield from (f"tempMin{where}", f"tempMax{where}")


def _state(page: _Page, sign: Sign, machine: Machine) -> None:
    page.part("dmsSchedule, dmsStatus and graphicDefinition of NTCIP 1203")
    page.put("numActionTableEntries", 0)
    page.put("watchdogFailureCount", 0)
    page.put("dmsStatDoorOpen", 0)
    page.put("shortErrorStatus", 0)
    page.put("pixelFailureTableNumRows", 0)
    for name in _temperatures():
        page.put(name, _COOL)
    page.put("dmsGraphicMaxEntries", 0)


def checked(machine: Machine) -> Machine:
    """The same; raises Refusal where an object would not take it."""
    texts = {"make": machine.make, "model": machine.model, "version": machine.version, "name": machine.name}
    for option, words in {**texts, "contact": machine.contact, "location": machine.location}.items():
        if not words.isprintable() or len(words.encode()) > 80:
            raise Refusal(f"--{option} has more than 80 octets, or what is not printed: {textwrap.shorten(words, 40)}")
    for option, number, least, most in (
        ("pitch", machine.pitch, 1, 255),
        ("border", machine.border, 0, 10_000),
        ("levels", machine.levels, 1, 64),
    ):
        if not least <= number <= most:
            raise Refusal(f"--{option} {number} is no number from {least} to {most}")
    may_act = sorted(one.name for one in map(known, _ACTING))
    other = sorted(machine.acts - set(may_act))
    if other:
        raise Refusal(f"--acts {other[0]} is none of {', '.join(may_act)}")
    return machine


_ACTING = ("globalDaylightSaving", "dmsControlMode", "dmsSWReset", "dmsResetMessage", "dmsMemoryMgmt")
