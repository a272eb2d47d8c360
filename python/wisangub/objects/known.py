"""Objects beside the profile's that managers ask a sign for: names, numbers, types and words.

They were written from memory of the public MIBs (RFC 1213, NTCIP 1201 and NTCIP 1203 v03), and not from their texts.
mibs/DMS-DEVICE-MIB and mibs/RFC1213-MIB are made of this table by tools/objects.py."""

from __future__ import annotations

import enum
from dataclasses import dataclass, field

from wisangub.snmp import wire
from wisangub.snmp.names import DMS

SYSTEM: wire.Name = (1, 3, 6, 1, 2, 1, 1)
GLOBAL: wire.Name = (1, 3, 6, 1, 4, 1, 1206, 4, 2, 6)
NODES: dict[str, wire.Name] = {
    "system": SYSTEM,
    "globalConfiguration": (*GLOBAL, 1),
    "moduleTableEntry": (*GLOBAL, 1, 3, 1),
    "globalTimeManagement": (*GLOBAL, 3),
    "dmsSignCfg": (*DMS, 1),
    "vmsCfg": (*DMS, 2),
    "fontDefinition": (*DMS, 3),
    "fontEntry": (*DMS, 3, 2, 1),
    "characterEntry": (*DMS, 3, 4, 1),
    "multiCfg": (*DMS, 4),
    "signControl": (*DMS, 6),
    "illum": (*DMS, 7),
    "dmsSchedule": (*DMS, 8),
    "dmsStatus": (*DMS, 9),
    "statError": (*DMS, 9, 7),
    "statTemp": (*DMS, 9, 9),
    "graphicDefinition": (*DMS, 10),
}
ENTRIES = ("moduleTableEntry", "fontEntry", "characterEntry")  # whose objects are columns


class By(enum.Enum):
    """Who says what an object reads, and who may write it."""

    FIRMWARE = "read"  # published, read alone
    MANAGER = "written"  # published, and written by a manager
    ACTING = "acts"  # published, and written where firmware says that it acts on it
    FONTS = "fonts"  # of the sign's face


@dataclass(frozen=True)
class Known:
    """An object, or a column of a table."""

    name: str
    node: str
    number: int
    tag: int
    said: str
    least: int | None = None  # of a number, or of a length
    most: int | None = None
    words: dict[int, str] = field(default_factory=dict)
    by: By = By.FIRMWARE
    is_bits: bool = False  # the words are those of bits

    @property
    def numbers(self) -> wire.Name:
        """Its name without an instance."""
        return (*NODES[self.node], self.number)

    @property
    def is_column(self) -> bool:
        return self.node in ENTRIES

    @property
    def source(self) -> str:
        """Where its name and its number come from."""
        if self.node == "system":
            return "RFC 1213"
        return "NTCIP 1201" if self.numbers[: len(GLOBAL)] == GLOBAL else "NTCIP 1203"


_OCTET, _SHORT, _LONG = 255, 65_535, 2**32 - 1
_INTEGER, _OCTETS = wire.INTEGER, wire.OCTETS
_SYSTEM = (
    Known("sysDescr", "system", 1, _OCTETS, "What the machine is, in words.", 0, _OCTET),
    Known("sysObjectID", "system", 2, wire.NAME, "What its maker calls it; 0.0 where no maker said it."),
    Known("sysUpTime", "system", 3, wire.TICKS, "Hundredths of a second since the agent began."),
    Known("sysContact", "system", 4, _OCTETS, "Who looks after it.", 0, _OCTET, by=By.MANAGER),
    Known("sysName", "system", 5, _OCTETS, "Its name.", 0, _OCTET, by=By.MANAGER),
    Known("sysLocation", "system", 6, _OCTETS, "Where it stands.", 0, _OCTET, by=By.MANAGER),
    Known("sysServices", "system", 7, _INTEGER, "Its layers, 2 to the power of each less 1, in a sum.", 0, 127),
)
_MODULES = {1: "other", 2: "hardware", 3: "software"}
_SAVING = {1: "other", 2: "disableDST", 3: "enableUSDST", 4: "enableEuropeDST"}
_GLOBAL = (
    Known("globalSetIDParameter", "globalConfiguration", 1, _INTEGER, "Another where settings are others.", 0, _SHORT),
    Known("globalMaxModules", "globalConfiguration", 2, _INTEGER, "The rows of globalModuleTable.", 0, _OCTET),
    Known("moduleNumber", "moduleTableEntry", 1, _INTEGER, "The number of the row.", 1, _OCTET),
    Known("moduleDeviceNode", "moduleTableEntry", 2, wire.NAME, "The node of the device that the module is of."),
    Known("moduleMake", "moduleTableEntry", 3, _OCTETS, "Who made the module.", 0, _OCTET),
    Known("moduleModel", "moduleTableEntry", 4, _OCTETS, "Which model it is.", 0, _OCTET),
    Known("moduleVersion", "moduleTableEntry", 5, _OCTETS, "Its version.", 0, _OCTET),
    Known("moduleType", "moduleTableEntry", 6, _INTEGER, "What it is.", words=_MODULES),
    Known("controllerBaseStandards", "globalConfiguration", 4, _OCTETS, "The standards, a line each.", 0, _SHORT),
    Known("globalTime", "globalTimeManagement", 1, wire.COUNTER, "Seconds since 1970."),
    Known("globalDaylightSaving", "globalTimeManagement", 2, _INTEGER, "Summer time.", words=_SAVING, by=By.ACTING),
)
_ACCESS = {0: "other", 1: "walk-in", 2: "rear", 3: "front"}
_TYPE = {1: "other", 2: "bos", 3: "cms", 4: "vmsChar", 5: "vmsLine", 6: "vmsFull"}
_LEGEND = {1: "other", 2: "noLegend", 3: "legendExists"}
_BEACON = {1: "other", 2: "none", 3: "oneBeacon"}
_TECHNOLOGY = {0: "other", 1: "led", 2: "flipDisk", 3: "fiberOptics", 4: "shuttered", 5: "bulb", 6: "drum"}
_SIGN = (
    Known("dmsSignAccess", "dmsSignCfg", 1, _INTEGER, "How a person gets into it.", 0, 15, _ACCESS, is_bits=True),
    Known("dmsSignType", "dmsSignCfg", 2, _INTEGER, "What kind of sign it is; of portable ones 128 more.", words=_TYPE),
    Known("dmsSignHeight", "dmsSignCfg", 3, _INTEGER, "Its height in millimetres.", 0, _SHORT),
    Known("dmsSignWidth", "dmsSignCfg", 4, _INTEGER, "Its width in millimetres.", 0, _SHORT),
    Known("dmsHorizontalBorder", "dmsSignCfg", 5, _INTEGER, "Millimetres left and right of lamps.", 0, _SHORT),
    Known("dmsVerticalBorder", "dmsSignCfg", 6, _INTEGER, "Millimetres above and below lamps.", 0, _SHORT),
    Known("dmsLegend", "dmsSignCfg", 7, _INTEGER, "Whether words are painted on it.", words=_LEGEND),
    Known("dmsBeaconType", "dmsSignCfg", 8, _INTEGER, "Which beacons it has.", words=_BEACON),
    Known("dmsSignTechnology", "dmsSignCfg", 9, _INTEGER, "Of what it is made.", 0, 127, _TECHNOLOGY, is_bits=True),
    Known("vmsCharacterHeightPixels", "vmsCfg", 1, _INTEGER, "Rows of a character, 0 of a full matrix.", 0, _OCTET),
    Known("vmsCharacterWidthPixels", "vmsCfg", 2, _INTEGER, "Columns of one, 0 of a full matrix.", 0, _OCTET),
    Known("vmsHorizontalPitch", "vmsCfg", 5, _INTEGER, "Millimetres from one column to the next.", 0, _OCTET),
    Known("vmsVerticalPitch", "vmsCfg", 6, _INTEGER, "Millimetres from one row to the next.", 0, _OCTET),
    Known("monochromeColor", "vmsCfg", 7, _OCTETS, "Red, green and blue of a lit lamp, and of a dark one.", 6, 6),
)
_STATUS = {1: "notUsed", 2: "modifying", 3: "calculatingID", 4: "readyForUse", 5: "inUse", 6: "permanent"}
_FONTS = tuple(
    Known(name, node, number, tag, said, least, most, words or {}, By.FONTS)
    for name, node, number, tag, said, least, most, words in (
        ("numFonts", "fontDefinition", 1, _INTEGER, "How many fonts there are.", 1, 4, None),
        ("fontIndex", "fontEntry", 1, _INTEGER, "The number of the row.", 1, 4, None),
        ("fontNumber", "fontEntry", 2, _INTEGER, "The font's number, by which a text names it.", 1, _OCTET, None),
        ("fontName", "fontEntry", 3, _OCTETS, "No octets, as a font has no name.", 0, 0, None),
        ("fontHeight", "fontEntry", 4, _INTEGER, "Rows of its pictures.", 1, 32, None),
        ("fontCharSpacing", "fontEntry", 5, _INTEGER, "Columns between two characters.", 0, 32, None),
        ("fontLineSpacing", "fontEntry", 6, _INTEGER, "Rows between two lines.", 0, 32, None),
        ("fontVersionID", "fontEntry", 7, _INTEGER, "The font's version.", 0, _SHORT, None),
        ("fontStatus", "fontEntry", 8, _INTEGER, "Always permanent.", None, None, _STATUS),
        ("maxFontCharacters", "fontDefinition", 3, _INTEGER, "The most characters of a font.", 1, _SHORT, None),
        ("characterNumber", "characterEntry", 1, _INTEGER, "The character's number.", 1, _SHORT, None),
        ("characterWidth", "characterEntry", 2, _INTEGER, "Columns of its picture.", 1, 32, None),
        ("characterBitmap", "characterEntry", 3, _OCTETS, "Its picture, row by row.", 1, 128, None),
        ("fontMaxCharacterSize", "fontDefinition", 5, _INTEGER, "The most octets of a picture.", 1, _SHORT, None),
    )
)
_SET = {1: "other", 2: "eightBit"}
_TAGS = {0: "cb", 1: "cf", 2: "fl", 3: "fo", 5: "hc", 6: "jl", 7: "jp", 10: "nl", 11: "np", 12: "pt", 29: "pb"}
_CONTROL = {2: "local", 4: "central", 5: "centralOverride"}
_MEMORY = {2: "normal", 3: "clearChangeableMessages", 4: "clearVolatileMessages"}
_ACTIVATED = {1: "other", 2: "fastActivationSign"}
_MESSAGES = (
    Known("defaultCharacterSet", "multiCfg", 10, _INTEGER, "How texts are coded.", words=_SET),
    Known(
        "dmsSupportedMultiTags",
        "multiCfg",
        14,
        _OCTETS,
        "A bit for each tag of MULTI, bit 0 the last one of the last octet.",
        4,
        4,
        _TAGS,
        is_bits=True,
    ),
    Known("dmsMaxNumberPages", "multiCfg", 15, _INTEGER, "The most pages of a message.", 1, _OCTET),
    Known("dmsMaxMultiStringLength", "multiCfg", 16, _INTEGER, "The most octets of a text.", 1, _SHORT),
    Known("dmsControlMode", "signControl", 1, _INTEGER, "Who is in control.", words=_CONTROL, by=By.ACTING),
    Known("dmsSWReset", "signControl", 2, _INTEGER, "Written 1, software begins anew.", 0, 1, by=By.ACTING),
    Known("dmsResetMessage", "signControl", 11, _OCTETS, "What is shown after that.", 5, 5, by=By.ACTING),
    Known("dmsMemoryMgmt", "signControl", 16, _INTEGER, "Written, rows are emptied.", words=_MEMORY, by=By.ACTING),
    Known("dmsActivateMessageState", "signControl", 25, _INTEGER, "How fast one is shown.", words=_ACTIVATED),
)
_DIMMING = {1: "other", 2: "photocell", 3: "timer", 4: "manual", 6: "manualIndexed"}
_FAULTS = {1: "other", 2: "none"}
_ILLUMINATION = (
    Known("dmsIllumControl", "illum", 1, _INTEGER, "What sets the brightness.", words=_DIMMING, by=By.MANAGER),
    Known("dmsIllumMaxPhotocellLevel", "illum", 2, _INTEGER, "The greatest that a photocell reads.", 0, _SHORT),
    Known("dmsIllumPhotocellLevelStatus", "illum", 3, _INTEGER, "What it reads.", 0, _SHORT),
    Known("dmsIllumNumBrightLevels", "illum", 4, _INTEGER, "How many levels of brightness there are.", 0, _OCTET),
    Known("dmsIllumBrightLevelStatus", "illum", 5, _INTEGER, "The level that is shown.", 0, _OCTET),
    Known("dmsIllumManLevel", "illum", 6, _INTEGER, "The level that a manager wants.", 0, _OCTET, by=By.MANAGER),
    Known("dmsIllumBrightnessValues", "illum", 7, _OCTETS, "The levels: how many, and three numbers each.", 0, 1531),
    Known("dmsIllumBrightnessValuesError", "illum", 8, _INTEGER, "What is wrong with these.", words=_FAULTS),
    Known("dmsIllumLightOutputStatus", "illum", 9, _INTEGER, "How bright it is, of 65535.", 0, _SHORT),
)
_ERRORS = {
    1: "communications",
    2: "power",
    3: "attachedDevice",
    4: "lamp",
    5: "pixel",
    6: "photocell",
    7: "message",
    8: "controller",
    9: "temperature",
}
_WHERE = ("the control cabinet", "the air around it", "the sign's housing")
_STATE = (
    Known("numActionTableEntries", "dmsSchedule", 1, _INTEGER, "The entries of a schedule's actions.", 0, _OCTET),
    Known("watchdogFailureCount", "dmsStatus", 5, wire.COUNTER, "How often a watchdog began it anew."),
    Known("dmsStatDoorOpen", "dmsStatus", 6, _INTEGER, "A bit for each door that is open.", 0, _OCTET),
    Known("shortErrorStatus", "statError", 1, _INTEGER, "What is wrong.", 0, _SHORT, _ERRORS, is_bits=True),
    Known("pixelFailureTableNumRows", "statError", 2, _INTEGER, "How many lamps are known to fail.", 0, _SHORT),
    *(
        Known(f"temp{kind}{where}", "statTemp", number, _INTEGER, f"{least} of {at}, in degrees Celsius.", -128, 127)
        for number, (kind, where, least, at) in enumerate(
            (
                (kind, where, least, at)
                for where, at in zip(("CtrlCabinet", "Ambient", "SignHousing"), _WHERE)
                for kind, least in (("Min", "The least temperature"), ("Max", "The greatest temperature"))
            ),
            1,
        )
    ),
    Known("dmsGraphicMaxEntries", "graphicDefinition", 1, _INTEGER, "The graphics that there is room for.", 0, _OCTET),
)
KNOWN: tuple[Known, ...] = (*_SYSTEM, *_GLOBAL, *_SIGN, *_FONTS, *_MESSAGES, *_ILLUMINATION, *_STATE)
BY_NAME = {one.name: one for one in KNOWN}


def known(name: str) -> Known:
    """The object of a name."""
    return BY_NAME[name]
