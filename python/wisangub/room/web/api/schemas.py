"""The schemas of what is sent and answered, as the OpenAPI document has them. What is not known is left out."""

from typing import Any

from wisangub.room import device
from wisangub.room.store.alarms import KINDS as ALARM_KINDS
from wisangub.room.web.wall import STATES
from wisangub.room.web.words import NO_END

Schema = dict[str, Any]

MEMORIES = ("permanent", "changeable", "volatile")
OUTCOMES = ("accepted", "failed", "open")
MOST_SIGNS, MOST_TEXT = 1000, 4096
MOST_NUMBER = 2**31  # of a reading
_NUMBER: Schema = {"type": "integer", "minimum": 1, "maximum": 999_999_999}
_PRIORITY: Schema = {"type": "integer", "minimum": 1, "maximum": 255}


def whole(words: str, least: int = 0, most: int | None = None) -> Schema:
    """A number, in its bounds."""
    made: Schema = {"type": "integer", "description": words, "minimum": least}
    return made if most is None else {**made, "maximum": most}


def number(words: str) -> Schema:
    """A number as a sign said it, in no bounds."""
    return {"type": "integer", "description": words}


def text(words: str, **more: Any) -> Schema:
    return {"type": "string", "description": words, **more}


def truth(words: str) -> Schema:
    return {"type": "boolean", "description": words}


def time(words: str) -> Schema:
    return text(f"{words}, by the database's clock, in UTC", format="date-time")


def thing(words: str, needed: dict[str, Schema], more: dict[str, Schema] | None = None) -> Schema:
    """An object: the properties that it always has, and those that it may have."""
    made: Schema = {"type": "object", "description": words, "properties": {**needed, **(more or {})}}
    return {**made, **({"required": list(needed)} if needed else {}), "additionalProperties": False}


def of(name: str) -> Schema:
    """The schema of a name."""
    return {"$ref": f"#/components/schemas/{name}"}


def many(schema: Schema) -> Schema:
    return {"type": "array", "items": schema}


_MINUTES = whole("for how long, in minutes; without end where it is not given", 1, NO_END - 1)
_ACTIVATION = {**_PRIORITY, "description": "that the sign compares with what it shows"}
_SIGNS = {**many(_NUMBER), "minItems": 1, "maxItems": MOST_SIGNS, "uniqueItems": True}
_ROW = whole("a row of the memory", 1, 65535)

_SHOWN = thing(
    "What a sign said that it shows",
    {
        "text": text("in MULTI, its octets as the characters U+0000 to U+00FF"),
        "plain": text("the text without tags: lines apart by a stroke, pages by two"),
        "owner": text("dmsMessageOwner"),
        "since": time("since when it says so"),
        "heard": time("when it was heard last"),
    },
    {
        "mode": whole("dmsMsgSourceMode: 8 is central"),
        "memory": text("of the row that it comes from"),
        "row": whole("the row that it comes from"),
        "requester": text("the address that the activation named"),
        "beacon": truth("whether the beacon flashes"),
        "pixel_service": truth("whether pixel service is on"),
        "priority": whole("while it is shown"),
        "minutes": whole("that are left; none where it has no end"),
    },
)
_SIGN = thing(
    "A sign",
    {
        "id": {**_NUMBER, "description": "its number, for ever"},
        "name": text("as in the fleet"),
        "place": text("as in the fleet"),
        "groups": many({"type": "string"}),
        "kind": text("signs of one kind show the same texts"),
        "columns": whole("of the matrix", 1),
        "rows": whole("of the matrix", 1),
        "state": text("silent: it does not answer; busy: a command is under way", enum=list(STATES)),
        "is_ours": truth("false where it shows what none of its centres here has activated"),
        "waiting": whole("commands that have not ended"),
    },
    {"fault": text("why it does not answer, or stands still"), "shown": of("Shown")},
)
_COMMAND = thing(
    "A command of a sign",
    {
        "id": _NUMBER,
        "sign": _NUMBER,
        "sign_name": text("the sign's name"),
        "who": text("the user who asked"),
        "asked": time("when it was asked for"),
        "kind": text("what was asked for", enum=["publish", "blank", "show", "other"]),
        "what": text("the same in words"),
        "state": text("where it is", enum=["waiting", "under way", "accepted", "failed"]),
    },
    {
        "text": text("of a publication, in MULTI"),
        "minutes": whole("for how long; none where it has no end"),
        "activation_priority": whole("that it was asked with"),
        "step": whole("of the eight of a publication, while it is under way", 1, 8),
        "outcome": text("how it ended, in words"),
        "why": text("what the sign said of that, or what may be the cause"),
        "ended": time("when it ended"),
    },
)
_ROWS = thing(
    "A row of a sign's message table, as it was last read",
    {
        "memory": text("of the row"),
        "row": whole("of the memory", 1),
        "status": text("valid, error, .."),
        "text": text("in MULTI"),
        "owner": text("dmsMessageOwner"),
        "checksum": whole("dmsMessageCRC", 0, 65535),
        "priority": whole("while it is shown", 0, 255),
        "heard": time("when it was read"),
    },
)
_TEMPERATURE = thing(
    "Degrees Celsius at a place",
    {"place": text("where it is measured"), "least": number("there"), "greatest": number("there")},
)
_DEVICE = thing(
    "What a sign says of itself; what it has not is left out",
    {"heard": time("when it was heard last")},
    {
        "name": text("sysName"),
        "description": text("sysDescr"),
        "make": text("of its first module"),
        "model": text("of its first module"),
        "version": text("of its first module"),
        "width": number("in millimetres"),
        "height": number("in millimetres"),
        "brightness_control": text("what sets the brightness"),
        "brightness_levels": number("how many there are"),
        "brightness_level": number("that is shown"),
        "manual_level": number("that a manager asked for"),
        "light_output": number("of 65535"),
        "faults": many({"type": "string"}),
        "open_doors": many({"type": "integer"}),
        "temperatures": many(of("Temperature")),
    },
)
_CONTROL_WORDS = list(map(device.control, device.CONTROLS))
_SETTING = thing(
    "What was asked for of a sign's brightness",
    {
        "id": _NUMBER,
        "sign": _NUMBER,
        "who": text("the user who asked"),
        "asked": time("when it was asked for"),
        "control": text("what is to set it", enum=_CONTROL_WORDS),
        "state": text("where it is", enum=["under way", "accepted", "failed"]),
    },
    {
        "level": whole("where it is set by hand", 0, device.MOST_LEVEL),
        "outcome": text("how it ended, in words"),
        "read_back": of("ReadBack"),
    },
)
_READ_BACK = thing(
    "What the sign read afterwards",
    {"at": time("when")},
    {"control": text("what sets its brightness"), "level": number("that a manager asked for")},
)
_ALARM = thing(
    "An alarm",
    {
        "id": _NUMBER,
        "sign": _NUMBER,
        "sign_name": text("the sign's name"),
        "kind": text("of alarm", enum=list(ALARM_KINDS)),
        "what": text("in words"),
        "begun": time("since when"),
    },
    {"ended": time("until when"), "seen_by": text("who acknowledged it"), "seen": time("when")},
)
_TEXT = thing(
    "A text of the library",
    {
        "id": _NUMBER,
        "folder": text("empty for none"),
        "name": text("of the text"),
        "text": text("in MULTI"),
        "purpose": text("what it is for"),
        "written_by": text("who wrote it last"),
        "approved": many({"type": "integer"}),
    },
)
_PURPOSE = thing(
    "What a text is for",
    {
        "name": text("of the purpose"),
        "priority": whole("while shown, and of the activation", 1, 254),
        "row": whole("of the changeable memory", 1, 255),
    },
)
_PLAN = thing(
    "A plan",
    {"id": _NUMBER, "name": text("of the plan"), "is_on": truth("now"), "signs": many(_NUMBER)},
    {"begun": time("of the last run"), "until": time("when that ends by itself"), "said": text("what was left out")},
)
_READING = thing(
    "What a sign said, or that it said nothing, for a while",
    {
        "id": whole("of later ones it is greater", 1, MOST_NUMBER),
        "from": time("since when"),
        "until": time("when it was heard so last"),
    },
    {"text": text("in MULTI"), "plain": text("without tags"), "fault": text("why it said nothing")},
)
_ENTRY = thing(
    "A line of the audit",
    {"id": _NUMBER, "at": time("when"), "who": text("did it"), "what": text("was done")},
)


def _list(name: str, words: str, more: dict[str, Schema] | None = None) -> Schema:
    return thing(words, {name: many(of(_NAMES[name])), **(more or {})})


_NAMES = {
    "signs": "Sign",
    "commands": "Command",
    "rows": "Row",
    "alarms": "Alarm",
    "texts": "Text",
    "purposes": "Purpose",
    "plans": "Plan",
    "readings": "Reading",
    "settings": "Setting",
    "entries": "Entry",
}
_FAULT = thing(
    "What is wrong with a part of a request",
    {"at": text("a JSON pointer into the request, or the name of a parameter"), "why": text("in words")},
    {"signs": many({"type": "integer"}), "offset": whole("the octet of the text")},
)
_PUBLISH = thing(
    "A text for signs: one of `text` and `library`. A purpose, also that of a text of the library, chooses row and"
    " priorities, which are not given beside it.",
    {"signs": _SIGNS},
    {
        "text": text("in MULTI; a line break is a new line", minLength=1, maxLength=MOST_TEXT),
        "library": {**_NUMBER, "description": "a text of the library"},
        "purpose": text("the name of a purpose", maxLength=64),
        "memory": text("changeable where it is not given", enum=list(MEMORIES[1:])),
        "row": {**_ROW, "description": "1 where it is not given"},
        "priority_while_shown": {**_PRIORITY, "description": "100 where it is not given"},
        "activation_priority": {**_ACTIVATION, "description": "100 where it is not given"},
        "minutes": _MINUTES,
        "beacon": truth("with the beacon"),
        "pixel_service": truth("with pixel service"),
    },
)
_BLANK = thing(
    "Signs that are to show nothing. Without a priority it is the greatest of what they show.",
    {"signs": _SIGNS},
    {"minutes": _MINUTES, "activation_priority": _ACTIVATION},
)
_SHOW = thing(
    "A row that a sign has, as its table was last read. Without a priority it is that of the row.",
    {"sign": _NUMBER, "memory": text("of the row", enum=list(MEMORIES)), "row": _ROW},
    {"minutes": _MINUTES, "activation_priority": _ACTIVATION},
)
_DIM = thing(
    "What sets a sign's brightness from now on, and the level where it is set by hand; once in ten seconds a sign",
    {"control": text("what sets it", enum=_CONTROL_WORDS)},
    {"level": whole("where it is set by hand", 0, device.MOST_LEVEL)},
)
_NOTHING = thing("Nothing has to be said", {})
_BATCH = _list(
    "commands",
    "What was asked for together",
    {"batch": _NUMBER, "who": text("the user who asked"), "at": time("when"), "what": text("in words")},
)

SCHEMAS: dict[str, Schema] = {
    "Shown": _SHOWN,
    "Sign": _SIGN,
    "Command": _COMMAND,
    "Row": _ROWS,
    "Temperature": _TEMPERATURE,
    "Device": _DEVICE,
    "Setting": _SETTING,
    "ReadBack": _READ_BACK,
    "Alarm": _ALARM,
    "Text": _TEXT,
    "Purpose": _PURPOSE,
    "Plan": _PLAN,
    "Reading": _READING,
    "Entry": _ENTRY,
    "Fault": _FAULT,
    "Error": thing("Why a request was refused", {"error": text("in words")}, {"faults": many(of("Fault"))}),
    "Signs": _list("signs", "Signs, in the fleet's order", {"now": time("when this was looked at")}),
    "Rows": _list("rows", "The rows in use", {"read": time("when the table was last asked for")}),
    "Readings": _list("readings", "What a sign showed, the newest first"),
    "Settings": _list("settings", "What was asked for of a sign's brightness, the newest first"),
    "Commands": _list("commands", "Commands, the newest first"),
    "Batch": _BATCH,
    "Alarms": _list("alarms", "Alarms that stand, or that nobody has acknowledged"),
    "Texts": _list("texts", "The library, by folder and name"),
    "Purposes": _list("purposes", "Purposes, the most urgent first"),
    "Plans": _list("plans", "Plans, by name"),
    "Entries": _list("entries", "Lines of the audit, the newest first"),
    "Publish": _PUBLISH,
    "Blank": _BLANK,
    "Show": _SHOW,
    "Dim": _DIM,
    "Nothing": _NOTHING,
}
