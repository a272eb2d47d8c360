"""What other systems read, as values of JSON: what is not known is left out."""

import datetime
from typing import Any

from wisangub.room import device as of_itself
from wisangub.room.plain import plain_of
from wisangub.room.store import history
from wisangub.room.store.alarms import Alarm
from wisangub.room.store.brightness import Asked
from wisangub.room.store.devices import DeviceView
from wisangub.room.store.history import Batch, ReadingView
from wisangub.room.store.library import Text
from wisangub.room.store.plan_runs import Plan
from wisangub.room.store.queries import CommandView, RowView, Shown, SignView
from wisangub.room.store.rules import Purpose
from wisangub.room.web import device_words, words
from wisangub.room.web.faces import Face
from wisangub.room.web.progress import because, states
from wisangub.room.web.wall import Card
from wisangub.snmp.names import Memory

Value = dict[str, Any]
_KINDS = {"activate": "show"}


def time(at: float) -> str:
    """A time in UTC, as RFC 3339 writes it."""
    return datetime.datetime.fromtimestamp(at, datetime.timezone.utc).isoformat(timespec="milliseconds")


def known(**values: Any) -> Value:
    """Those of the values that are known."""
    return {key: value for key, value in values.items() if value is not None}


def _time(at: float | None) -> str | None:
    return None if at is None else time(at)


def _minutes(found: int | None) -> int | None:
    return None if found == words.NO_END else found


def memory_word(memory: int) -> str:
    """A memory in the words of the schemas; another number as it is."""
    return Memory(memory).name.lower() if memory in list(Memory) else str(memory)


def _truth(found: int | None) -> bool | None:
    return None if found is None else found == 1


def _shown(shown: Shown, sign: SignView) -> Value:
    code = shown.source if len(shown.source) == 5 else b""
    return known(
        text=words.text_of(shown.text),
        plain=plain_of(shown.text),
        owner=words.text_of(shown.owner),
        since=time(sign.since or 0),
        heard=time(sign.heard or 0),
        mode=shown.mode,
        memory=memory_word(code[0]) if code else None,
        row=int.from_bytes(code[1:3], "big") if code else None,
        requester=words.address_word(shown.requester) if shown.requester else None,
        beacon=_truth(shown.beacon),
        pixel_service=_truth(shown.pixel),
        priority=shown.priority,
        minutes=_minutes(sign.minutes),
    )


def sign(card: Card, face: Face, groups: list[str]) -> Value:
    """A sign, as the wall has it."""
    found = card.sign
    fault = found.still or found.fault or ("not heard lately" if card.is_stale else None)
    return known(
        id=found.id,
        name=found.name,
        place=found.place,
        groups=groups,
        kind=face.key,
        columns=face.width,
        rows=face.height,
        state=card.state,
        is_ours=not card.is_other,
        waiting=card.waiting,
        fault=fault,
        shown=_shown(found.shown, found) if found.shown else None,
    )


def _state(command: CommandView) -> str:
    if command.how is None:
        return "waiting" if command.number is None else "under way"
    return "accepted" if command.how == "accepted" else "failed"


def command(found: CommandView) -> Value:
    """A command, and where it is."""
    line = words.asked(found.line)
    is_known, is_open = line.kind != "other", found.how is None
    step = next((one.number for one in states(found) if one.state == "now"), None) if is_open else None
    return known(
        id=found.id,
        sign=found.sign,
        sign_name=found.sign_name,
        who=found.who,
        asked=time(found.at),
        kind=_KINDS.get(line.kind, line.kind),
        what=line.what,
        state=_state(found),
        text=words.text_of(line.text) if line.kind == "publish" else None,
        minutes=_minutes(line.minutes) if is_known else None,
        activation_priority=line.priority if is_known else None,
        step=step,
        outcome=found.how,
        why=None if is_open else because(found) or None,
        ended=_time(found.ended),
    )


def batch(found: Batch) -> Value:
    """What was asked together."""
    return {
        "batch": found.id,
        "who": found.who,
        "at": time(found.at),
        "what": found.what,
        "commands": list(map(command, found.commands)),
    }


def row(found: RowView) -> Value:
    """A row of a sign's table."""
    return {
        "memory": memory_word(found.memory),
        "row": found.number,
        "status": words.STATUSES.get(found.status, str(found.status)),
        "text": words.text_of(found.text),
        "owner": words.text_of(found.owner),
        "checksum": found.checksum,
        "priority": found.priority,
        "heard": time(found.heard),
    }


def _octets(found: DeviceView, name: str) -> str | None:
    return words.text_of(found.octets(name)) if isinstance(found.values.get(name), str) else None


def device(found: DeviceView) -> Value:
    """What a sign says of itself; what it has not is left out."""
    status, doors = found.number(of_itself.ERRORS), found.number("dmsStatDoorOpen")
    control = found.number("dmsIllumControl")
    heat = [
        {"place": place, "least": least, "greatest": most} for place, least, most in device_words.temperatures(found)
    ]
    return known(
        heard=time(found.heard),
        name=_octets(found, "sysName"),
        description=_octets(found, "sysDescr"),
        make=_octets(found, "moduleMake"),
        model=_octets(found, "moduleModel"),
        version=_octets(found, "moduleVersion"),
        width=found.number("dmsSignWidth"),
        height=found.number("dmsSignHeight"),
        brightness_control=None if control is None else of_itself.control(control),
        brightness_levels=found.number("dmsIllumNumBrightLevels"),
        brightness_level=found.number("dmsIllumBrightLevelStatus"),
        manual_level=found.number("dmsIllumManLevel"),
        light_output=found.number("dmsIllumLightOutputStatus"),
        faults=None if status is None else of_itself.errors(status),
        open_doors=None if doors is None else [bit + 1 for bit in of_itself.bits(doors)],
        temperatures=heat or None,
    )


def setting(found: Asked) -> Value:
    """What was asked for of a sign's brightness, and what it read afterwards."""
    state = "under way" if found.how is None else "accepted" if found.how == "accepted" else "failed"
    return known(
        id=found.id,
        sign=found.sign,
        who=found.who,
        asked=time(found.at),
        control=of_itself.control(found.wish.control),
        level=found.wish.level,
        state=state,
        outcome=found.how,
        read_back=_read_back(found),
    )


def _read_back(found: Asked) -> Value | None:
    if found.said is None or found.said_at is None:
        return None
    control, level = (found.said.get(name) for name in of_itself.SET)
    word = of_itself.control(control) if isinstance(control, int) else None
    return known(at=time(found.said_at), control=word, level=level if isinstance(level, int) else None)


def reading(found: ReadingView) -> Value:
    """What a sign said, for a while. Numbers of readings are below 0, and stand here without their sign."""
    shown = found.shown
    return {
        **{"id": -found.number, "from": time(found.at), "until": time(found.heard)},
        **known(
            text=words.text_of(shown.text) if shown else None,
            plain=plain_of(shown.text) if shown else None,
            fault=found.fault,
        ),
    }


def alarm(found: Alarm) -> Value:
    """An alarm."""
    return known(
        id=found.id,
        sign=found.sign,
        sign_name=found.sign_name,
        kind=found.kind,
        what=found.what,
        begun=time(found.begun),
        ended=_time(found.ended),
        seen_by=found.seen_by,
        seen=_time(found.seen_at),
    )


def text(found: Text, faces: dict[int, Face]) -> Value:
    """A text of the library, and the signs that it is approved for."""
    return {
        "id": found.id,
        "folder": found.folder,
        "name": found.name,
        "text": words.text_of(found.text),
        "purpose": found.purpose_name,
        "written_by": found.by,
        "approved": [sign_id for sign_id, face in faces.items() if face.key in found.kinds],
    }


def purpose(found: Purpose) -> Value:
    """What a text is for."""
    return {"name": found.name, "priority": found.priority, "row": found.number}


def plan(found: Plan) -> Value:
    """A plan, and its last run."""
    last = found.last
    return known(
        id=found.id,
        name=found.name,
        is_on=found.is_on,
        signs=found.signs,
        begun=_time(last.begun) if last else None,
        until=_time(last.until) if last else None,
        said=(last.said or None) if last else None,
    )


def entry(found: history.Entry) -> Value:
    """A line of the audit."""
    number, at, who, what = found
    return {"id": number, "at": time(at), "who": who, "what": words.audit_words(what)}
