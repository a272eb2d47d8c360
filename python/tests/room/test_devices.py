"""What signs say of themselves: what is asked, what they have not, what is written, pages, and an alarm."""

import json
import pathlib
from typing import Callable

import pytest

from . import needs

needs.modules("aiohttp", "jinja2")

from wisangub.endpoint.asking import Name, Refused, Values
from wisangub.room import device
from wisangub.room.device import ASKED, ERRORS, LASTING, MEASURED
from wisangub.room.fleet import Sign
from wisangub.room.store import alarms, devices
from wisangub.room.store.alarms import DEVICE
from wisangub.room.store.devices import DAY, EVERY, DeviceSaid
from wisangub.room.store.store import Store
from wisangub.room.web import device_words
from wisangub.room.worker.devices import Devices
from wisangub.room.worker.gets import Gets
from wisangub.snmp import wire

from .test_alarms import look
from .test_clock import jump
from .test_database import SIGN, two_stores
from .test_quiet import Writes
from .visits import ITSELF, Bench, Visitors, run

WORDS = {name: word for word, name in ASKED.items()}
Answer = Callable[[list[str]], Values | str]


def refused(status: int, place: int) -> Refused:
    return Refused.of(wire.Message(wire.RESPONSE, b"public", -1, status, place))


class Answering(Gets):
    """A sign that has some of the names, and answers at once."""

    def __init__(self, answer: Answer) -> None:
        super().__init__()
        self.answer = answer
        self.numbers: list[int] = []
        self.asked: list[list[str]] = []

    def begin(self, sign: Sign, number: int, asked: list[Name], end: Callable[[Values | str], None]) -> None:
        self.numbers.append(number)
        self.asked.append([WORDS[name] for name in asked])
        end(self.answer(self.asked[-1]))


def lacks(*names: str) -> Answer:
    """A sign without these; each other one says its place among all."""

    def answer(asked: list[str]) -> Values | str:
        at = next((at for at, name in enumerate(asked, 1) if name in names), 0)
        return refused(wire.NO_SUCH_NAME, at) if at else [list(ASKED).index(name) for name in asked]

    return answer


def reading(store: Store, sign: int, answer: Answer) -> Answering:
    """One reading, to its end."""
    gets = Answering(answer)
    under_way = Devices(store, {sign: SIGN}, gets)
    under_way.begin()
    while under_way.going:
        under_way.go_on()
    under_way.keep()
    return gets


def due(store: Store) -> None:
    """The next reading is due."""
    store.database.run("UPDATE device_hearings SET asked_at = asked_at - enough")


def said(sign: int, number: int, errors: int = 0, heat: int = 20) -> DeviceSaid:
    lasting: dict[str, int | str] = {"sysName": b"a sign".hex(), ERRORS: errors}
    return DeviceSaid(sign, number, lasting, {"tempMaxAmbient": heat}, errors, frozenset(["sysDescr"]), True)


def test_what_is_asked_is_in_the_mib() -> None:
    assert ASKED["sysName"] == (1, 3, 6, 1, 2, 1, 1, 5, 0)
    assert ASKED["moduleMake"] == (1, 3, 6, 1, 4, 1, 1206, 4, 2, 6, 1, 3, 1, 3, 1)
    assert ASKED[ERRORS] == (1, 3, 6, 1, 4, 1, 1206, 4, 2, 3, 9, 7, 1, 0)
    assert ASKED["dmsIllumManLevel"] == (1, 3, 6, 1, 4, 1, 1206, 4, 2, 3, 7, 6, 0)
    assert list(ASKED) == [*LASTING, *MEASURED] and len(ASKED) == len(set(ASKED.values())) == 20


@pytest.mark.parametrize(
    ("status", "words"),
    [
        (0, []),
        (2, ["communications"]),
        (0b11_0001_0000, ["lamp", "controller", "temperature"]),
        (0b1000, ["attached device"]),
        (0b101_0000_0001, ["bit 0", "controller", "bit 10"]),
        (-2, ["shortErrorStatus -2"]),
    ],
)
def test_errors_in_words(status: int, words: list[str]) -> None:
    assert device.errors(status) == words


def test_a_sign_that_has_all_is_asked_once(where: str) -> None:
    store, _, sign = two_stores(where)
    gets = reading(store, sign, lacks())
    assert gets.asked == [list(ASKED)] and gets.numbers == [-1]
    found = devices.view(store.database, sign)
    assert found is not None and found.values == {name: at for at, name in enumerate(ASKED)}
    assert reading(store, sign, lacks()).asked == [], "it is asked once a minute"


def test_what_a_sign_has_not_is_asked_for_once_a_day(where: str) -> None:
    store, other, sign = two_stores(where)
    missing = ("sysName", "moduleModel", "tempMaxSignHousing")
    gets = reading(store, sign, lacks(*missing))
    assert len(gets.asked) == 4 and gets.numbers == [-1, -2, -3, -4]
    assert store.devices.lacking(sign) == set(missing)
    due(store)
    gets = reading(other, sign, lacks(*missing, "sysDescr"))
    assert len(gets.asked) == 2 and not set(missing) & set(gets.asked[0]), "of another worker too"
    assert other.devices.lacking(sign) == {*missing, "sysDescr"}
    store.database.run("UPDATE device_hearings SET all_asked_at = all_asked_at - ?", DAY - 60)
    due(store)
    assert len(reading(store, sign, lacks()).asked) == 1 and store.devices.lacking(sign) == {*missing, "sysDescr"}
    store.database.run("UPDATE device_hearings SET all_asked_at = all_asked_at - 60")
    due(store)
    assert reading(store, sign, lacks()).asked == [list(ASKED)] and store.devices.lacking(sign) == set()


def test_a_sign_that_has_nothing_is_asked_once_a_day(where: str) -> None:
    store, _, sign = two_stores(where)
    gets = reading(store, sign, lacks(*ASKED))
    assert [len(one) for one in gets.asked] == list(range(len(ASKED), 0, -1))
    assert devices.view(store.database, sign) is None and look(store) == []
    store.database.run("UPDATE device_hearings SET asked_at = asked_at - ?", EVERY)
    assert store.devices.to_read() == []
    store.database.run("UPDATE device_hearings SET asked_at = asked_at - ?", DAY - EVERY)
    assert store.devices.to_read() == [sign]


def test_a_get_that_is_refused_is_asked_in_parts(where: str) -> None:
    store, _, sign = two_stores(where)

    def answer(asked: list[str]) -> Values | str:
        """It says of three names at a time, and does not say which it has not."""
        if len(asked) > 3:
            return refused(wire.TOO_BIG, 0)
        if "sysDescr" in asked or "dmsSignWidth" in asked:
            return refused(wire.GENERAL, len(asked) + 1 if "sysDescr" in asked else 0)
        return [1 for _ in asked]

    gets = reading(store, sign, answer)
    assert store.devices.lacking(sign) == {"sysDescr", "dmsSignWidth"}
    found = devices.view(store.database, sign)
    assert found is not None and set(found.values) == {*ASKED} - {"sysDescr", "dmsSignWidth"}
    assert len(gets.asked) <= 2 * len(ASKED) and sorted(gets.numbers, reverse=True) == gets.numbers


@pytest.mark.parametrize("why", ["no reply", "the reply does not answer what was asked"])
def test_a_sign_that_does_not_answer_is_asked_again(where: str, why: str) -> None:
    store, _, sign = two_stores(where)
    assert len(reading(store, sign, lambda asked: why).asked) == 1 and devices.view(store.database, sign) is None
    due(store)
    assert store.devices.due([sign]) == {sign: None}, "for all names"


def test_one_worker_asks_at_a_time(where: str) -> None:
    store, other, sign = two_stores(where)
    assert store.devices.to_read() == [sign] == other.devices.to_read()
    assert store.devices.due([sign]) == {sign: None} and other.devices.due([sign]) == {} == other.devices.due([])
    jump(other.database, EVERY + 1)
    assert other.devices.to_read() == [sign] and list(other.devices.due([sign])) == [sign]
    assert store.devices.to_read() == [sign] and list(store.devices.due([sign])) == [sign], "the clock was ahead"
    assert store.devices.to_read() == []


def test_what_is_said_again_and_what_is_measured_write_no_row(where: str) -> None:
    store, other, sign = two_stores(where)
    store.devices.keep([said(sign, -1)])
    writes = Writes(store.database, "devices")
    jump(other.database, 100.0)
    other.devices.keep([said(sign, -3, heat=31), said(sign, -2, heat=25)])
    found = devices.view(store.database, sign)
    assert not writes.are_some() and found is not None and found.number("tempMaxAmbient") == 31
    assert found.octets("sysName") == b"a sign" and found.number("sysName") is None and found.octets(ERRORS) == b""
    store.devices.keep([said(sign, -2, errors=4)])
    assert not writes.are_some() and devices.with_errors(store.database) == {}, "what comes late is let be"
    store.devices.keep([said(sign, -4, errors=4)])
    assert writes.are_some() and devices.with_errors(store.database) == {sign: 4}
    store.database.run("DELETE FROM device_hearings")  # as a crash of PostgreSQL does
    found = devices.view(store.database, sign)
    assert found is not None and found.number(ERRORS) == 4 and found.number("tempMaxAmbient") is None
    assert store.devices.to_read() == [sign] and not writes.are_some()


def test_errors_are_an_alarm_that_is_acknowledged(tmp_path: pathlib.Path, where: str) -> None:
    async def act(bench: Bench, visitor: Visitors) -> None:
        bench.itself(bench.one, shortErrorStatus=0b1_0000)
        words = "it says that something is wrong with it: lamp"
        assert look(bench.store) == [(DEVICE, words)] == look(bench.store)
        operator = await bench.logged_in(visitor, "operator")
        assert "device fault" in (page := (await operator.get("/alarms"))[1]) and words in page
        assert words in (await operator.get(f"/signs/{bench.one}"))[1]
        (number,) = [int(row[0] or 0) for row in bench.store.database.run("SELECT id FROM alarms")]
        assert (await operator.post(f"/alarms/{number}/acknowledge", {}))[::2] == (303, "/alarms")
        assert [one.seen_by for one in alarms.listed(bench.store.database)] == ["operator"]
        bench.itself(bench.one, -12, shortErrorStatus=0b11_0000)
        assert look(bench.store) == [(DEVICE, f"{words}, pixel")], "which nobody has seen"
        bench.itself(bench.one, -13, shortErrorStatus=0)
        assert look(bench.store) == []

    run(tmp_path, where, act)


def test_pages_say_what_a_sign_says_of_itself(tmp_path: pathlib.Path, where: str) -> None:
    async def act(bench: Bench, visitor: Visitors) -> None:
        bench.read(bench.one)
        reader = await bench.logged_in(visitor, "reader")
        assert "What it says of itself" not in (await reader.get(f"/signs/{bench.one}"))[1]
        bench.itself(bench.one)
        found = devices.view(bench.store.database, bench.one)
        assert found is not None
        assert device_words.facts(found) == [
            ("Name", "roadside"),
            ("What it is", "a message sign"),
            ("Made by", "Example Signs RS 96 1.0"),
            ("Size", "1920 by 540 mm"),
            ("Brightness", "level 6 of 8, set by manual indexed, level 8 is asked for, 74 % of its light"),
            ("Faults", "power, pixel"),
            ("Doors", "door 1 is open, door 3 is open"),
            ("Temperatures, °C", "control cabinet 20 to 31, air around it -4, housing 7 to 8"),
        ]
        page = (await reader.get(f"/signs/{bench.one}"))[1]
        assert "What it says of itself" in page and "Example Signs RS 96 1.0" in page and "-4" in page
        bench.itself(bench.one, -12, **{name: None for name in ITSELF if name not in ("sysName", ERRORS)})
        bench.itself(bench.one, -13, **{name: None for name in ITSELF if name not in ("sysName", ERRORS)}, sysName="x")
        found = devices.view(bench.store.database, bench.one)
        assert found is not None and device_words.facts(found) == [("Faults", "power, pixel")]

    run(tmp_path, where, act)


def test_what_is_no_value_is_left_out() -> None:
    held = {name: "(1, 3)" if name.startswith("dms") else 7 for name in ASKED}
    view = devices.DeviceView(json.loads(json.dumps(held)), 0.0)
    assert [word for word, _ in device_words.facts(view)] == ["Faults", "Temperatures, °C"]
