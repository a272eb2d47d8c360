"""Brightness that operators ask for: who may, what is refused, that it is sent once, how it ends, and pages."""

import pathlib
import re

import pytest

from . import needs

needs.modules("aiohttp", "jinja2")

from wisangub.refusal import Refusal
from wisangub.room.device import BY_HAND, CONTROL, CONTROLS, ERRORS, LEVEL, LEVELS, SET
from wisangub.room.store import brightness, history
from wisangub.room.store.advance import NOT_DONE, advance
from wisangub.room.store.brightness import EVERY, KEPT, PATIENCE, UNKNOWN, UNSENT, Wish
from wisangub.room.store.devices import DeviceSaid
from wisangub.room.store.rights import Level
from wisangub.room.store.store import Store
from wisangub.room.worker.gets import Gets, Set

from .people import person
from .test_database import SIGN, two_stores
from .visits import ITSELF, Bench, Visitor, Visitors, run

MANUAL = BY_HAND[0]
PHOTOCELL = CONTROLS[0]
DIM = Wish(MANUAL, 3)


def bright(store: Store, sign: int, **changed: int | None) -> None:
    """The sign says that it has eight levels."""
    said: dict[str, int | None] = {CONTROL: MANUAL, LEVEL: 8, LEVELS: 8, ERRORS: 0, **changed}
    lasting: dict[str, int | str] = {name: value for name, value in said.items() if value is not None}
    store.devices.keep([DeviceSaid(sign, -1, lasting, {}, 0, frozenset(), True)])


def standing(where: str) -> tuple[Store, Store, int]:
    """A sign with brightness, and an operator `ann`."""
    store, other, sign = two_stores(where)
    bright(store, sign)
    person(store.database, "ann")
    return store, other, sign


def later(store: Store, seconds: float) -> None:
    """All that was asked for and sent was so long ago."""
    store.database.run("UPDATE brightness SET asked_at = asked_at - ?, sent_at = sent_at - ?", seconds, seconds)


def audit(store: Store) -> list[str]:
    return [what for _, _, _, what in history.audit(store.database, None)]


def test_what_is_asked_counts_once_and_stands_in_the_audit(where: str) -> None:
    store, other, sign = standing(where)
    asked = brightness.ask(store.database, sign, "ann", DIM, "a word")
    assert brightness.ask(other.database, sign, "ann", DIM, "a word") == asked
    assert audit(store) == ["one: brightness: manual, level 3 was asked for"]
    (found,) = brightness.listed(store.database, sign)
    assert found == brightness.found(store.database, asked) and found.wish == DIM
    assert (found.how, found.said) == (None, None)


def test_what_may_not_be_asked_is_refused(where: str) -> None:
    store, _, sign = standing(where)
    person(store.database, "bob", level=Level.SEE)
    for who, wish, words in (
        ("bob", DIM, "one: bob may not do this"),
        ("nobody", DIM, "a sign: nobody may not do this"),
        ("ann", Wish(MANUAL, 9), "from 0 to 8"),
        ("ann", Wish(MANUAL, -1), "from 0 to 8"),
        ("ann", Wish(MANUAL, None), "where it is set by hand"),
        ("ann", Wish(PHOTOCELL, 3), "where it is set by hand"),
        ("ann", Wish(1, None), "sets no brightness"),
    ):
        with pytest.raises(Refusal, match=words):
            brightness.ask(store.database, sign, who, wish, f"{who} {wish}")
    assert brightness.listed(store.database, sign) == [] and audit(store) == []


@pytest.mark.parametrize("without", [CONTROL, LEVEL])
def test_a_sign_without_brightness_is_not_asked(where: str, without: str) -> None:
    store, _, sign = two_stores(where)
    person(store.database, "ann")
    for _ in range(2):
        with pytest.raises(Refusal, match="does not say that its brightness can be set"):
            brightness.ask(store.database, sign, "ann", DIM, "a word")
        bright(store, sign, **{without: None})


def test_one_is_under_way_at_a_time_and_not_too_often(where: str) -> None:
    store, other, sign = standing(where)
    asked = brightness.ask(store.database, sign, "ann", DIM, "first")
    with pytest.raises(Refusal, match="under way"):
        brightness.ask(other.database, sign, "ann", DIM, "second")
    assert store.brightness.begin(asked, -7)
    store.brightness.end(asked, "accepted")
    with pytest.raises(Refusal, match="once in 10 seconds"):
        brightness.ask(store.database, sign, "ann", DIM, "second")
    later(store, EVERY)
    assert brightness.ask(store.database, sign, "ann", DIM, "second") != asked


def test_one_worker_sends_it_once(where: str) -> None:
    store, other, sign = standing(where)
    asked = brightness.ask(store.database, sign, "ann", DIM, "a word")
    assert [one.id for one in store.brightness.to_send()] == [asked] == [one.id for one in other.brightness.to_send()]
    assert other.brightness.begin(asked, -7) and not store.brightness.begin(asked, -8)
    assert store.brightness.to_send() == [] and other.database.run("SELECT number FROM brightness") == [(-7,)]
    store.database.run("UPDATE device_hearings SET asked_at = {clock}")
    store.brightness.end(asked, "accepted")
    other.brightness.end(asked, "no answer")
    store.brightness.keep(asked, {CONTROL: MANUAL, LEVEL: 2})
    (found,) = brightness.listed(store.database, sign)
    assert (found.how, found.read_back) == ("accepted", "manual, level 2"), "the first word on it stands"
    assert audit(store)[0] == "one: brightness: manual, level 3: accepted" and len(audit(store)) == 2
    assert store.devices.to_read() == [sign], "and the sign is asked of itself anew"


def test_what_no_worker_sends_is_never_sent(where: str) -> None:
    store, other, sign = standing(where)
    asked = brightness.ask(store.database, sign, "ann", DIM, "a word")
    later(store, PATIENCE)
    assert not other.brightness.begin(asked, -7) and store.brightness.to_send() == []
    assert brightness.listed(store.database, sign)[0].how == UNSENT and not other.brightness.begin(asked, -7)


def test_what_was_sent_and_nobody_waits_for_is_unknown(where: str) -> None:
    store, other, sign = standing(where)
    assert store.brightness.begin(brightness.ask(store.database, sign, "ann", DIM, "a word"), -7)
    assert other.brightness.to_send() == [] and brightness.listed(store.database, sign)[0].how is None
    later(store, -3600.0)
    assert other.brightness.to_send() == [], "the clock was ahead"
    assert brightness.listed(store.database, sign)[0].how == UNKNOWN


def test_a_restored_database_sends_nothing_that_waited(where: str) -> None:
    store, _, sign = standing(where)
    brightness.ask(store.database, sign, "ann", DIM, "a word")
    advance(store, "a test", None)
    assert brightness.listed(store.database, sign)[0].how == NOT_DONE and store.brightness.to_send() == []


def test_the_newest_are_kept(where: str) -> None:
    store, _, sign = standing(where)
    for number in range(KEPT + 3):
        asked = brightness.ask(store.database, sign, "ann", Wish(MANUAL, number % 8), f"word {number}")
        assert store.brightness.begin(asked, -number - 1)
        store.brightness.end(asked, "accepted")
        later(store, EVERY)
    assert [one.id for one in brightness.listed(store.database, sign, 99)] == list(range(KEPT + 3, 3, -1))


def test_a_worker_writes_no_other_object() -> None:
    assert SET == (CONTROL, LEVEL)
    said: list[object] = []
    for name in ("shortErrorStatus", "sysName"):
        with pytest.raises(Refusal, match="by a centre alone"):
            Set(SIGN, -1, {CONTROL: 4, name: 1}, said.append)
        Gets().set(SIGN, -1, {name: 1}, said.append)
    assert said == [f"{name} is written by a centre alone" for name in ("shortErrorStatus", "sysName")]


async def shown(operator: Visitor, at: str) -> str:
    """The word of the page that confirms level 3."""
    page = (await operator.get(f"{at}?control=4&level=3"))[1]
    return re.findall(r'name="confirmation" value="([^"]+)"', page)[0]


def test_pages_ask_for_it(tmp_path: pathlib.Path, where: str) -> None:
    async def act(bench: Bench, visitor: Visitors) -> None:
        bench.itself(bench.one)
        none: dict[str, int | str | None] = {name: None for name in ITSELF if name.startswith("dmsIllum")}
        bench.itself(bench.two, -11, **none)
        at, form = f"/signs/{bench.one}/brightness", f'action="/signs/{bench.one}/brightness"'
        operator, reader = await bench.logged_in(visitor, "operator"), await bench.logged_in(visitor, "reader")
        assert form in (await operator.get(f"/signs/{bench.one}"))[1]
        page = (await reader.get(f"/signs/{bench.one}"))[1]
        assert form not in page and "Nobody has set it here." in page
        for row in (bench.two, bench.gantry):
            assert "Brightness</h2>" not in (await operator.get(f"/signs/{row}"))[1], "a sign that has none"
            assert (await operator.get(f"/signs/{row}/brightness?control=4&level=3"))[0] == 422
        assert (await reader.get(f"{at}?control=4&level=3"))[0] == 403
        for query in ("control=4&level=9", "control=4", "control=1", "control=x", ""):
            assert (await operator.get(f"{at}?{query}"))[0] == 422, query
        page = (await operator.get(f"{at}?control=4&level=0"))[1]
        assert "may be dark" in page and "set by manual indexed" in page and "manual, level 0" in page
        fields = {"control": "4", "level": "3", "confirmation": await shown(operator, at)}
        assert (await reader.post(at, fields))[0] == 403
        for changed in ({"level": "4"}, {"control": "6"}, {"confirmation": ""}, {"confirmation": "a.b"}):
            assert (await operator.post(at, {**fields, **changed}))[0] == 400, changed
        other = await bench.logged_in(visitor, "administrator")
        assert (await other.post(at, fields))[0] == 400, "it was shown to somebody else"
        for _ in range(2):
            assert (await operator.post(at, fields))[::2] == (303, f"/signs/{bench.one}")
        assert len(brightness.listed(bench.store.database, bench.one)) == 1
        page = (await reader.get(f"/signs/{bench.one}"))[1]
        assert "manual, level 3" in page and "under way" in page and "read back" not in page
        assert bench.store.brightness.begin(1, -7)
        bench.store.brightness.end(1, "refused: badValue for dmsIllumManLevel")
        page = (await reader.get(f"/signs/{bench.one}"))[1]
        assert "refused: badValue for dmsIllumManLevel" in page and "not read back" in page
        bench.store.brightness.keep(1, {CONTROL: 6, LEVEL: 8})
        assert "manual indexed, level 8" in (await reader.get(f"/signs/{bench.one}"))[1]
        status, page, _ = await operator.post(at, {**fields, "confirmation": await shown(operator, at)})
        assert status == 422 and "once in 10 seconds" in page

    run(tmp_path, where, act)
