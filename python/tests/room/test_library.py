"""The library: texts, approvals for kinds of signs, purposes that choose row and priority, words that are forbidden."""

import json
import pathlib
import re

import pytest

from . import needs

needs.modules("aiohttp", "jinja2")

from wisangub.refusal import Refusal
from wisangub.room.plain import forbidden_in
from wisangub.room.store import history, library, queries, rules
from wisangub.room.store.library import Written
from wisangub.room.store.messages import RowSaid
from wisangub.room.web.words import asked

from .people import person
from .test_compose import GOOD, confirmation
from .test_database import two_stores
from .visits import Bench, Visitor, Visitors, run

ADMINISTRATOR, OPERATOR = "administrator", "operator"


def test_words_are_found_however_they_are_spelled() -> None:
    words = ["darn it", "fool", "(x)"]
    assert forbidden_in(b"FOOLS [fl]RUSH[/fl] IN", words) is None and forbidden_in(b"ANY", []) is None
    assert forbidden_in(b"A FOOL", words) == (2, "fool") == forbidden_in(b"A F[jl3]OO[fo2]L", words)
    assert forbidden_in(b"A [hc46]OOL", words) == (2, "fool") and forbidden_in(b"AH(X)", words) == (2, "(x)")
    assert forbidden_in(b"NOW FO[nl]OL", words) == (4, "fool"), "a word goes on in the next line"
    assert forbidden_in(b"DARN[np]  IT, FOOL", words) == (0, "darn it"), "the first of two"
    assert forbidden_in(b"[hc246]FOOL", words) is None, "another letter stands before it"


def test_no_command_shows_a_forbidden_word(where: str) -> None:
    store, other, sign = two_stores(where)
    person(store.database, "me")
    rules.forbid(store.database, " Darn   it ", "boss")
    rules.forbid(other.database, "darn it", "boss")
    store.messages.keep([RowSaid(sign, 3, 7, -1, 4, json.dumps({"text": b"DARN IT".hex()}))])
    line = f"publish 3 1 {b'[fo2]DARN[nl]IT'.hex()} - 0 0 100 65535 100 192.0.2.1"
    for wrong in (line, "activate ffff64030007000ac0000201"):
        with pytest.raises(Refusal, match="“darn it” may not be shown"):
            store.commands.ask(sign, "me", wrong)
        with pytest.raises(Refusal, match="may not be shown"):
            store.commands.ask_all([(sign, "blank 1 65535 9 192.0.2.1"), (sign, wrong)], "me", "what", "x")
    assert store.database.run("SELECT count(*) FROM commands") == [(0,)], "all of it, or nothing"
    for right in ("activate ffff64030008000ac0000201", "activate ff", "publish 3 1", "publish 3 1 xx", "restart"):
        store.commands.ask(sign, "me", right)
    rules.allow(store.database, "darn it", "boss")
    store.commands.ask(sign, "me", line)
    said = [what for _, _, who, what in history.audit(store.database, None) if who == "boss"]
    assert said == ["“darn it” may be shown again", "“darn it” may not be shown"], "once each"


def test_a_purpose_out_of_its_range_is_refused(where: str) -> None:
    store, _, _ = two_stores(where)
    held = store.database
    names = [one.name for one in rules.purposes(held)]
    assert names == ["accident", "danger", "road work", "information"], "an accident above road work"
    rules.add_purpose(held, "event", 60, 9, "boss")
    event = next(one for one in rules.purposes(held) if one.name == "event")
    rules.change_purpose(held, event.id, "fair", 61, 8, "boss")
    assert rules.purpose(held, event.id) == rules.Purpose(event.id, "fair", 61, 8)
    for name, priority, number in (
        ("fair", 9, 9),
        ("x", 255, 1),
        ("x", 0, 1),
        ("x", 9, 0),
        ("\n", 9, 9),
        ("x" * 65, 9, 9),
    ):
        with pytest.raises(Refusal):
            rules.add_purpose(held, name, priority, number, "boss")
    with pytest.raises(Refusal, match="already"):
        rules.change_purpose(held, event.id, "danger", 9, 9, "boss")
    library.add(held, Written("", "fair", b"FAIR", event.id), "me")
    with pytest.raises(Refusal, match="give them another purpose"):
        rules.remove_purpose(held, event.id, "boss")
    rules.remove_purpose(held, rules.purposes(held)[0].id, "boss")
    assert [one.name for one in rules.purposes(held)] == ["danger", "road work", "fair", "information"]
    with pytest.raises(Refusal, match="no such purpose"):
        rules.change_purpose(held, 999, "x", 9, 9, "boss")


def test_an_approval_is_of_a_text_as_it_was_seen(where: str) -> None:
    store, other, _ = two_stores(where)
    held, purpose = store.database, rules.purposes(store.database)[0].id
    number = library.add(held, Written(" Weather ", " Fog  ahead ", b"FOG", purpose), "me")
    with pytest.raises(Refusal, match="already"):
        library.add(held, Written("Weather", "Fog ahead", b"FOG", purpose), "me")
    with pytest.raises(Refusal, match="no such purpose"):
        library.add(held, Written("", "x", b"FOG", 999), "me")
    library.approve(held, number, b"FOG", "kind", "boss")
    library.approve(other.database, number, b"FOG", "kind", "boss")
    text = library.found(held, number)
    assert text is not None and text.called == "Weather / Fog ahead" and text.kinds == {"kind"}
    assert library.kinds_of(held, b"FOG") == {"kind"} and library.kinds_of(held, b"fog") == set()
    with pytest.raises(Refusal, match="an administrator changes it"):
        library.change(held, number, Written("", "x", b"ICE", purpose), "me", False)
    with pytest.raises(Refusal, match="an administrator changes it"):
        library.remove(held, number, "me", False)
    library.change(held, number, Written("", "ice", b"ICE", purpose), "boss", True)
    assert library.kinds_of(held, b"FOG") == set() == library.kinds_of(held, b"ICE")
    with pytest.raises(Refusal, match="changed meanwhile"):
        library.approve(held, number, b"FOG", "kind", "boss")
    rules.forbid(held, "ice", "boss")
    with pytest.raises(Refusal, match="may not be shown"):
        library.approve(held, number, b"ICE", "kind", "boss")
    library.remove(held, number, "me", False)
    with pytest.raises(Refusal, match="no such text"):
        library.remove(held, number, "me", True)
    assert library.listed(held) == [] and len(history.audit(held, None)) == 5


async def written(one: Visitor, **fields: str) -> int:
    """Writes a text by the page: its number."""
    status, page, then = await one.post("/library", {"folder": "Weather", "name": "Fog", "text": "FOG", **fields})
    assert status == 303, page
    return int(then.rpartition("/")[2])


def test_a_text_is_written_approved_and_used(tmp_path: pathlib.Path, where: str) -> None:
    async def act(bench: Bench, visitor: Visitors) -> None:
        held = bench.store.database
        one, boss, reader = [await bench.logged_in(visitor, name) for name in (OPERATOR, ADMINISTRATOR, "reader")]
        accident = rules.purposes(held)[0]
        number = await written(one, text="ICE\nAHEAD", purpose=str(accident.id))
        page = (await one.get(f"/library/{number}"))[1]
        assert page.count("not approved") == 2 and "Approve<" not in page and "ICE[nl]AHEAD" in page
        assert "Use it" in page and "Use it" not in (await reader.get(f"/library/{number}"))[1]
        roadside, gantry = (bench.service.faces[row].key for row in (bench.one, bench.gantry))
        shown = b"ICE[nl]AHEAD".hex()
        approval = {"kind": roadside, "shown": shown, "do": "approve"}
        assert (await one.post(f"/library/{number}/approve", approval))[0] == 403
        for wrong in ({"kind": "x"}, {"shown": b"ICE".hex()}, {"shown": "x"}):
            assert (await boss.post(f"/library/{number}/approve", {**approval, **wrong}))[0] == 422
        assert (await boss.post(f"/library/{number}/approve", approval))[0] == 303
        assert "ICE / AHEAD" in (await one.get(f"/compose?sign={bench.one}"))[1]
        assert "ICE / AHEAD" not in (await one.get(f"/compose?sign={bench.one}&sign={bench.gantry}"))[1], "not of both"
        page = (await one.get(f"/compose?sign={bench.one}&text={number}"))[1]
        assert (
            ">ICE[nl]AHEAD</textarea>" in page and 'value="200"' in page and "accident, priority 200</option>" in page
        )
        assert re.search(r'name="number" [^>]*value="2"', page) and f'value="{accident.id}"' in page
        fields = [("sign", str(bench.one)), ("text", "ICE[nl]AHEAD"), ("purpose", str(accident.id)), ("number", "99")]
        confirmed = await confirmation(one, fields)
        assert {("number", "2"), ("run", "200"), ("priority", "200"), ("memory", "3")} <= set(confirmed)
        assert '<span class="tag good">approved</span>' in (await one.post("/compose", fields))[1]
        both = (await one.post("/compose", [*fields, ("sign", str(bench.gantry))]))[1]
        assert "not an approved text for gantry" in both
        assert (await one.post("/send", confirmed))[0] == 303
        line = asked(queries.commands(held, queries.Wanted(most=1))[0].line)
        assert (line.number, line.run, line.priority) == (2, 200, 200)
        assert (await one.post(f"/library/{number}", {"do": "remove"}))[0] == 422, "it is approved"
        assert (await boss.post(f"/library/{number}/approve", {**approval, "do": "withdraw"}))[0] == 303
        changed = {"do": "change", "folder": "", "name": "Ice", "text": "ICE", "purpose": str(accident.id)}
        assert (await one.post(f"/library/{number}", changed))[0] == 303
        assert (await one.post(f"/library/{number}", {"do": "remove"}))[2] == "/library"
        assert (await one.get(f"/library/{number}"))[0] == 404 == (await one.get(f"/compose?text={number}"))[0]

    run(tmp_path, where, act)


def test_what_a_page_showed_is_written_anew_alone(tmp_path: pathlib.Path, where: str) -> None:
    """What somebody else wrote meanwhile is not lost, and what was written here stays in the form."""

    async def act(bench: Bench, visitor: Visitors) -> None:
        one, other = await bench.logged_in(visitor, OPERATOR), await bench.logged_in(visitor, ADMINISTRATOR)
        number = await written(one, purpose=(purpose := str(rules.purposes(bench.store.database)[0].id)))
        path, held = f"/library/{number}", bench.store.database

        def shown(page: str) -> str:
            found = re.search(r'name="shown" value="([0-9a-f]{64})"', page)
            assert found is not None
            return found[1]

        mine = {"do": "change", "folder": "", "name": "Mine", "text": "MINE", "purpose": purpose}
        before = shown((await one.get(path))[1])
        assert (await other.post(path, {**mine, "name": "Other", "text": "OTHER", "shown": before}))[0] == 303
        for fields in ({**mine, "shown": before}, {"do": "remove", "shown": before}):
            status, page, _ = await one.post(path, fields)
            assert status == 422 and "changed meanwhile" in page and "<h1>Other</h1>" in page
            assert (">MINE</textarea>" in page) == (fields["do"] == "change")
        text = library.found(held, number)
        assert text is not None and (text.name, text.text) == ("Other", b"OTHER")
        assert (await one.post(path, {**mine, "shown": shown(page)}))[0] == 303
        rules.forbid(held, "ice", "boss")
        status, page, _ = await one.post(path, {**mine, "text": "MINE ICE", "shown": shown((await one.get(path))[1])})
        assert status == 422 and "“ice” may not be shown" in page and ">MINE ICE</textarea>" in page
        fields = {"do": "remove", "shown": shown(page)}
        assert (await one.post(path, fields))[2] == "/library" and library.found(held, number) is None

    run(tmp_path, where, act)


def test_a_text_that_does_not_fit_is_not_approved(tmp_path: pathlib.Path) -> None:
    async def act(bench: Bench, visitor: Visitors) -> None:
        boss = await bench.logged_in(visitor, ADMINISTRATOR)
        purpose = str(rules.purposes(bench.store.database)[0].id)
        number = await written(boss, text="A TEXT THAT IS TOO WIDE", purpose=purpose)
        page = (await boss.get(f"/library/{number}"))[1]
        assert "there is no room for this on the sign" in page and page.count(">Approve<") == 1
        for row, status in ((bench.one, 422), (bench.gantry, 303)):
            fields = {"kind": bench.service.faces[row].key, "shown": b"A TEXT THAT IS TOO WIDE".hex(), "do": "approve"}
            assert (await boss.post(f"/library/{number}/approve", fields))[0] == status
        for wrong in ({"name": ""}, {"text": ""}, {"text": "€"}, {"text": "x" * 513}, {"purpose": "x"}):
            fields = {"folder": "", "name": "x", "text": "x", "purpose": purpose, **wrong}
            assert (await boss.post("/library", fields))[0] == 422, wrong

    run(tmp_path, str(tmp_path / "database"), act)


def test_the_page_of_the_rules(tmp_path: pathlib.Path, where: str) -> None:
    async def act(bench: Bench, visitor: Visitors) -> None:
        boss, one = [await bench.logged_in(visitor, name) for name in (ADMINISTRATOR, OPERATOR)]
        assert (await one.get("/rules"))[0] == 403
        row = str(rules.purposes(bench.store.database)[0].id)
        for status, fields in (
            (200, {"do": "add", "name": "event", "priority": "40", "number": "5"}),
            (422, {"do": "add", "name": "event", "priority": "40", "number": "5"}),
            (422, {"do": "add", "name": "more", "priority": "255", "number": "5"}),
            (200, {"do": "change", "row": row, "name": "crash", "priority": "210", "number": "6"}),
            (422, {"do": "change", "row": row, "name": "crash", "priority": "x", "number": "6"}),
            (200, {"do": "forbid", "word": "<fool>"}),
            (422, {"do": "forbid", "word": " "}),
            (422, {"do": "x"}),
        ):
            assert (await boss.post("/rules", fields))[0] == status, fields
        page = (await boss.get("/rules"))[1]
        assert "crash" in page and "event" in page and "&lt;fool&gt;" in page and "accident" not in page
        assert (await boss.post("/rules", {"do": "allow", "word": "<fool>"}))[0] == 200
        assert (await boss.post("/rules", {"do": "remove", "row": row}))[0] == 200
        assert "None." in (await boss.get("/rules"))[1]

    run(tmp_path, where, act)


def test_a_forbidden_word_is_refused_at_its_place(tmp_path: pathlib.Path) -> None:
    async def act(bench: Bench, visitor: Visitors) -> None:
        one = await bench.logged_in(visitor, OPERATOR)
        confirmed = await confirmation(one, [("sign", str(bench.one)), *{**GOOD, "text": "BIG FOG"}.items()])
        bench.table(bench.one)
        rules.forbid(bench.store.database, "fog", "boss")
        status, page, _ = await one.post("/compose", {**GOOD, "sign": str(bench.one), "text": "BIG FOG"})
        assert status == 422 and "At character 5: " in page and "“fog” may not be shown" in page
        assert (await one.post("/send", confirmed))[0] == 422, "it was forbidden since it was confirmed"
        page = (await one.get(f"/show?sign={bench.one}&memory=3&number=1"))[1]
        fields = dict(re.findall(r'<input type="hidden" name="(\w+)" value="([^"]*)">', page[page.index("/send") :]))
        status, said, _ = await one.post("/send", {**fields, "priority": "9", "lasts": "forever"})
        assert status == 422 and "Nothing was done: “fog” may not be shown." in said
        assert queries.commands(bench.store.database, queries.Wanted()) == []

    run(tmp_path, str(tmp_path / "database"), act)


def test_the_greatest_priority_is_warned_of(tmp_path: pathlib.Path) -> None:
    async def act(bench: Bench, visitor: Visitors) -> None:
        one = await bench.logged_in(visitor, OPERATOR)
        good = {**GOOD, "sign": str(bench.one)}
        assert "Priority 255" not in (await one.post("/compose", good))[1]
        assert "nothing takes this text away again" in (await one.post("/compose", {**good, "run": "255"}))[1]
        assert "an accident's text too" in (await one.post("/compose", {**good, "priority": "255"}))[1].replace(
            "&#39;", "'"
        )
        for shown, wanted in ((None, 254), (120, 120), (255, 255)):
            if shown is not None:
                bench.read(bench.one, number=-shown, priority=shown)
            page = (await one.get(f"/blank?sign={bench.one}"))[1]
            assert f'value="{wanted}"' in page and ("Priority 255" in page) == (wanted == 255), shown
        bench.table(bench.one, priority=90)
        assert 'value="90"' in (await one.get(f"/show?sign={bench.one}&memory=3&number=1"))[1], "that of the row"

    run(tmp_path, str(tmp_path / "database"), act)
