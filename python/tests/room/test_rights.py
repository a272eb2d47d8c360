"""Groups and rights: who may see and command which sign, in the store and on each page."""

import asyncio
import json
import pathlib
import re

import pytest

from . import needs

needs.modules("aiohttp", "jinja2")

from wisangub.refusal import Refusal
from wisangub.room.store import alarms, database, groups, history, library, plans, rights, rules, tokens
from wisangub.room.store.library import Written
from wisangub.room.store.messages import RowSaid
from wisangub.room.store.rights import Level, Rights
from wisangub.room.store.store import Store
from wisangub.room.store.users import Role
from wisangub.room.web import events

from .people import person
from .test_compose import GOOD, confirmation
from .test_database import BLANK, OTHER, SIGN, two_stores
from .test_events import listened, told
from .test_library import written
from .visits import Bench, Visitor, Visitors, run

BEFORE = 27  # the last migration of a database in which a role was all that a user had
NO_BUTTON = r'href="/compose|="/blank|Withdraw|Acknowledge<|type="checkbox"|"may-command|Set the brightness'
FOG, ICE = b"FOG".hex(), b"ICE".hex()


def publish(text: str, run_priority: int = 100, priority: int = 100) -> str:
    return f"publish 3 1 {text} - 0 0 {run_priority} 65535 {priority} 192.0.2.1"


def test_a_user_of_before_may_what_he_might(nowhere: str) -> None:
    made = database.connected(nowhere)
    database.migrate(made, [one for one in database.migrations() if one[0] <= BEFORE])
    for role in Role:
        made.run("INSERT INTO users (name, role, secret) VALUES (?, ?, '-')", role.word, role.word)
    made.close()
    store = Store(database.opened(nowhere))
    (sign,) = store.signs.enter([SIGN])
    levels = {role: rights.of_user(store.database, role.word).level(sign) for role in Role}
    assert levels == {Role.READER: 1, Role.OPERATOR: 3, Role.ADMINISTRATOR: 3}
    assert rights.of_user(store.database, "nobody") == Rights()
    store.commands.ask_all([(sign, BLANK)], "operator", "what", "x")
    for name, of in (("reader", "one"), ("nobody", "a sign")):
        with pytest.raises(Refusal, match=f"^{of}: {name} may not command it"):
            store.commands.ask_all([(sign, BLANK)], name, "what", "y")


def test_what_a_group_gives(where: str) -> None:
    store, _, one = two_stores(where)
    held = store.database
    other = next(row for row in store.signs.enter([SIGN, OTHER]) if row != one)
    person(held, "me", level=Level.NOTHING)
    person(held, "boss", Role.ADMINISTRATOR, Level.NOTHING)
    route, region = groups.add(held, "B 300", "route", "boss"), groups.add(held, "North", "region", "boss")
    both = frozenset([one, other])
    groups.change_signs(held, route, frozenset([one]), both, "boss")
    groups.change_signs(held, region, both, both, "boss")

    def levels() -> list[int]:
        found = rights.of_user(held, "me")
        return [found.level(one), found.level(other)]

    assert levels() == [0, 0] and not rights.of_user(held, "me").commands_some
    groups.give(held, region, "me", Level.SEE, "boss")
    assert levels() == [1, 1] and not rights.of_user(held, "me").commands_some
    groups.give(held, route, "me", Level.PUBLISH, "boss")
    assert levels() == [3, 1], "the most of its groups"
    assert rights.of_user(held, "boss").level(other) == 3 and rights.of_user(held, "boss").sees_all
    groups.change_signs(held, route, frozenset([other, 999]), frozenset([other]), "boss")
    assert levels() == [3, 3], "signs of another fleet stay"
    groups.give(held, route, "me", Level.NOTHING, "boss")
    assert levels() == [1, 1]
    assert groups.names_of_signs(held) == {one: ["B 300", "North"], other: ["B 300", "North"]}
    groups.remove(held, region, "boss")
    assert levels() == [0, 0]
    (every,) = [group.id for group in groups.listed(held) if group.has_all]
    for wrong in (every, 999):
        with pytest.raises(Refusal, match="no such group"):
            groups.remove(held, wrong, "boss")
        with pytest.raises(Refusal, match="no such group"):
            groups.change_signs(held, wrong, both, both, "boss")
    for name, kind in (("B 300", "route"), ("x", "all"), ("", "route")):
        with pytest.raises(Refusal):
            groups.add(held, name, kind, "boss")
    with pytest.raises(Refusal, match="no user"):
        groups.give(held, every, "nobody", Level.SEE, "boss")
    held.run("UPDATE users SET disabled = 1 WHERE name = 'boss'")
    assert rights.of_user(held, "boss") == Rights()
    assert "user me may in group B 300: any text" in [what for _, _, _, what in history.audit(held, None)]


def test_approved_texts_alone(where: str) -> None:
    store, _, sign = two_stores(where)
    held = store.database
    person(held, "me", level=Level.APPROVED)
    road_work = next(one for one in rules.purposes(held) if one.priority == 100)
    for name, kind in (("fog", SIGN.kind), ("ice", "another")):
        number = library.add(held, Written("", name, name.upper().encode(), road_work.id), "boss")
        library.approve(held, number, name.upper().encode(), kind, "boss")
    rows = [(3, 7, FOG), (3, 8, ICE), (2, 1, ICE)]
    store.messages.keep(
        [
            RowSaid(sign, memory, number, -at, 4, json.dumps({"text": text}))
            for at, (memory, number, text) in enumerate(rows, 1)
        ]
    )
    code = "activate ffff{:02x}{:02x}{:04x}9a66c0000201"
    right = [
        publish(FOG),
        publish(FOG, 90, 80),
        BLANK.replace("255", "200"),
        code.format(100, 3, 7),
        code.format(9, 2, 1),
    ]
    wrong = [publish(ICE), publish("-"), publish(FOG, 101), publish(FOG, 9, 101), BLANK, code.format(255, 3, 7)]
    wrong += [code.format(9, 3, 8), code.format(9, 3, 9), "restart", "publish", "blank", "activate x"]
    for at, line in enumerate(right):
        store.commands.ask_all([(sign, line)], "me", "what", f"right {at}")
    for at, line in enumerate(wrong):
        with pytest.raises(Refusal, match="one: me may not show more than approved texts"):
            store.commands.ask_all([(sign, line)], "me", "what", f"wrong {at}")
    assert held.run("SELECT count(*) FROM commands") == [(len(right),)] == held.run("SELECT count(*) FROM batches")


def test_withdrawing_and_acknowledging(where: str) -> None:
    store, _, sign = two_stores(where)
    person(store.database, "me")
    person(store.database, "other", level=Level.SEE)
    command = store.commands.ask(sign, "me", BLANK)
    store.database.run("INSERT INTO alarms (sign, kind, what, begun) VALUES (?, 'silent', 'x', 1)", sign)
    (number,) = [int(row[0] or 0) for row in store.database.run("SELECT id FROM alarms")]
    for name, of in (("other", "one"), ("nobody", "a sign")):
        with pytest.raises(Refusal, match=f"^{of}: {name} may not do this"):
            store.commands.withdraw(command, name)
        with pytest.raises(Refusal, match=f"^{of}: {name} may not do this"):
            alarms.see(store.database, number, name)
    assert store.commands.withdraw(command, "me") and alarms.see(store.database, number, "me")


def narrowed(bench: Bench, name: str, level: Level, *signs: int) -> int:
    """A user who may something on these signs, and nothing on others: the group."""
    held = bench.store.database
    group = groups.add(held, f"group of {name}", "group", "administrator")
    groups.change_signs(held, group, frozenset(signs), frozenset(bench.service.signs), "administrator")
    groups.give(held, group, name, level, "administrator")
    groups.give(held, groups.listed(held)[0].id, name, Level.NOTHING, "administrator")
    return group


STRANGE = (
    "/signs/{gantry}",
    "/signs/{gantry}/table",
    "/signs/{gantry}/ledger",
    "/signs/{gantry}/shown",
    "/signs/{gantry}/shown.csv",
    "/signs/{gantry}/log",
)


async def _hides(bench: Bench, one: Visitor) -> None:
    """No page says that there is a gantry."""
    for path in STRANGE:
        assert (await one.get(path.format(gantry=bench.gantry)))[0] == 404, path
    assert (await one.post(f"/signs/{bench.gantry}/table", {}))[0] == 404
    for view in (f"sign/{bench.gantry}", f"table/{bench.gantry}"):
        assert (await one.get(f"/events?view={view}"))[0] == 404, view
    for path in ("/", "/history", f"/history?sign={bench.gantry}", "/alarms", "/alarms.csv", "/library", "/library/1"):
        status, page = await one.get(path)
        assert status == 200 and "gantry" not in page and "GANTRY" not in page, path
    stream = await listened(one, "wall")
    assert set(await told(stream)) == {"counts", f"sign-{bench.one}"}
    stream.close()


def test_a_sign_that_is_not_one_s_own_is_nowhere(tmp_path: pathlib.Path, where: str) -> None:
    async def act(bench: Bench, visitor: Visitors) -> None:
        boss, reader, one = [
            await bench.logged_in(visitor, role.word) for role in (Role.ADMINISTRATOR, Role.READER, Role.OPERATOR)
        ]
        narrowed(bench, "reader", Level.SEE, bench.one)
        narrowed(bench, "operator", Level.PUBLISH, bench.one)
        for row in (bench.one, bench.gantry):
            bench.read(row, text=b"[fo2]GANTRY".hex() if row == bench.gantry else FOG)
            bench.store.alarms.look()
            bench.store.database.run("UPDATE alarm_looks SET at = 0")
        await written(boss, text="ICE", purpose="1")
        confirmed = await confirmation(boss, [("sign", str(bench.gantry)), *{**GOOD, "text": "GANTRY"}.items()])
        assert (await boss.post("/send", confirmed))[2] == "/batches/1"
        for who in (reader, one):
            await _hides(bench, who)
            assert (await who.get("/batches/1"))[0] == 404
        assert (await reader.get(f"/signs/{bench.one}"))[0] == 200
        page = (await one.get("/compose"))[1]
        assert f'value="{bench.one}"' in page and f'name="sign" value="{bench.gantry}"' not in page
        assert "GANTRY" not in (await one.get("/compose?again=1"))[1]
        assert (await one.get(f"/blank?sign={bench.gantry}"))[0] == 400
        assert (await one.get(f"/show?sign={bench.gantry}&memory=3&number=1"))[0] == 400
        assert (await one.post("/compose", {**GOOD, "sign": str(bench.gantry)}))[0] == 422
        both = {**GOOD, "sign": str(bench.gantry), "kind": "publish", "confirmation": "x" * 24}
        assert (await one.post("/send", both))[0] == 422
        bench.itself(bench.gantry)
        assert (await one.get(f"/signs/{bench.gantry}/brightness?control=4&level=3"))[0] == 404
        assert (await one.post(f"/signs/{bench.gantry}/brightness", {"control": "4", "level": "3"}))[0] == 404
        answer = await one.client.post(
            "/look", json={"signs": [bench.gantry], "text": "A"}, headers={"X-Token": await one.token()}
        )
        assert (await answer.json())["looks"] == []
        assert (await one.post("/send", confirmed))[0] == 422
        asked = [f"/alarms/{row[0]}/acknowledge" for row in alarm_rows(bench, bench.gantry)]
        assert asked
        for path in ("/commands/1/withdraw", *asked):
            status, page, _ = await one.post(path, {})
            assert status == 404 and "gantry" not in page and "GANTRY" not in page, path
        assert (await boss.get("/"))[1].count('<li class="card') == 3, "an administrator sees all"

    run(tmp_path, where, act)


def test_what_a_plan_asked_names_it_to_who_may_see_it_alone(tmp_path: pathlib.Path, where: str) -> None:
    """Who sees some of its signs sees what was asked of these, and not the name, which may say what another is for."""

    async def act(bench: Bench, visitor: Visitors) -> None:
        held, secret = bench.store.database, "CONVOY by the gantry"
        narrowed(bench, "reader", Level.SEE, bench.one)
        number = plans.keep(held, secret, [(bench.one, publish(FOG)), (bench.gantry, publish(FOG))], "administrator")
        begun = plans.begin(held, number, "administrator").batch
        headers = {
            name: {"Authorization": f"Bearer {tokens.add(held, 'map', name, True, 1, name)}"}
            for name in ("reader", "operator")
        }
        narrow, wide = [await bench.logged_in(visitor, name) for name in headers]

        async def titles(batch: object) -> list[str]:
            pages = [(await one.get(f"/batches/{batch}"))[1] for one in (narrow, wide)]
            for name in headers:
                pages.append(await (await visitor().answered(f"/api/1/batches/{batch}", headers=headers[name])).text())
            for page in (pages[0], pages[2]):
                assert "CONVOY" not in page and "convoy" not in page and "gantry" not in page
            return [page[page.index("<h1>") + 4 : page.index("</h1>")] for page in pages[:2]] + [
                json.loads(page)["what"] for page in pages[2:]
            ]

        assert await titles(begun) == [
            *("A plan begins", f"Plan {secret} begins"),
            *("a plan begins", f"plan {secret} begins"),
        ]
        held.run("UPDATE commands SET line_number = 1, outcome = 'accepted' WHERE sign = ?", bench.one)
        plans.end(held, number, "administrator")
        (ended,) = held.run("SELECT max(id) FROM batches")[0]
        assert (await titles(ended))[2] == "a plan ends", "though all that it asked for is of a sign that may be seen"

    run(tmp_path, where, act)


def test_alarms_of_other_signs_hide_no_alarm_that_may_be_seen(tmp_path: pathlib.Path, where: str) -> None:
    """However many there are, and each is newer."""

    async def act(bench: Bench, visitor: Visitors) -> None:
        narrowed(bench, "reader", Level.SEE, bench.one)
        narrowed(bench, "operator", Level.SEE)
        sql = "INSERT INTO alarms (sign, kind, what, begun, ended) VALUES (?, 'silent', 'no reply', {clock}, {clock})"
        with bench.store.database.transaction():
            bench.store.database.run_all(sql, [(sign,) for sign in [bench.one, *[bench.gantry] * 250]])
        for name, count in (("reader", 1), ("operator", 0), ("administrator", 200)):
            page = (await (await bench.logged_in(visitor, name)).get("/alarms"))[1]
            assert page.count("no reply") == count, name
            headers = {"Authorization": f"Bearer {tokens.add(bench.store.database, 'map', name, True, 1, name)}"}
            held = json.loads(await (await visitor().answered("/api/1/alarms", headers=headers)).text())
            assert len(held["alarms"]) == count, name

    run(tmp_path, where, act)


def alarm_rows(bench: Bench, sign: int) -> list[tuple[object, ...]]:
    return [tuple(row) for row in bench.store.database.run("SELECT id FROM alarms WHERE sign = ?", sign)]


def test_no_button_without_a_right(tmp_path: pathlib.Path) -> None:
    async def act(bench: Bench, visitor: Visitors) -> None:
        group = narrowed(bench, "operator", Level.SEE, bench.one, bench.gantry)
        for row in (bench.one, bench.gantry):
            bench.read(row)
            bench.itself(row, shortErrorStatus=0)
        bench.store.commands.ask(bench.one, "boss", BLANK)
        bench.store.alarms.look()
        one = await bench.logged_in(visitor, "operator")
        for path in ("/", f"/signs/{bench.one}", "/history", "/alarms"):
            page = (await one.get(path))[1]
            assert not re.search(NO_BUTTON, page), path
        assert (await one.get("/compose"))[0] == 403 and "no sign that you may command" in (await one.get("/compose"))[
            1
        ]
        (alarm,) = bench.store.database.run("SELECT min(id) FROM alarms")[0]
        assert (await one.post(f"/alarms/{alarm}/acknowledge", {}))[0] == 403
        other = groups.add(bench.store.database, "B 300", "route", "boss")
        groups.change_signs(bench.store.database, other, frozenset([bench.one]), frozenset([bench.one]), "boss")
        groups.give(bench.store.database, other, "operator", Level.PUBLISH, "boss")
        page = (await one.get("/"))[1]
        assert page.count('type="checkbox"') == 1 and "B 300" in page and 'href="/compose"' in page
        assert "Blank" in (await one.get(f"/signs/{bench.one}"))[1]
        assert "Blank" not in (await one.get(f"/signs/{bench.gantry}"))[1]
        assert "Set the brightness" in (await one.get(f"/signs/{bench.one}"))[1]
        assert "Set the brightness" not in (await one.get(f"/signs/{bench.gantry}"))[1]
        assert (await one.get(f"/signs/{bench.gantry}/brightness?control=4&level=3"))[0] == 403
        assert (await one.post(f"/signs/{bench.gantry}/brightness", {"control": "4", "level": "3"}))[0] == 403
        assert "Withdraw" in (await one.get("/history"))[1]
        assert (await one.get("/alarms"))[1].count("Acknowledge<") == 1
        groups.remove(bench.store.database, group, "boss")
        assert (await one.get(f"/signs/{bench.gantry}"))[0] == 404, "it counts at once"

    run(tmp_path, str(tmp_path / "database"), act)


def test_a_stream_ends_where_rights_change(tmp_path: pathlib.Path, monkeypatch: pytest.MonkeyPatch) -> None:
    monkeypatch.setattr(events, "SILENCE", 0.3)

    async def act(bench: Bench, visitor: Visitors) -> None:
        one = await bench.logged_in(visitor, "reader")
        stream = await listened(one, "wall")
        assert len(await told(stream)) == 4
        narrowed(bench, "reader", Level.SEE, bench.one)
        await asyncio.wait_for(stream.content.read(), 20)
        stream = await listened(one, "wall")
        assert set(await told(stream)) == {"counts", f"sign-{bench.one}"}
        stream.close()

    run(tmp_path, str(tmp_path / "database"), act)


def test_the_signs_that_a_page_showed_are_changed_alone(tmp_path: pathlib.Path, where: str) -> None:
    """A sign that another administrator put into a group, or took out, is not the other way again."""

    async def act(bench: Bench, visitor: Visitors) -> None:
        held, boss = bench.store.database, await bench.logged_in(visitor, "administrator")
        number = groups.add(held, "A 9", "route", "boss")
        known = frozenset(bench.service.signs)

        def signs() -> frozenset[int]:
            return next(one.signs for one in groups.listed(held) if one.id == number)

        async def shown() -> tuple[str, str]:
            found = re.search(r'name="shown" value="([0-9a-f]{64})"', (await boss.get(f"/groups/{number}"))[1])
            assert found is not None
            return "shown", found[1]

        before = await shown()
        groups.change_signs(held, number, frozenset([bench.one]), known, "another")
        fields = [("do", "signs"), ("sign", str(bench.gantry))]
        status, page, _ = await boss.post(f"/groups/{number}", [*fields, before])
        assert status == 422 and "changed meanwhile" in page and signs() == {bench.one}
        assert page.count(" checked>") == 1 and before[1] not in page, "as it is now"
        assert (await boss.post(f"/groups/{number}", [*fields, await shown()]))[0] == 200
        assert signs() == {bench.gantry}

    run(tmp_path, where, act)


def test_the_pages_of_groups(tmp_path: pathlib.Path, where: str) -> None:
    async def act(bench: Bench, visitor: Visitors) -> None:
        boss, one = [await bench.logged_in(visitor, name) for name in ("administrator", "operator")]
        status, _, then = await boss.post("/groups", {"name": "A <9>", "kind": "route"})
        assert status == 303 and (await boss.post("/groups", {"name": "A <9>", "kind": "route"}))[0] == 422
        fields = [("do", "signs"), ("sign", str(bench.gantry)), ("sign", "999")]
        assert "The group has these signs" in (await boss.post(then, fields))[1]
        right = {"do": "right", "name": "operator", "level": "2"}
        assert (await boss.post(then, right))[0] == 200
        for wrong in ({**right, "level": "9"}, {**right, "level": "x"}, {**right, "name": "nobody"}, {"do": "x"}):
            assert (await boss.post(then, wrong))[0] == 422, wrong
        page = (await boss.get("/groups"))[1]
        assert "A &lt;9&gt;" in page and "operator: approved texts" in page and "every sign" in page
        assert "A &lt;9&gt;" in (await one.get("/"))[1], "signs are found by their groups"
        assert (await boss.post(then, {"do": "remove"}))[2] == "/groups" and (await boss.get(then))[0] == 404
        assert (await boss.post(groups_all(bench), {"do": "remove"}))[0] == 422

    run(tmp_path, where, act)


def groups_all(bench: Bench) -> str:
    """The page of the group of all signs."""
    return f"/groups/{groups.listed(bench.store.database)[0].id}"
