"""Every page for every role: who may, what is escaped, and what stands nowhere."""

import pathlib
import re
from dataclasses import replace

from . import needs

needs.modules("aiohttp", "jinja2")

from wisangub.room.store import groups, history, library, plans, rules
from wisangub.room.store.library import Written
from wisangub.room.store.lines import Line
from wisangub.room.store.users import Role
from wisangub.room.times import Times
from wisangub.room.web.app import ROUTES
from wisangub.room.web.security import POLICY
from wisangub.room.web.words import Clock, age_word, audit_words, minutes_word
from wisangub.snmp import wire

from .visits import NAMES, READER, WRITER, Bench, Visitor, Visitors, run

PAGES = {
    "/": Role.READER,
    "/signs/{one}": Role.READER,
    "/signs/{one}/table": Role.READER,
    "/signs/{one}/brightness?control=4&level=3": Role.OPERATOR,
    "/signs/{one}/ledger": Role.READER,
    "/signs/{one}/shown": Role.READER,
    "/signs/{one}/log": Role.READER,
    "/history": Role.READER,
    "/history?outcome=open&who=operator&sign={one}": Role.READER,
    "/account": Role.READER,
    "/alarms": Role.READER,
    "/batches/1": Role.READER,
    "/library": Role.READER,
    "/library/1": Role.READER,
    "/plans": Role.READER,
    "/plans/1": Role.READER,
    "/compose": Role.OPERATOR,
    "/compose?sign={one}&sign={gantry}": Role.OPERATOR,
    "/compose?again=1": Role.OPERATOR,
    "/compose?sign={one}&text=1": Role.OPERATOR,
    "/blank?sign={one}&sign={two}": Role.OPERATOR,
    "/show?sign={one}&memory=3&number=1": Role.OPERATOR,
    "/users": Role.ADMINISTRATOR,
    "/groups": Role.ADMINISTRATOR,
    "/groups/1": Role.ADMINISTRATOR,
    "/groups/2": Role.ADMINISTRATOR,
    "/rules": Role.ADMINISTRATOR,
    "/audit": Role.ADMINISTRATOR,
    "/archives": Role.ADMINISTRATOR,
}
POSTS = {
    "/send": Role.OPERATOR,
    "/signs/1/brightness": Role.OPERATOR,
    "/compose": Role.OPERATOR,
    "/look": Role.OPERATOR,
    "/users": Role.ADMINISTRATOR,
    "/commands/1/withdraw": Role.OPERATOR,
    "/alarms/1/acknowledge": Role.OPERATOR,
    "/plans": Role.OPERATOR,
    "/plans/1": Role.OPERATOR,
    "/library": Role.OPERATOR,
    "/library/1": Role.OPERATOR,
    "/library/1/approve": Role.ADMINISTRATOR,
    "/groups": Role.ADMINISTRATOR,
    "/groups/1": Role.ADMINISTRATOR,
    "/rules": Role.ADMINISTRATOR,
}
MARKUP = "<script>alert('&')</script>"


def datagram(community: str, octets: bytes) -> str:
    """The line of a reply."""
    name = (1, 3, 6, 1, 4, 1, 1206, 4, 2, 3, 5, 8, 1, 4, 5, 1)
    message = wire.Message(wire.RESPONSE, community.encode(), 1, 0, 0, [(name, (wire.OCTETS, octets))])
    return "datagram " + wire.written(message).hex()


def filled(bench: Bench) -> None:
    """A room in which much has happened, with markup wherever a sign or a person may put it."""
    for row in (bench.one, bench.gantry):
        bench.read(row, text=MARKUP.encode().hex(), owner=MARKUP.encode().hex())
    bench.silent(bench.gantry)
    bench.table(bench.one)
    bench.itself(bench.one, sysName=MARKUP.encode().hex(), moduleMake=MARKUP.encode().hex())
    head = f"journal 1 centre rules 1 description {bench.service.signs[bench.one].digest} first 1"
    line = f"publish 3 1 {MARKUP.encode().hex()} {b'me'.hex()} 0 0 100 65535 255 192.0.2.1"
    command = bench.store.commands.ask(bench.one, "operator", line)
    broken = "datagram 30" + WRITER.encode().hex()
    lines = [
        head,
        line,
        datagram(WRITER, MARKUP.encode()),
        datagram(WRITER, WRITER.encode()),
        broken,
        "tick",
        "tick",
        "tick",
    ]
    for number, text in enumerate(lines, 1):
        bench.store.lines.insert(
            [Line(bench.one, number, text.encode(), command if number == 2 else None, number == 1)], "w"
        )
    bench.store.database.run(
        "INSERT INTO ledger (sign, number, code, outcome, at) VALUES (?, 7, ?, 'refused 5', {clock})",
        bench.one,
        "ffffff0300019a66c0000201",
    )
    bench.store.database.run(
        "INSERT INTO batches (confirmation, who, at, what) VALUES ('x', 'operator', {clock}, ?)", MARKUP
    )
    bench.store.database.run("INSERT INTO batch_commands (batch, command) VALUES (1, ?)", command)
    purpose = rules.purposes(bench.store.database)[0].id
    library.add(bench.store.database, Written("<i>Folder</i>", "<b>Name</b>", b"[fo2]FOG", purpose), "operator")
    library.approve(bench.store.database, 1, b"[fo2]FOG", bench.service.faces[bench.one].key, "administrator")
    plan = plans.keep(bench.store.database, "<b>Name of a plan</b>", [(bench.one, line)], "operator")
    times = Times.of("2020-01-01", "2099-01-01", "06", "20:00", "05:00", "Europe/Berlin")
    plans.add_schedule(bench.store.database, plan, times, "operator")
    group = groups.add(bench.store.database, "<b>Name of a group</b>", "route", "administrator")
    signs = frozenset([bench.one, bench.two])
    groups.change_signs(bench.store.database, group, signs, signs, "administrator")
    rules.forbid(bench.store.database, "<i>word</i>", "administrator")


def where_of(bench: Bench, path: str) -> str:
    return path.format(one=bench.one, two=bench.two, gantry=bench.gantry)


def test_every_page_for_every_role(tmp_path: pathlib.Path, where: str) -> None:
    async def act(bench: Bench, visitor: Visitors) -> None:
        filled(bench)
        for role in Role:
            one = await bench.logged_in(visitor, role.word)
            for path, least in PAGES.items():
                status, text = await one.get(where_of(bench, path))
                assert status == (200 if role >= least else 403), (role, path)
                if role < least:
                    assert f"This is for {least.word}s" in text
            for path, least in POSTS.items():
                if role < least:
                    assert (await one.post(path, {}))[0] == 403, (role, path)
        assert (await one.get("/signs/999"))[0] == 404 and (await one.get("/nothing"))[0] == 404
        assert (await one.get("/batches/999"))[0] == 404
        assert (await one.get(f"/show?sign={bench.two}&memory=3&number=1"))[0] == 404

    run(tmp_path, where, act)


def test_the_routes_are_those_that_are_tried() -> None:
    tried = {re.sub(r"\?.*", "", re.sub(r"\{\w+\}|\d+", "*", path)) for path in [*PAGES, *POSTS]}
    others = {"/login", "/logout", "/events", "/pictures/*/*.svg", "/signs/*/table", "/logins/*/end", "/account/factor"}
    others |= {"/account/tokens", "/health", "/metrics", "/archives/*", "/history.csv", "/audit.csv"}
    others |= {"/signs/*/shown.csv", "/alarms.csv"}
    found = {re.sub(r"\{\w+(:(?:[^{}]|\{[^{}]*\})*)?\}", "*", route.path) for route in ROUTES}
    assert found - others <= tried, found - others - tried


async def every_page(bench: Bench, one: Visitor) -> dict[str, str]:
    return {path: (await one.get(where_of(bench, path)))[1] for path in PAGES}


def test_texts_and_names_are_escaped(tmp_path: pathlib.Path) -> None:
    async def act(bench: Bench, visitor: Visitors) -> None:
        filled(bench)
        one = await bench.logged_in(visitor, "administrator")
        pages = await every_page(bench, one)
        for path, text in pages.items():
            assert not any(one in text for one in ("<script>alert", "<b>two", "<i>19", "<i>F", "<b>N", "<i>w")), path
            assert not re.search(r"<[^>]*\s(on\w+|style)=", text), path
            assert re.findall(r"<script(?! src=)", text) == [] and "<style" not in text, path
        assert "&lt;script&gt;alert(&#39;&amp;&#39;)" in pages["/signs/{one}"]
        assert "&lt;b&gt;two&lt;/b&gt;" in pages["/"] and "at &lt;i&gt;" in pages["/"]

    run(tmp_path, str(tmp_path / "database"), act)


def test_no_community_stands_anywhere(tmp_path: pathlib.Path, where: str) -> None:
    async def act(bench: Bench, visitor: Visitors) -> None:
        filled(bench)
        one = await bench.logged_in(visitor, "administrator")
        pages = await every_page(bench, one)
        assert "To the sign" in pages["/signs/{one}/log"] and "From the sign" in pages["/signs/{one}/log"]
        assert "octets that spell no message" in pages["/signs/{one}/log"]
        events = await one.client.get(f"/events?view=sign/{bench.one}")
        await events.content.readuntil(b"data: ")
        pages["events"] = (await events.content.readline()).decode()
        events.close()
        pages["audit"] = str(history.audit(bench.store.database, None))
        for path, text in pages.items():
            for word in (READER, WRITER, READER.encode().hex(), WRITER.encode().hex()):
                assert word not in text, (path, word)
            assert bench.service.signs[bench.one].digest not in text, "the digest of what holds the communities"
        held = str(bench.store.database.run("SELECT line FROM lines"))
        assert WRITER.encode().hex() in held, "lines do hold it"

    run(tmp_path, where, act)


def test_the_log_of_another_description_tells_nothing_that_was_not_sent(tmp_path: pathlib.Path) -> None:
    async def act(bench: Bench, visitor: Visitors) -> None:
        filled(bench)
        one = await bench.logged_in(visitor, "administrator")
        path, sign = f"/signs/{bench.one}/log", bench.service.signs[bench.one]
        before = (await one.get(path))[1]
        assert "To the sign" in before and "is not told" not in before
        bench.service.signs[bench.one] = replace(sign, text=sign.text.replace(b"communities ", b"communities x"))
        after = (await one.get(path))[1]
        assert "To the sign" not in after and "From the sign" in after and "is not told" in after

    run(tmp_path, str(tmp_path / "database"), act)


def test_headers_of_every_answer(tmp_path: pathlib.Path) -> None:
    async def act(bench: Bench, visitor: Visitors) -> None:
        filled(bench)
        one = await bench.logged_in(visitor, "administrator")
        paths = [where_of(bench, path) for path in PAGES] + ["/login", "/nothing", "/static/room.css"]
        for path in paths:
            headers = (await one.answered(path)).headers
            assert headers["Content-Security-Policy"] == POLICY and headers["X-Content-Type-Options"] == "nosniff"
            assert headers["X-Frame-Options"] == "DENY" and "aiohttp" not in headers["Server"], path
            assert headers["Cache-Control"] == "no-store", path
        assert "unsafe" not in POLICY and "default-src 'none'" in POLICY
        face = bench.service.faces[bench.one].key
        picture = await one.answered(f"/pictures/{face}/464f47.svg")
        assert picture.status == 200 and "immutable" in picture.headers["Cache-Control"]
        assert (await visitor().get(f"/pictures/{face}/464f47.svg"))[0] == 303, "pictures are for who is logged in"

    run(tmp_path, str(tmp_path / "database"), act)


def test_a_sign_that_stands_still_is_an_alarm(tmp_path: pathlib.Path) -> None:
    async def act(bench: Bench, visitor: Visitors) -> None:
        bench.read(bench.one)
        bench.store.database.run("UPDATE signs SET still = 'its address is that of <b>two</b>' WHERE id = ?", bench.one)
        one = await bench.logged_in(visitor, "operator")
        words = "stands still: its address is that of &lt;b&gt;two&lt;/b&gt;"
        wall = (await one.get("/"))[1]
        assert words in wall and "3 signs, 0 lit, 3 silent" in wall
        assert words in (await one.get(f"/signs/{bench.one}"))[1]
        assert "It stands still: its address is that of" in (await one.get(f"/blank?sign={bench.one}"))[1]

    run(tmp_path, str(tmp_path / "database"), act)


def test_what_the_wall_says(tmp_path: pathlib.Path) -> None:
    async def act(bench: Bench, visitor: Visitors) -> None:
        one = await bench.logged_in(visitor, "reader")
        assert "not heard yet" in (await one.get("/"))[1]
        bench.read(bench.one)
        bench.read(bench.gantry)
        bench.silent(bench.gantry)
        text = (await one.get("/"))[1]
        assert text.count('class="tag lit">lit') == 1 and "no reply" in text and "one shows FOG" in text
        assert "central · priority 100 · without end" in text and " s ago</time>" in text
        assert "3 signs, 1 lit, 2 silent" in text and len(re.findall(r'<li class="card', text)) == len(NAMES)
        assert 'type="checkbox"' not in text, "a reader chooses nothing"
        bench.store.database.run("UPDATE hearings SET heard = heard - 3600 WHERE sign = ?", bench.one)
        assert "not heard lately" in (await one.get("/"))[1]

    run(tmp_path, str(tmp_path / "database"), act)


def test_a_text_of_what_is_no_character_is_shown(tmp_path: pathlib.Path) -> None:
    async def act(bench: Bench, visitor: Visitors) -> None:
        bench.read(bench.one, text=b"ICE[hcD800]AHEAD".hex())
        one = await bench.logged_in(visitor, "reader")
        for path in ("/", f"/signs/{bench.one}", f"/signs/{bench.one}/shown"):
            status, text = await one.get(path)
            assert status == 200 and "ICE AHEAD" in text, path

    run(tmp_path, str(tmp_path / "database"), act)


def test_a_table_is_wanted(tmp_path: pathlib.Path) -> None:
    async def act(bench: Bench, visitor: Visitors) -> None:
        bench.table(bench.one)
        one = await bench.logged_in(visitor, "reader")
        text = (await one.get(f"/signs/{bench.one}/table"))[1]
        assert "changeable 1" in text and "9a66" in text and "valid" in text and "FOG" in text
        assert (await one.post(f"/signs/{bench.one}/table", {}))[0] == 303
        assert bench.store.database.run("SELECT table_wanted FROM signs WHERE id = ?", bench.one) == [(1,)]
        assert "It is about to be read" in (await one.get(f"/signs/{bench.one}/table"))[1]

    run(tmp_path, str(tmp_path / "database"), act)


def test_times_and_words() -> None:
    import zoneinfo

    clock = Clock(zoneinfo.ZoneInfo("Europe/Berlin"))
    assert clock.full(1795557870) == "2026-11-24 23:04:30 CET" and clock.full(1783000000).endswith("CEST")
    assert clock.short(1795557870, 1795557900) == "23:04:30 CET"
    words = [age_word(seconds) for seconds in (-1, 0, 59, 60, 119, 7199, 7200, 172799, 172800)]
    assert words == [
        "0 s ago",
        "0 s ago",
        "59 s ago",
        "1 min ago",
        "1 min ago",
        "119 min ago",
        "2 h ago",
        "47 h ago",
        "2 d ago",
    ]
    assert [minutes_word(one) for one in (65535, 0, 119, 120, 150, 2880)] == [
        "without end",
        "0 min",
        "119 min",
        "2 h",
        "2 h 30 min",
        "2 d",
    ]
    assert audit_words("one: blank 1 65535 255 192.0.2.1") == "one: blank 1, without end, activation priority 255"
    assert audit_words("one: publish 3") == "one: publish 3"


def test_a_line_of_the_audit_that_quotes_a_command_is_no_command() -> None:
    """Of a text that somebody wrote, or that a sign said, nothing is left out, whatever stands in it."""
    line = "publish 3 1 464f47 6d65 0 0 100 65535 100 192.0.2.1"
    for quoted in (f"library: a is written: 'one: {line}'", f"one: the row, as it was last read: “A: {line}”"):
        assert audit_words(quoted) == quoted
    assert audit_words(f"one: {line}").startswith("one: publish in changeable 1 “FOG”, without end")
    for code in ("ffff640300019a66c0000201", "FFFF640300019A66C0000201"):
        assert audit_words(f"one: activate {code}").startswith("one: show changeable 1")
