"""History, audit and ledger: words, days and people that are looked for, and all of it as CSV."""

import asyncio
import csv
import io
import json
import pathlib
import re

from . import needs

needs.modules("aiohttp", "jinja2")

import pytest

from wisangub.room.store import groups, history, search
from wisangub.room.store.audit import note
from wisangub.room.store.connection import Away, Database
from wisangub.room.store.lines import Line, News
from wisangub.room.store.readings import Said
from wisangub.room.store.rights import Level

from .test_rights import narrowed
from .visits import SHOWN, Bench, Visitor, Visitors, run

DAY = 86_400.0
BERLIN = 1_795_557_870.0  # 24 November 2026, 23:04:30 there, 22:04:30 UTC


def line_of(text: str) -> str:
    return f"publish 3 1 {text.encode('latin-1').hex() or '-'} {b'me'.hex()} 0 0 100 65535 255 192.0.2.1"


def ask(bench: Bench, sign: int, text: str, at: float, who: str = "operator", how: str | None = "accepted") -> int:
    """A command of a time."""
    number = bench.store.commands.ask(sign, who, line_of(text))
    bench.store.database.run(
        "UPDATE commands SET asked_at = ?, ended = ?, outcome = ? WHERE id = ?", at, at if how else None, how, number
    )
    return number


def filled(bench: Bench) -> None:
    ask(bench, bench.one, "FOG", BERLIN)
    ask(bench, bench.gantry, "=SUM(A1)[nl]ICE", BERLIN + 3600)  # the next day there
    ask(bench, bench.one, "R\xdcBE", BERLIN + DAY, "administrator", "failed at step 5: no reply")
    ask(bench, bench.gantry, "WAITS", BERLIN + 3 * DAY, how=None)


async def texts(one: Visitor, query: str) -> list[str]:
    """The texts of the history, the newest first."""
    status, text = await one.get(f"/history?{query}")
    assert status == 200, query
    return [part.split("</code>")[0] for part in text.split("<code>")[1:]]


def test_the_history_is_looked_through(tmp_path: pathlib.Path, where: str) -> None:
    async def act(bench: Bench, visitor: Visitors) -> None:
        filled(bench)
        one = await bench.logged_in(visitor, "operator")
        every = ["WAITS", "R\xdcBE", "=SUM(A1)[nl]ICE", "FOG"]
        for query, found in (
            ("", every),
            ("find=fog", ["FOG"]),
            ("find=r%C3%BCbe", ["R\xdcBE"]),
            ("find=GANTRY", [every[0], every[2]]),
            ("find=step+5", ["R\xdcBE"]),
            ("find=ice", [every[2]]),
            ("find=nothing", []),
            ("first=2026-11-25", every[:3]),
            ("last=2026-11-24", ["FOG"]),
            ("first=2026-11-25&last=2026-11-25", every[1:3]),
            ("first=2026-11-25&last=2026-11-25&who=operator", [every[2]]),
            ("first=2027-01-01", []),
            (f"sign={bench.one}&outcome=failed&find=r", ["R\xdcBE"]),
        ):
            assert await texts(one, query) == found, query
        for wrong in ("first=24.11.2026", "last=2026-13-01", "first=9999-12-31", "last=x"):
            assert (await one.get(f"/history?{wrong}"))[0] in (200, 400)
        status, text = await one.get("/history?first=24.11.2026&find=%3Cb%3E")
        assert status == 400 and "A day is written as" in text
        assert 'value="&lt;b&gt;"' in (await one.get("/history?find=%3Cb%3E"))[1]

    run(tmp_path, where, act)


def test_the_first_day_of_the_calendar_is_refused_in_words(
    tmp_path: pathlib.Path, monkeypatch: pytest.MonkeyPatch
) -> None:
    async def act(bench: Bench, visitor: Visitors) -> None:
        monkeypatch.setattr(bench.service.clock, "zone", None)  # the machine's
        one = await bench.logged_in(visitor, "administrator")
        for page in ("/history", "/audit", "/history.csv", "/audit.csv"):
            assert (await one.get(f"{page}?first=0001-01-01"))[0] in (200, 400), page

    run(tmp_path, str(tmp_path / "database"), act)


def test_a_page_goes_on_where_it_ended(tmp_path: pathlib.Path, monkeypatch: pytest.MonkeyPatch) -> None:
    monkeypatch.setattr(search, "SLICE", 7)
    monkeypatch.setattr(search, "MOST_SEEN", 60)

    async def act(bench: Bench, visitor: Visitors) -> None:
        for number in range(130):
            ask(bench, bench.one, f"T{number}", BERLIN + number)
        ask(bench, bench.one, "LAST", BERLIN - 1)
        one = await bench.logged_in(visitor, "reader")

        async def pages(query: str) -> list[str]:
            found, path = [], f"/history?{query}"
            while path:
                text = (await one.get(path))[1]
                found += [part.split("</code>")[0] for part in text.split("<code>")[1:]]
                links = [
                    part for part in text.split('<a href="') if part.startswith("/history?") and "ack<" in part[:150]
                ]
                links += [part for part in text.split('<a href="') if "Earlier ones" in part[:150]]
                path = links[0].split('"')[0].replace("&amp;", "&") if links else ""
            return found

        assert await pages("") == ["LAST", *(f"T{number}" for number in reversed(range(130)))]
        assert await pages("find=t1") == [f"T{number}" for number in reversed(range(130)) if f"{number}"[0] == "1"]
        assert await pages("find=t0") == ["T0"], "far back"

    run(tmp_path, str(tmp_path / "database"), act)


async def rows(one: Visitor, path: str) -> list[dict[str, str]]:
    answer = await one.answered(path)
    assert answer.status == 200 and answer.content_type == "text/csv" and answer.charset == "utf-8"
    assert "attachment" in answer.headers["Content-Disposition"] and answer.headers["Cache-Control"] == "no-store"
    return list(csv.DictReader(io.StringIO(await answer.text())))


def test_a_row_of_csv_is_no_formula(tmp_path: pathlib.Path, where: str) -> None:
    async def act(bench: Bench, visitor: Visitors) -> None:
        filled(bench)
        one = await bench.logged_in(visitor, "operator")
        found = await rows(one, "/history.csv")
        assert [row["text"] for row in found] == ["WAITS", "R\xdcBE", "'=SUM(A1)[nl]ICE", "FOG"], "no formula"
        assert found[3] == {
            "number": "1",
            "asked": "2026-11-24T23:04:30+01:00",
            "sign": "one",
            "who": "operator",
            "what": "publish in changeable 1",
            "text": "FOG",
            "how": "without end, activation priority 255, priority while shown 100",
            "outcome": "accepted",
            "why": "",
            "ended": "2026-11-24T23:04:30+01:00",
        }
        assert found[1]["outcome"] == "failed at step 5: no reply" and found[1]["why"]
        assert [row["number"] for row in await rows(one, "/history.csv?find=ice&first=2026-11-25")] == ["2"]
        assert (await one.get("/audit.csv"))[0] == 403
        chief = await bench.logged_in(visitor, "administrator")
        note(bench.store.database, "operator", 'said "one", two\nlines')
        lines = await rows(chief, "/audit.csv?who=operator")
        assert lines[0]["what"] == 'said "one", two\nlines' and {row["who"] for row in lines} == {"operator"}
        assert any(row["what"] == "exported the history, find=ice&first=2026-11-25" for row in lines)
        all_signs = next(one for one in groups.listed(bench.store.database) if one.has_all)
        groups.give(bench.store.database, all_signs.id, "operator", Level.NOTHING, "administrator")
        assert await rows(one, "/history.csv") == [], "of signs that are not seen nothing"

    run(tmp_path, where, act)


def test_no_part_of_a_row_of_csv_is_a_formula(tmp_path: pathlib.Path) -> None:
    """A spreadsheet of a country whose numbers have a comma takes a row apart at semicolons, and at each end of a line,
    since for it no cell begins with a quote."""

    async def act(bench: Bench, visitor: Visitors) -> None:
        ask(bench, bench.one, "ICE;=1+1;", BERLIN)
        ask(bench, bench.one, "A-B;-C\t+D", BERLIN)
        one = await bench.logged_in(visitor, "administrator")
        assert [row["text"] for row in await rows(one, "/history.csv")] == ["A-B;'-C\t'+D", "ICE;'=1+1;"]
        assert (await one.answered("/history.csv?find=x%0A@SUM(A1)%0D-A")).status == 200
        said = [row["what"] for row in await rows(one, "/audit.csv")]
        assert "exported the history, find=x\n'@SUM(A1)\r'-A" in said

    run(tmp_path, str(tmp_path / "database"), act)


def test_csv_of_more_than_a_slice(tmp_path: pathlib.Path, monkeypatch: pytest.MonkeyPatch) -> None:
    from wisangub.room.web import exports

    monkeypatch.setattr(exports, "SLICE", 4)

    async def act(bench: Bench, visitor: Visitors) -> None:
        one = await bench.logged_in(visitor, "administrator")
        for count in (4, 5, 9):
            while len(bench.store.database.run("SELECT id FROM commands")) < count:
                ask(bench, bench.one, "A", BERLIN)
            assert [int(row["number"]) for row in await rows(one, "/history.csv")] == list(range(count, 0, -1))
        assert len(await rows(one, "/audit.csv")) == len(bench.store.database.run("SELECT id FROM audit"))

    run(tmp_path, str(tmp_path / "database"), act)


def test_the_audit_is_looked_through(tmp_path: pathlib.Path, where: str) -> None:
    async def act(bench: Bench, visitor: Visitors) -> None:
        filled(bench)
        held = bench.store.database
        held.run("UPDATE audit SET at = ? WHERE what LIKE 'one: %'", BERLIN)
        one = await bench.logged_in(visitor, "administrator")

        async def lines(query: str) -> int:
            status, text = await one.get(f"/audit?{query}")
            assert status == 200
            return text.count('<tr><th scope="row">')

        assert await lines("who=operator") == 3 and await lines("find=fog") == 1 and await lines("find=nothing") == 0
        assert await lines("first=2026-11-24&last=2026-11-24") == 2 and await lines("last=2026-11-23") == 0
        assert await lines("who=nobody") == 0 and (await one.get("/audit?first=x"))[0] == 400
        assert history.audit_people(held) == sorted({str(row[0]) for row in held.run("SELECT who FROM audit")})

    run(tmp_path, where, act)


def test_the_ledger_names_operator_and_text(tmp_path: pathlib.Path, where: str) -> None:
    async def act(bench: Bench, visitor: Visitors) -> None:
        number = bench.store.commands.ask(bench.one, "operator", line_of("<b>FOG</b>"))
        bench.store.lines.insert([Line(bench.one, 1, b"publish", number)], "w")
        entry = "ledger 7 ffffff0300019a66c0000201"
        bench.store.lines.keep([News(bench.one, [f"{entry} waiting"], number)])
        bench.store.lines.keep([News(bench.one, [f"{entry} accepted"], number, number, "accepted")])
        bench.store.lines.keep([News(bench.one, ["ledger 6 ffffff0300019a66c0000201 unknown"])])
        first, second = history.ledger(bench.store.database, bench.one)
        assert (first.number, first.who, first.line) == (7, "operator", line_of("<b>FOG</b>"))
        assert (second.number, second.who, second.outcome) == (6, None, "unknown")
        one = await bench.logged_in(visitor, "reader")
        text = (await one.get(f"/signs/{bench.one}/ledger"))[1]
        assert "<td>operator</td><td><code>&lt;b&gt;FOG&lt;/b&gt;</code></td>" in text and "not known" in text

    run(tmp_path, where, act)


def test_what_pages_say(tmp_path: pathlib.Path) -> None:
    async def act(bench: Bench, visitor: Visitors) -> None:
        one = await bench.logged_in(visitor, "operator")
        text = (await one.get(f"/blank?sign={bench.one}"))[1]
        assert "<h1>Blank one?</h1>" in text and ">Blank one</button>" in text and "one, from now on" in text
        text = (await one.get(f"/blank?sign={bench.one}&sign={bench.gantry}"))[1]
        assert "<h1>Blank 2 signs?</h1>" in text and "on on" not in text
        status, text = await one.get("/nothing")
        assert status == 404 and "<h1>Not found</h1>" in text and "There is no page at this address." in text
        assert (await one.answered("/compose", headers={"X": "y"})).status == 200
        answer = await one.client.request("DELETE", "/compose")
        assert answer.status == 405 and "takes no request of this kind" in await answer.text()

    run(tmp_path, str(tmp_path / "database"), act)


@pytest.mark.parametrize("version", (b"1.1", b"1.0"))
def test_csv_that_breaks_off_seems_not_to_be_whole(
    tmp_path: pathlib.Path, monkeypatch: pytest.MonkeyPatch, version: bytes
) -> None:
    """As a proxy asks for it, and where the database goes away: no page that says so stands at its end."""
    audited, slices = history.audited, [0]

    def away(held: Database, wanted: history.AuditWanted) -> list[history.Entry]:
        slices[0] += 1
        if slices[0] > 2:
            raise Away("the database is away")
        return audited(held, wanted)

    async def act(bench: Bench, visitor: Visitors) -> None:
        one = await bench.logged_in(visitor, "administrator")
        cookies = "; ".join(f"{one.key}={one.value}" for one in one.client.session.cookie_jar).encode()
        monkeypatch.setattr(history, "audited", away)
        reader, writer = await asyncio.open_connection("127.0.0.1", one.client.port)
        writer.write(b"GET /audit.csv HTTP/" + version + b"\r\nHost: a\r\nCookie: " + cookies + b"\r\n\r\n")
        found = b""
        with pytest.raises(ConnectionResetError):
            while more := await reader.read(65536):
                found += more
        assert slices[0] == 3 and b"</html>" not in found and b" 503 " not in found
        writer.close()

    from wisangub.room.web import exports

    monkeypatch.setattr(exports, "SLICE", 2)
    run(tmp_path, str(tmp_path / "database"), act)


def showed(bench: Bench, count: int) -> None:
    """A sign showed so many texts, each once, and was silent then."""
    texts_of = [json.dumps({**SHOWN, "text": f"TEXT {at}".encode().hex()}) for at in range(1, count + 1)]
    said = [Said(bench.one, -at, 65535, words) for at, words in enumerate(texts_of, 1)]
    bench.store.readings.keep([*said, Said(bench.one, -count - 1, fault="no reply")])


async def paged(one: Visitor, path: str, pattern: str) -> list[str]:
    """What stands on a page and on all that it leads to."""
    found: list[str] = []
    while path:
        status, text = await one.get(path)
        assert status == 200, path
        found += re.findall(pattern, text)
        (path,) = re.findall(r'href="([^"]*[?]before=[0-9]+)"', text) or [""]
    return found


def test_all_that_a_sign_showed_is_there(tmp_path: pathlib.Path, monkeypatch: pytest.MonkeyPatch, where: str) -> None:
    """However much it is: what a page leaves out it leads to, and a file has all of it."""
    from wisangub.room.web import exports

    monkeypatch.setattr(exports, "SLICE", 100)

    async def act(bench: Bench, visitor: Visitors) -> None:
        showed(bench, 250)
        one = await bench.logged_in(visitor, "reader")
        every = [f"TEXT {at}" for at in range(250, 0, -1)]
        assert await paged(one, f"/signs/{bench.one}/shown", r"<code>(TEXT \d+)</code>") == every
        assert "nothing earlier" in (await one.get(f"/signs/{bench.one}/shown?before=1"))[1]
        found = await rows(one, f"/signs/{bench.one}/shown.csv")
        assert [row["text"] for row in found] == ["", *every] and found[0]["fault"] == "no reply"
        last = found[-1]
        assert (last["number"], last["sign"], last["row"], last["mode"]) == ("1", "one", "changeable 1", "central")
        assert (last["priority"], last["owner"], last["activated_from"]) == ("100", "me", "192.0.2.1")
        assert last["from"] and last["until"] and not last["fault"]
        said = [what for _, _, who, what in history.audit(bench.store.database, None) if who == "reader"]
        assert said[0] == "exported what one showed"

    run(tmp_path, where, act)


def test_all_entries_of_the_ledger_are_there(tmp_path: pathlib.Path, where: str) -> None:
    async def act(bench: Bench, visitor: Visitors) -> None:
        entries = [f"ledger {at} ffffff0300019a66c0000201 accepted" for at in range(1, 451)]
        bench.store.lines.keep([News(bench.one, entries)])
        one = await bench.logged_in(visitor, "reader")
        numbers = await paged(one, f"/signs/{bench.one}/ledger", r'<th scope="row">(\d+)</th>')
        assert numbers == [str(at) for at in range(450, 0, -1)]
        assert "nothing earlier" in (await one.get(f"/signs/{bench.one}/ledger?before=1"))[1]

    run(tmp_path, where, act)


def test_alarms_that_are_over_and_acknowledged_are_not_lost(
    tmp_path: pathlib.Path, monkeypatch: pytest.MonkeyPatch, where: str
) -> None:
    """No page has them any more; a file has all, of the signs that may be seen."""
    from wisangub.room.web import exports

    monkeypatch.setattr(exports, "SLICE", 2)

    async def act(bench: Bench, visitor: Visitors) -> None:
        held = bench.store.database
        for sign, number in ((bench.one, -2), (bench.gantry, -2), (bench.one, -4)):
            bench.silent(sign, number)
            held.run("UPDATE alarm_looks SET at = 0")
            bench.store.alarms.look()
            bench.read(sign, number - 1, text="")
            held.run("UPDATE alarm_looks SET at = 0")
            bench.store.alarms.look()
        one, reader = [await bench.logged_in(visitor, name) for name in ("operator", "reader")]
        for number in (1, 2, 3):
            assert (await one.post(f"/alarms/{number}/acknowledge", {}))[0] == 303
        assert "no reply" not in (await one.get("/alarms"))[1]
        found = await rows(one, "/alarms.csv")
        assert [(row["number"], row["sign"]) for row in found] == [("3", "one"), ("2", "gantry"), ("1", "one")]
        last = found[-1]
        assert (last["kind"], last["what"], last["acknowledged_by"]) == ("silent", "no reply", "operator")
        assert last["begun"] and last["ended"] and last["acknowledged"]
        narrowed(bench, "reader", Level.SEE, bench.gantry)
        assert [row["sign"] for row in await rows(reader, "/alarms.csv")] == ["gantry"]
        said = [what for _, _, who, what in history.audit(held, None) if who == "reader"]
        assert said[0] == "exported the alarms"

    run(tmp_path, where, act)
