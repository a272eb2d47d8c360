"""Composing, confirming and asking: faults with their places, tokens, and what a confirmation counts."""

import pathlib
import re
import socket
from dataclasses import replace
from html.parser import HTMLParser
from typing import Any

import pytest

from . import needs

needs.modules("aiohttp", "jinja2")

from model import layout, text
from wisangub.endpoint.lack import spelled
from wisangub.room import fleet
from wisangub.room.store import database, history, queries
from wisangub.room.store.commands import is_above
from wisangub.room.web import send
from wisangub.room.web.compose import marked
from wisangub.room.web.draft import Draft, joined
from wisangub.room.web.faces import face_of
from wisangub.room.web.pictures import drawn
from wisangub.room.web.service import Service
from wisangub.room.web.settings import Settings
from wisangub.room.web.words import asked

from .bench import PROGRAM
from .visits import Bench, Visitor, Visitors, entered, run

GOOD = {
    "text": "[fo2]FOG",
    "memory": "3",
    "number": "2",
    "run": "90",
    "priority": "110",
    "lasts": "minutes",
    "minutes": "30",
}
FAULTS = [
    ("FOG[fo9]", 3, "FOG<mark>[fo9]</mark>", "no such font"),
    ("FOG\u00e9", 3, "FOG<mark>é</mark>", "no picture of this character"),
    ("[fo9]", 0, "<mark>[fo9]</mark>", "no such font"),
    ("FOG[xy]", 3, "FOG<mark>[xy]</mark>", "no tag of MULTI"),
    ("FOG[", 3, "FOG<mark>[</mark>", "no tag of MULTI"),
    ("FOG\u20ac", 3, "FOG<mark>€</mark>", "U+20AC"),
    ("FOG[np]" * 6 + "FOG", 38, "<mark>[np]</mark>", "six pages"),
]


async def confirmation(one: Visitor, fields: list[tuple[str, str]]) -> list[tuple[str, str]]:
    """The fields of the confirmation's form."""
    status, page, _ = await one.post("/compose", fields)
    assert status == 200, page
    held = re.findall(r'<input type="hidden" name="(\w+)" value="([^"]*)">', page[page.index('action="/send"') :])
    return [field for field in held if field[0] != "token"]


def test_a_text_is_published(tmp_path: pathlib.Path, where: str) -> None:
    async def act(bench: Bench, visitor: Visitors) -> None:
        one = await bench.logged_in(visitor, "operator")
        fields = [("sign", str(bench.one)), ("sign", str(bench.gantry)), *GOOD.items()]
        status, page, _ = await one.post("/compose", fields)
        assert status == 200 and "Publish on 2 signs?" in page and "30 min" in page and "changeable 2" in page
        assert page.count("/464f47.svg") == 0 and page.count("5b666f325d464f47.svg") >= 2, "a picture a face"
        held = await confirmation(one, fields)
        status, _, then = await one.post("/send", held)
        assert (status, then) == (303, "/batches/1")
        assert (await one.post("/send", held))[2] == "/batches/1", "a confirmation counts once"
        commands = queries.commands(bench.store.database, queries.Wanted())
        assert sorted(command.sign for command in commands) == sorted([bench.one, bench.gantry])
        line = asked(commands[0].line)
        assert (line.text, line.owner, line.run, line.priority, line.minutes) == (b"[fo2]FOG", b"operator", 90, 110, 30)
        assert (line.memory, line.number, line.beacon) == (3, 2, 0)
        assert commands[0].who == "operator" and commands[0].line.endswith(" 127.0.0.1")
        page = (await one.get("/batches/1"))[1]
        assert "0 of 2 accepted, 2 under way" in page and "waits for its turn" in page
        lines = [what for _, _, who, what in history.audit(bench.store.database, None) if who == "operator"]
        assert sum("publish" in line for line in lines) == 2, "a line of the audit a command"

    run(tmp_path, where, act)


@pytest.mark.parametrize(("written", "offset", "shown", "why"), FAULTS)
def test_a_text_is_refused_at_its_place(
    tmp_path: pathlib.Path, written: str, offset: int, shown: str, why: str
) -> None:
    async def act(bench: Bench, visitor: Visitors) -> None:
        one = await bench.logged_in(visitor, "operator")
        status, page, _ = await one.post("/compose", {**GOOD, "sign": str(bench.one), "text": written})
        assert status == 422 and f"At character {offset + 1}: " in page and why in page
        assert shown in page.replace("&lt;", "<")
        answer = await one.client.post(
            "/look", json={"signs": [bench.one], "text": written}, headers={"X-Token": await one.token()}
        )
        said = (await answer.json())["looks"][0]
        assert said["offset"] == offset and why in said["why"] and said["src"] is None
        assert "".join(said["marked"]) == written
        held = {**GOOD, "sign": str(bench.one), "text": written, "kind": "publish", "confirmation": "x" * 24}
        assert (await one.post("/send", held))[0] == 422
        assert queries.commands(bench.store.database, queries.Wanted()) == []

    run(tmp_path, str(tmp_path / "database"), act)


@pytest.mark.parametrize("signs", ("[1e999]", "[NaN]", "[null]", '["x"]', "{}", "1", "[[1]]"))
def test_what_is_no_list_of_signs_is_a_bad_request(
    tmp_path: pathlib.Path, capfd: pytest.CaptureFixture[str], signs: str
) -> None:
    async def act(bench: Bench, visitor: Visitors) -> None:
        one = await bench.logged_in(visitor, "operator")
        headers = {"X-Token": await one.token(), "Content-Type": "application/json"}
        answer = await one.client.post("/look", data=f'{{"text": "A", "signs": {signs}}}', headers=headers)
        assert answer.status == 400

    run(tmp_path, str(tmp_path / "database"), act)
    assert "a page failed" not in capfd.readouterr().err


def test_fields_that_are_not_in_order(tmp_path: pathlib.Path) -> None:
    async def act(bench: Bench, visitor: Visitors) -> None:
        one = await bench.logged_in(visitor, "operator")
        for key, value, why in (
            ("number", "33", "from 1 to 32"),
            ("number", "x", "from 1 to 32"),
            ("run", "0", "from 1 to 255"),
            ("priority", "256", "from 0 to 255"),
            ("minutes", "0", "from 1 to 65534"),
            ("memory", "5", "from 3 to 4"),
            ("text", "", "Write a text"),
            ("beacon", "1", "Not all of these signs have a beacon"),
            ("sign", "999", "Choose at least one sign"),
        ):
            fields = {**GOOD, "sign": str(bench.one), key: value}
            status, page, _ = await one.post("/compose", fields)
            assert status == 422 and why in page, key
            held = {**fields, "kind": "publish", "confirmation": "x" * 24}
            assert (await one.post("/send", held))[0] == 422, key
        assert (await one.post("/send", {**GOOD, "sign": str(bench.one), "kind": "publish"}))[0] == 400
        assert queries.commands(bench.store.database, queries.Wanted()) == []

    run(tmp_path, str(tmp_path / "database"), act)


def test_a_request_without_its_token_does_nothing(tmp_path: pathlib.Path, where: str) -> None:
    async def act(bench: Bench, visitor: Visitors) -> None:
        one, other = [await bench.logged_in(visitor, name) for name in ("operator", "administrator")]
        held = {**GOOD, "sign": str(bench.one), "kind": "publish", "confirmation": "x" * 24}
        theirs = await other.token()
        wrongs: list[dict[str, str]] = [{}, {"token": ""}, {"token": theirs}]
        for wrong in wrongs:
            answer = await one.answered("/send", {**held, **wrong})
            assert answer.status == 403 and "nothing was done" in await answer.text()
        for headers in ({"Origin": "https://example.org"}, {"Sec-Fetch-Site": "cross-site"}):
            answer = await one.answered("/send", {**held, "token": await one.token()}, headers)
            assert answer.status == 403
        answer = await other.answered("/users", {"do": "disable", "name": "operator"})
        assert answer.status == 403 and (await one.get("/"))[0] == 200
        assert queries.commands(bench.store.database, queries.Wanted()) == []

    run(tmp_path, where, act)


@pytest.mark.parametrize(
    "key", ("text", "sign", "number", "memory", "run", "priority", "minutes", "lasts", "confirmation")
)
def test_what_was_not_confirmed_is_not_done(tmp_path: pathlib.Path, key: str) -> None:
    async def act(bench: Bench, visitor: Visitors) -> None:
        one = await bench.logged_in(visitor, "operator")
        held = dict(await confirmation(one, [("sign", str(bench.one)), *GOOD.items()]))
        others = {
            "text": "FOG",
            "sign": str(bench.two),
            "number": "3",
            "memory": "4",
            "lasts": "forever",
            "confirmation": "x.y",
        }
        status, page, _ = await one.post("/send", {**held, key: others.get(key, "77")})
        assert status == 400 and "not what was confirmed here" in page
        another = await bench.logged_in(visitor, "operator")
        assert (await another.post("/send", held))[0] == 400, "who has not seen it"
        assert queries.commands(bench.store.database, queries.Wanted()) == []
        assert (await one.post("/send", held))[0] == 303

    run(tmp_path, str(tmp_path / "database"), act)


def test_blanking_and_showing_a_row(tmp_path: pathlib.Path) -> None:
    async def act(bench: Bench, visitor: Visitors) -> None:
        bench.table(bench.one)
        bench.read(bench.one, priority=200)
        one = await bench.logged_in(visitor, "operator")
        for path, kind, line in (
            (f"/blank?sign={bench.one}&sign={bench.two}", "blank", "blank 1 65535 255 127.0.0.1"),
            (f"/show?sign={bench.one}&memory=3&number=1", "activate", "activate ffffff0300019a667f000001"),
        ):
            page = (await one.get(path))[1]
            form = page[page.index('action="/send"') :]
            held = re.findall(r'<input type="hidden" name="(\w+)" value="([^"]*)">', form)
            assert ("kind", kind) in held
            asked_for = [*[field for field in held if field[0] != "token"], ("priority", "255"), ("lasts", "forever")]
            assert (await one.post("/send", asked_for))[0] == 303
            assert queries.commands(bench.store.database, queries.Wanted(most=1))[0].line == line
        fields = {**GOOD, "sign": str(bench.one)}
        assert "It will refuse this: what it shows has priority 200" in (await one.post("/compose", fields))[1]

    run(tmp_path, str(tmp_path / "database"), act)


def test_a_command_that_waits_is_withdrawn(tmp_path: pathlib.Path, where: str) -> None:
    async def act(bench: Bench, visitor: Visitors) -> None:
        one = await bench.logged_in(visitor, "operator")
        number = bench.store.commands.ask(bench.one, "operator", "blank 1 65535 255 127.0.0.1")
        assert "Withdraw" in (await one.get("/history"))[1]
        assert (await one.post(f"/commands/{number}/withdraw", {}))[0] == 303
        assert bench.store.commands.how(number) == "withdrawn by operator"
        assert (await one.post(f"/commands/{number}/withdraw", {}))[0] == 409
        assert (await one.post("/commands/999/withdraw", {}))[0] == 404

    run(tmp_path, where, act)


def test_an_earlier_text_is_used_again(tmp_path: pathlib.Path) -> None:
    async def act(bench: Bench, visitor: Visitors) -> None:
        one = await bench.logged_in(visitor, "operator")
        held = await confirmation(one, [("sign", str(bench.one)), *GOOD.items()])
        await one.post("/send", held)
        page = (await one.get("/compose?again=1"))[1]
        assert ">[fo2]FOG</textarea>" in page and 'value="30"' in page and 'value="110"' in page

    run(tmp_path, str(tmp_path / "database"), act)


def test_pictures_and_the_model_agree(tmp_path: pathlib.Path) -> None:
    async def act(bench: Bench, visitor: Visitors) -> None:
        face = face_of(bench.service.signs[bench.one])
        held = text.described(face.text).face
        for octets in (
            b"FOG",
            b"F\xe9G",
            b"FO[\xe9]G",
            b"[fo2]A\x00B",
            b"A" * 40,
            b"FOG[xx]\xe9",
            b"[fo9]\xe9",
            b"",
            b"A" * 513,
            b"[hcE9]",
            b"[[[]",
            b"]",
        ):
            found, (_, fault) = drawn(bench.service.settings.program, face, octets, None), layout.laid_out(
                held, held.defaults, octets
            )
            assert (found.code, found.offset) == (fault or (None, None)) and found.is_good == (fault is None), octets
        assert spelled(b"A\xe9B")[0] == b"A[hcE9]B"

    run(tmp_path, str(tmp_path / "database"), act)


def test_words_of_a_draft() -> None:
    assert joined("A\r\nB\nC") == "A[nl]B[nl]C"
    assert marked("AB[fo9]C", 2) == ("AB", "[fo9]", "C") and marked("AB", 2) == ("AB", "", "")
    assert marked("A[[B", 1) == ("A", "[", "[B") and marked("A[B", 1) == ("A", "[", "B")
    draft = Draft("publish", (1,), "A", 4, 2, 0, 1, 9, 8, 7)
    assert draft.line("me", "192.0.2.1") == "publish 4 2 41 6d65 0 1 9 7 8 192.0.2.1"
    assert asked(draft.line("me", "192.0.2.1")).owner == b"me"
    assert (
        Draft("activate", (1,), memory=3, number=258, priority=9, minutes=5, checksum=0x9A66).line("me", "192.0.2.1")
        == "activate 0005090301029a66c0000201"
    )


def test_no_name_is_looked_up_for_a_command(tmp_path: pathlib.Path, monkeypatch: pytest.MonkeyPatch) -> None:
    looked, at_once = set(), socket.getaddrinfo

    def slow(host: str, *words: Any, **named: Any) -> Any:
        """A server of names that never answers."""
        looked.add(host)
        return at_once(host, *words, **{**named, "flags": socket.AI_NUMERICHOST})

    where = str(tmp_path / "database")
    database.opened(where).close()
    signs = fleet.read(entered(tmp_path))
    service = Service(
        Settings(where, PROGRAM), [replace(signs[0], host="localhost"), replace(signs[1], host="no.test")]
    )
    monkeypatch.setattr(socket, "getaddrinfo", slow)
    lines = send.lines_of(service, Draft(signs=tuple(service.signs), text="FOG"), "operator")
    service.close()
    assert looked == {"127.0.0.1"}, "who blanks many signs waits for no server of names"
    assert [line.split(" ")[-1] for _, line in lines] == ["127.0.0.1", "0.0.0.0"]


async def _form(one: Visitor, page: str) -> list[tuple[str, str]]:
    """The hidden fields of a confirmation, but for the form's token."""
    held = re.findall(r'<input type="hidden" name="(\w+)" value="([^"]*)">', page[page.index('action="/send"') :])
    return [field for field in held if field[0] != "token"]


def test_what_another_one_asked_for_meanwhile_is_not_taken_away_unseen(tmp_path: pathlib.Path, where: str) -> None:
    """Two operators at one sign: who presses second has not seen what the first one shows there."""

    async def act(bench: Bench, visitor: Visitors) -> None:
        bench.read(bench.one)
        one, other = [await bench.logged_in(visitor, name) for name in ("operator", "administrator")]
        path = f"/blank?sign={bench.one}&sign={bench.gantry}"
        blank = [*await _form(one, (await one.get(path))[1]), ("priority", "255"), ("lasts", "forever")]
        text = await confirmation(other, [("sign", str(bench.one)), *GOOD.items()])
        assert (await other.post("/send", text))[2] == "/batches/1"
        assert (await other.post("/send", text))[2] == "/batches/1", "what is one's own is asked for once"

        status, page, _ = await one.post("/send", blank)
        assert status == 409 and "administrator has asked for something else of one meanwhile" in page
        assert "administrator asked for “publish in changeable 2” “FOG” before" in page, "it waits"
        assert len(queries.commands(bench.store.database, queries.Wanted())) == 1, "nothing was done, on no sign"
        again = [*await _form(one, page), ("priority", "255"), ("lasts", "forever")]
        assert (await one.post("/send", again))[2].startswith("/batches/"), "who has seen it may"

    run(tmp_path, where, act)


def test_what_is_more_urgent_is_not_held_up(tmp_path: pathlib.Path, where: str) -> None:
    """A computer that writes a sign anew again and again keeps no accident's text from it; nor does one keep another
    accident's text."""

    async def act(bench: Bench, visitor: Visitors) -> None:
        one = await bench.logged_in(visitor, "operator")
        for theirs, status in ((109, 303), (110, 409), (200, 409)):
            text = await confirmation(one, [("sign", str(bench.one)), *GOOD.items()])  # by a priority of 110
            line = f"publish 3 4 {b'ICE'.hex()} 6d65 0 0 {theirs} 65535 {theirs} 192.0.2.1"
            bench.store.commands.ask(bench.one, "administrator", line)
            assert (await one.post("/send", text))[0] == status, theirs
        blank = [*await _form(one, (await one.get(f"/blank?sign={bench.one}"))[1]), ("priority", "255")]
        bench.store.commands.ask(bench.one, "administrator", line)
        assert (await one.post("/send", blank))[0] == 409, "who blanks has nothing to show"

    run(tmp_path, where, act)


def test_which_command_is_above_another() -> None:
    fog, ice = (f"publish 3 1 41 6d65 0 0 {of} 65535 {of} 192.0.2.1" for of in (100, 200))
    show = "activate ffff960300019a66c0000201"  # by 150
    blank = "blank 1 65535 255 192.0.2.1"
    assert is_above(ice, fog) and is_above(ice, show) and is_above(show, fog)
    for line, other in ((fog, fog), (fog, ice), (show, ice), (blank, fog), (ice, blank), (ice, "restart")):
        assert not is_above(line, other), (line, other)


def test_what_was_withdrawn_meanwhile_keeps_nobody_waiting(tmp_path: pathlib.Path, where: str) -> None:
    async def act(bench: Bench, visitor: Visitors) -> None:
        one = await bench.logged_in(visitor, "operator")
        text = await confirmation(one, [("sign", str(bench.one)), *GOOD.items()])
        of_another = bench.store.commands.ask(bench.two, "administrator", "blank 1 65535 255 192.0.2.1")
        command = bench.store.commands.ask(bench.one, "administrator", "blank 1 65535 255 192.0.2.1")
        assert bench.store.commands.withdraw(command, "administrator") and of_another
        changed = [(key, str(command) if key == "newest" else value) for key, value in text]
        assert (await one.post("/send", changed))[0] == 400, "what it saw is sealed"
        assert (await one.post("/send", text))[2] == "/batches/1"

    run(tmp_path, where, act)


@pytest.mark.parametrize("path", ("/blank?sign={}", "/show?sign={}&memory=3&number=1"))
def test_minutes_that_were_written_are_not_left_out(tmp_path: pathlib.Path, path: str) -> None:
    """Who has no script, or is in a hurry, writes them and presses the button, and nothing shows them again."""

    async def act(bench: Bench, visitor: Visitors) -> None:
        bench.table(bench.one)
        bench.read(bench.one)
        one = await bench.logged_in(visitor, "operator")
        page = (await one.get(path.format(bench.one)))[1]
        assert '<input name="minutes" type="number" min="1" max="65534" value=""' in page
        held = [*await _form(one, page), ("priority", "255")]
        status, page, _ = await one.post("/send", [*held, ("lasts", "forever"), ("minutes", "30")])
        assert status == 422 and "Minutes are given, and not chosen" in page
        assert not queries.commands(bench.store.database, queries.Wanted())
        assert (await one.post("/send", [*held, ("lasts", "minutes"), ("minutes", "")]))[0] == 422
        assert (await one.post("/send", [*held, ("lasts", "minutes"), ("minutes", "30")]))[0] == 303
        assert asked(queries.commands(bench.store.database, queries.Wanted())[0].line).minutes == 30

    run(tmp_path, str(tmp_path / "database"), act)


def test_what_describes_a_field_is_all_of_it(tmp_path: pathlib.Path) -> None:
    """An attribute that stands twice counts once: a browser drops the second."""

    class Attributes(HTMLParser):
        def handle_starttag(self, tag: str, attrs: list[tuple[str, str | None]]) -> None:
            names = [name for name, _ in attrs]
            assert len(set(names)) == len(names), (tag, names)
            if ("name", "text") in attrs and tag == "textarea":
                found.append(dict(attrs)["aria-describedby"])

    found: list[str | None] = []

    async def act(bench: Bench, visitor: Visitors) -> None:
        one = await bench.logged_in(visitor, "operator")
        for written in ("FOG", ""):
            fields = {**GOOD, "text": written, "sign": str(bench.one), "minutes": "x"}
            status, page, _ = await one.post("/compose", fields)
            assert status == 422
            Attributes().feed(page)
        assert found == ["text-help looks", "text-fault text-help looks"]

    run(tmp_path, str(tmp_path / "database"), act)


def test_the_audit_has_the_text_of_a_row_that_is_shown(tmp_path: pathlib.Path, where: str) -> None:
    """The command names the row alone, and what stands there is another text later."""

    async def act(bench: Bench, visitor: Visitors) -> None:
        bench.table(bench.one)
        one = await bench.logged_in(visitor, "operator")
        page = (await one.get(f"/show?sign={bench.one}&memory=3&number=1"))[1]
        fields = [*await _form(one, page), ("priority", "255"), ("lasts", "forever")]
        assert (await one.post("/send", fields))[0] == 303
        bench.store.commands.ask(bench.one, "operator", "activate ffffff0300029a66c0000201")
        said = [what for _, _, who, what in history.audit(bench.store.database, None) if who == "operator"]
        assert said[2] == "one: the row that is to be shown, as it was last read: “FOG”"
        assert said[0] == "one: the row that is to be shown, which was not read, or has no text"
        boss = await bench.logged_in(visitor, "administrator")
        assert "as it was last read: “FOG”" in (await boss.get("/audit?find=FOG"))[1]

    run(tmp_path, where, act)
