"""JSON for other systems: each operation as the OpenAPI document says it, with tokens, rights and audit."""

import asyncio
import json
import pathlib
from typing import Any

import pytest

from . import needs

needs.modules("aiohttp", "jinja2", "jsonschema")

import jsonschema

from wisangub.process.places import TOP
from wisangub.room.store import brightness, groups, history, library, plans, rights, rules, tokens, users
from wisangub.room.store.brightness import Wish
from wisangub.room.store.library import Written
from wisangub.room.store.messages import RowSaid
from wisangub.room.store.rights import Level
from wisangub.room.store.users import Role
from wisangub.room.web import events
from wisangub.room.web.api import checks
from wisangub.room.web.api.document import document
from wisangub.room.web.api.operations import BASE, JSON, OPERATIONS
from wisangub.room.web.api.schemas import SCHEMAS
from wisangub.snmp.names import RowStatus

from .test_pages import filled
from .visits import NAMES, READER, WRITER, Bench, Visitors, run

DEBIAN = pathlib.Path("/usr/share/openapi-specification/schemas/v3.0/schema.json")
FOG: dict[str, Any] = {"text": "FOG", "purpose": "accident"}
DOCUMENT = document()


def schema_of(name: str) -> dict[str, Any]:
    """A schema with all that it names."""
    return {"$ref": f"#/components/schemas/{name}", "components": {"schemas": SCHEMAS}}


def check(name: str, value: Any) -> None:
    """Fails where a value is not what the document says."""
    jsonschema.Draft4Validator(schema_of(name), format_checker=jsonschema.FormatChecker()).validate(value)


class System:
    """Another system, with a token."""

    def __init__(self, bench: Bench, visitor: Visitors, user: str, **more: Any) -> None:
        self.client = visitor().client
        name = more.get("name", f"system of {user}")
        self.word = tokens.add(bench.store.database, name, user, more.get("reads_only", False), 1, "a test")

    async def ask(self, method: str, path: str, said: Any = None, **headers: str) -> tuple[int, Any]:
        """The status, and what is answered: as the document says it."""
        sent = {"Authorization": f"Bearer {self.word}", **{key.replace("_", "-"): one for key, one in headers.items()}}
        more = {} if said is None else {"json": said}
        async with self.client.request(method, BASE + path, headers=sent, **more) as answer:
            assert "login" not in answer.cookies and answer.headers["Cache-Control"] == "no-store"
            if answer.content_type != JSON:
                return answer.status, await answer.text()
            found = await answer.json()
            if answer.status >= 400:
                check("Error", found)
            return answer.status, found

    async def get(self, path: str) -> tuple[int, Any]:
        return await self.ask("GET", path)

    async def post(self, path: str, said: Any, key: str) -> tuple[int, Any]:
        return await self.ask("POST", path, said, Idempotency_Key=key)


def test_the_document_is_one_of_openapi() -> None:
    """What the schema of OpenAPI does not look at."""
    assert DOCUMENT["openapi"] == "3.0.3" and json.loads(json.dumps(DOCUMENT)) == DOCUMENT
    said = [one["operationId"] for path in DOCUMENT["paths"].values() for one in path.values()]
    assert len(said) == len(set(said)) == len(OPERATIONS)
    for schema in SCHEMAS.values():
        jsonschema.Draft4Validator.check_schema(schema)
    words = json.dumps(DOCUMENT)
    for name in SCHEMAS:
        assert f"#/components/schemas/{name}" in words, f"{name} is in no answer"
    for path, operations in DOCUMENT["paths"].items():
        for operation in operations.values():
            named = {one["name"] for one in operation["parameters"] if one["in"] == "path"}
            assert all(f"{{{name}}}" in path for name in named) and path.count("{") == len(named)


def test_the_document_by_the_schema_of_openapi() -> None:
    if not DEBIAN.is_file():
        pytest.skip("the schema of OpenAPI is not here: apt-get install openapi-specification")
    jsonschema.Draft4Validator(json.loads(DEBIAN.read_text())).validate(DOCUMENT)


@pytest.mark.parametrize(
    ("name", "value"),
    [
        ("Publish", {"signs": [1], "text": "FOG"}),
        ("Publish", {"signs": []}),
        ("Publish", {"signs": [1, 1]}),
        ("Publish", {"signs": [0, "1", True, 1.5]}),
        ("Publish", {"signs": [1], "text": "", "minutes": 65535}),
        ("Publish", {"signs": [1], "memory": "permanent", "row": 0, "beacon": 1}),
        ("Publish", {"signs": [1], "activation_priority": 256, "priority_while_shown": 0, "more~/": 1}),
        ("Publish", {"text": "x" * 4097}),
        ("Publish", []),
        ("Blank", {"signs": list(range(1, 1002))}),
        ("Show", {"sign": 1, "memory": "permanent", "row": 1}),
        ("Show", {"sign": None, "memory": 3}),
        ("Dim", {"control": "manual", "level": 256}),
        ("Dim", {"control": "by hand"}),
        ("Nothing", {}),
    ],
)
def test_requests_are_checked_as_a_validator_checks_them(name: str, value: Any) -> None:
    found = jsonschema.Draft4Validator(schema_of(name)).iter_errors(value)
    where = {"/".join(["", *map(str, one.absolute_path)]) for one in found}
    own = {at for at, _ in checks.faults(SCHEMAS[name], value)}
    assert bool(where) == bool(own)
    assert {at for at in where if at} <= own, "and in the same places; what is missing or too much is named itself"


async def readable(bench: Bench) -> None:
    """A room in which there is something to read by each operation."""
    filled(bench)
    held = bench.store.database
    held.run(
        "INSERT INTO alarms (sign, kind, what, begun) VALUES (?, 'silent', 'it says nothing', {clock})", bench.gantry
    )
    bench.read(bench.one, -9)
    asked = brightness.ask(held, bench.one, "operator", Wish(4, 3), "a word")
    assert bench.store.brightness.begin(asked, -10)
    bench.store.brightness.end(asked, "accepted")
    bench.store.brightness.keep(asked, {"dmsIllumControl": 4, "dmsIllumManLevel": 3})
    held.run("UPDATE brightness SET asked_at = asked_at - 60")


def test_each_operation_answers_as_the_document_says(tmp_path: pathlib.Path, where: str) -> None:
    async def act(bench: Bench, visitor: Visitors) -> None:
        await readable(bench)
        system = System(bench, visitor, "administrator")
        numbers = {"sign": bench.one, "command": 1, "batch": 1, "alarm": 1, "plan": 1}
        bodies = {
            "Publish": {"signs": [bench.one, bench.gantry], **FOG},
            "Blank": {"signs": [bench.two], "minutes": 9},
            "Show": {"sign": bench.one, "memory": "changeable", "row": 1},
            "Dim": {"control": "manual", "level": 5},
        }
        tried = 0
        for operation in sorted(OPERATIONS, key=lambda one: one.method):
            if operation.kind == "text/event-stream" or "withdraw" in operation.path:
                continue
            said = bodies.get(operation.body) if operation.body else {} if operation.method == "POST" else None
            status, found = await system.ask(
                operation.method, operation.path.format(**numbers), said, Idempotency_Key=operation.path
            )
            assert status == operation.status, (operation.path, found)
            if operation.answer:
                check(operation.answer, found)
                assert all(found.values()) or operation.answer in ("Sign", "Command", "Nothing", "Plan"), found
            for word in (READER, WRITER, READER.encode().hex(), WRITER.encode().hex()):
                assert word not in json.dumps(found), operation.path
            tried += 1
        assert tried == len(OPERATIONS) - 2
        assert "<svg" in (await system.get(f"/signs/{bench.one}/picture"))[1]

    run(tmp_path, where, act)


def test_what_a_sign_shows(tmp_path: pathlib.Path) -> None:
    async def act(bench: Bench, visitor: Visitors) -> None:
        bench.read(bench.one, minutes=30)
        bench.read(bench.gantry)
        bench.silent(bench.gantry)
        system = System(bench, visitor, "reader")
        status, found = await system.get("/signs")
        assert status == 200 and [one["name"] for one in found["signs"]] == list(NAMES)
        one, two, gantry = found["signs"]
        assert one["state"] == "lit" and one["shown"]["text"] == "FOG" and one["shown"]["minutes"] == 30
        assert one["shown"]["memory"] == "changeable" and one["shown"]["row"] == 1 and one["columns"] > 0
        assert two["state"] == "silent" and "shown" not in two and two["fault"] == "not heard lately"
        assert gantry["fault"] == "no reply" and "minutes" not in gantry["shown"]
        for query, names in (
            ("find=gant", ["gantry"]),
            ("state=lit", ["one"]),
            ("group=nothing", []),
            ("find=fog&state=silent", ["gantry"]),
        ):
            assert [sign["name"] for sign in (await system.get(f"/signs?{query}"))[1]["signs"]] == names
        assert (await system.get(f"/signs/{bench.one}"))[1]["shown"]["text"] == "FOG"
        for wrong in (
            "/signs?colour=red",
            "/signs?state=on",
            "/commands?most=0",
            "/commands?before=x",
            "/events?signs=x",
        ):
            status, found = await system.get(wrong)
            assert status == 400 and found["faults"], wrong
        for none in ("/signs/999", f"/signs/{bench.two}/picture", "/commands/999", "/batches/999", "/nothing"):
            assert (await system.get(none))[0] == 404, none

    run(tmp_path, str(tmp_path / "database"), act)


def test_readings_are_read_a_page_at_a_time(tmp_path: pathlib.Path, where: str) -> None:
    """All that a sign ever showed can be had, also where its numbers are as great as they may be."""

    async def act(bench: Bench, visitor: Visitors) -> None:
        numbers = [1, 2, 3, 999_999_999, 1_000_000_000, 2**31 - 1, 2**31]
        for number in numbers:
            bench.read(bench.one, -number, text=f"{number}".encode().hex())
        system, found, more = System(bench, visitor, "reader"), list[dict[str, Any]](), ""
        for _ in range(len(numbers)):
            status, page = await system.get(f"/signs/{bench.one}/readings?most=2{more}")
            check("Readings", page)
            assert status == 200 and len(page["readings"]) <= 2
            found += page["readings"]
            if not page["readings"]:
                break
            more = f"&before={found[-1]['id']}"
        assert [(one["id"], one["text"]) for one in found] == [(one, str(one)) for one in reversed(numbers)]
        for word in ("0", "-1", "x", str(2**31 + 1), "10000000000"):
            assert (await system.get(f"/signs/{bench.one}/readings?before={word}"))[0] == 400, word

    run(tmp_path, where, act)


def test_a_text_is_published_once_for_a_key(tmp_path: pathlib.Path, where: str) -> None:
    async def act(bench: Bench, visitor: Visitors) -> None:
        system, signs = System(bench, visitor, "operator"), [bench.one, bench.gantry]
        status, found = await system.post("/publish", {"signs": signs, **FOG, "minutes": 5}, "k1")
        assert status == 202 and [one["sign"] for one in found["commands"]] == signs
        assert {(one["text"], one["state"], one["minutes"]) for one in found["commands"]} == {("FOG", "waiting", 5)}
        assert await system.post("/publish", {"signs": signs, **FOG, "minutes": 5}, "k1") == (status, found)
        status, wrong = await system.post("/publish", {"signs": signs, **FOG, "minutes": 6}, "k1")
        assert status == 409 and "used for something else" in wrong["error"]
        assert (await system.post("/blank", {"signs": signs}, "k1"))[0] == 409
        assert len(bench.store.database.run("SELECT id FROM commands")) == 2
        lines = bench.store.database.run("SELECT line FROM commands ORDER BY id")
        assert str(lines[0][0]).split(" ")[:3] == ["publish", "3", "2"], "the row of accidents"
        assert str(lines[0][0]).split(" ")[7] == str(lines[0][0]).split(" ")[9] == "200"
        other = System(bench, visitor, "administrator")
        assert (await other.post("/publish", {"signs": signs, "text": "ICE"}, "k1"))[0] == 202, "keys are a token's"
        audit = [f"{who}: {what}" for _, _, who, what in history.audit(bench.store.database, None)]
        assert "operator: publish in changeable 2 on 2 signs was asked for through token “system of operator”" in audit
        assert sum("one: publish 3 2" in line for line in audit) == 1
        number = found["commands"][0]["id"]
        status, gone = await system.ask("POST", f"/commands/{number}/withdraw")
        check("Command", gone)
        assert status == 200 and gone["state"] == "failed" and gone["outcome"] == "withdrawn by operator"
        assert (await system.ask("POST", f"/commands/{number}/withdraw"))[0] == 409

    run(tmp_path, where, act)


def test_what_a_sign_shows_meanwhile_makes_nothing_else_of_a_key(tmp_path: pathlib.Path, where: str) -> None:
    """A request that comes again gets what was asked for, though its priority or checksum would be another one now."""

    async def act(bench: Bench, visitor: Visitors) -> None:
        system = System(bench, visitor, "operator")
        row: dict[str, Any] = {"sign": bench.one, "memory": "changeable", "row": 1}
        bench.read(bench.one, priority=77)
        bench.table(bench.one)
        first = await system.post("/blank", {"signs": [bench.one]}, "k1")
        shown = await system.post("/show", row, "k2")
        assert first[0] == shown[0] == 202
        bench.read(bench.one, number=-9, priority=3, text="")
        held = json.dumps({"text": "41", "owner": "-", "checksum": 1, "beacon": 0, "pixel": 0, "priority": 200})
        bench.store.messages.keep([RowSaid(bench.one, 3, 1, -10, 4, held)])
        assert await system.post("/blank", {"signs": [bench.one]}, "k1") == first
        assert await system.post("/show", row, "k2") == shown
        for path, said, key in (
            ("/blank", {"signs": [bench.two]}, "k1"),
            ("/blank", {"signs": [bench.one], "minutes": 5}, "k1"),
            ("/blank", {"signs": [bench.one], "activation_priority": 3}, "k1"),
            ("/blank", {"signs": [bench.one]}, "k2"),
            ("/show", {**row, "activation_priority": 200}, "k2"),
            ("/show", {**row, "minutes": 5}, "k2"),
        ):
            assert (await system.post(path, said, key))[0] == 409, (path, said)
        assert len(bench.store.database.run("SELECT id FROM commands")) == 2

    run(tmp_path, where, act)


def test_what_is_no_text_is_refused(tmp_path: pathlib.Path, where: str) -> None:
    async def act(bench: Bench, visitor: Visitors) -> None:
        system = System(bench, visitor, "operator")
        for wrong in ("A\0B", "A\ud800B"):
            for said in ({"signs": [bench.one], "text": wrong}, {wrong: 1}, {"signs": [wrong]}, wrong):
                assert (await system.post("/publish", said, "k1"))[0] == 400, said
        said = {"signs": [bench.one], "text": r"\u0000"}  # a backslash and letters
        assert (await system.post("/publish", said, "k1"))[0] in (202, 422)

    run(tmp_path, where, act)


def test_brightness_is_asked_for_once_for_a_key(tmp_path: pathlib.Path) -> None:
    async def act(bench: Bench, visitor: Visitors) -> None:
        bench.itself(bench.one)
        system, path = System(bench, visitor, "operator"), f"/signs/{bench.one}/brightness"
        status, found = await system.post(path, {"control": "manual", "level": 3}, "k1")
        assert status == 202 and (found["control"], found["level"], found["state"]) == ("manual", 3, "under way")
        assert await system.post(path, {"control": "manual", "level": 3}, "k1") == (status, found)
        assert (await system.post(path, {"control": "manual", "level": 4}, "k1"))[0] == 409
        for said, words in (
            ({"control": "manual", "level": 3}, "under way"),
            ({"control": "manual", "level": 9}, "from 0 to 8"),
            ({"control": "timer", "level": 3}, "by hand"),
        ):
            status, wrong = await system.post(path, said, f"of {words}")
            assert status == 422 and words in wrong["error"]
        assert bench.store.brightness.begin(found["id"], -7)
        bench.store.brightness.end(found["id"], "refused: genErr")
        bench.store.brightness.keep(found["id"], {"dmsIllumControl": 2, "dmsIllumManLevel": 8})
        (setting,) = (await system.get(path))[1]["settings"]
        assert (setting["state"], setting["outcome"]) == ("failed", "refused: genErr")
        assert (setting["read_back"]["control"], setting["read_back"]["level"]) == ("photocell", 8)
        assert (await system.post(f"/signs/{bench.two}/brightness", {"control": "timer"}, "k3"))[0] == 422
        reader = System(bench, visitor, "reader")
        assert (await reader.post(path, {"control": "timer"}, "k4"))[0] == 403 and len((await reader.get(path))[1]) == 1
        audit = [f"{who}: {what}" for _, _, who, what in history.audit(bench.store.database, None)]
        assert "operator: one: brightness: manual, level 3 was asked for through token “system of operator”" in audit

    run(tmp_path, str(tmp_path / "database"), act)


def test_rows_priorities_and_texts_of_the_library(tmp_path: pathlib.Path) -> None:
    async def act(bench: Bench, visitor: Visitors) -> None:
        held = bench.store.database
        library.add(held, Written("", "fog", b"FOG", rules.purposes(held)[0].id), "operator")
        bench.read(bench.one, priority=77)
        bench.table(bench.one, priority=9)
        system = System(bench, visitor, "operator")
        for number, (path, said, line) in enumerate(
            (
                ("/publish", {"signs": [bench.one], "library": 1}, "publish 3 2 464f47 {me} 0 0 200 65535 200"),
                (
                    "/publish",
                    {
                        "signs": [bench.one],
                        "text": "A\nB",
                        "memory": "volatile",
                        "row": 1,
                        "priority_while_shown": 3,
                        "activation_priority": 4,
                        "minutes": 7,
                    },
                    "publish 4 1 415b6e6c5d42 {me} 0 0 3 7 4",
                ),
                ("/publish", {"signs": [bench.one], "text": "A"}, "publish 3 1 41 {me} 0 0 100 65535 100"),
                ("/blank", {"signs": [bench.one]}, "blank 1 65535 77"),
                ("/blank", {"signs": [bench.two], "activation_priority": 3, "minutes": 2}, "blank 1 2 3"),
                ("/show", {"sign": bench.one, "memory": "changeable", "row": 1}, "activate ffff090300019a66"),
            )
        ):
            assert (await system.post(path, said, f"k{number}"))[0] == 202, said
            found = str(held.run("SELECT line FROM commands ORDER BY id DESC LIMIT 1")[0][0])
            assert found.startswith(line.format(me=b"operator".hex())), (found, line)

    run(tmp_path, str(tmp_path / "database"), act)


@pytest.mark.parametrize("number", (256, -1, 2**32 - 1, "77", None))
def test_what_no_sign_may_say_keeps_no_sign_from_being_asked(tmp_path: pathlib.Path, number: Any) -> None:
    """A priority or a checksum that no request takes: nothing is known of it then."""

    async def act(bench: Bench, visitor: Visitors) -> None:
        bench.read(bench.one, priority=number)
        bench.read(bench.two, priority=99)
        checksum = 65536 if number == 256 else number
        held = {"text": "", "owner": "", "checksum": checksum, "priority": number}
        bench.store.messages.keep([RowSaid(bench.one, 3, 1, -3, RowStatus.VALID, json.dumps(held))])
        system = System(bench, visitor, "operator")
        for path, said, line in (
            ("/blank", {"signs": [bench.one, bench.two]}, "blank 1 65535 254 127.0.0.1"),
            ("/show", {"sign": bench.one, "memory": "changeable", "row": 1}, "activate fffffe03000100007f000001"),
        ):
            assert (await system.post(path, said, path))[0] == 202, said
            assert bench.store.database.run("SELECT line FROM commands ORDER BY id DESC LIMIT 1")[0][0] == line
        assert (await system.get(f"/signs/{bench.one}/table"))[0] == 200
        one = await bench.logged_in(visitor, "operator")
        for path in (f"/blank?sign={bench.one}&sign={bench.two}", f"/show?sign={bench.one}&memory=3&number=1"):
            assert 'name="priority" type="number" min="0" max="255" value="254"' in (await one.get(path))[1], path
        assert (await one.get("/"))[0] == 200

    run(tmp_path, str(tmp_path / "database"), act)


def test_what_cannot_be_done_is_refused_with_its_place(tmp_path: pathlib.Path) -> None:
    async def act(bench: Bench, visitor: Visitors) -> None:
        rules.forbid(bench.store.database, "word", "a test")
        system = System(bench, visitor, "operator")
        one = [bench.one]
        for said, status, at in (
            ({"signs": one, "text": "A[fo9]B"}, 422, "/text"),
            ({"signs": one, "text": "a WORD"}, 422, "/text"),
            ({"signs": one, "text": "\u20ac"}, 422, "/text"),
            ({"signs": one, "text": "A", "library": 1}, 422, "/text"),
            ({"signs": one}, 422, "/text"),
            ({"signs": one, "library": 9}, 422, "/library"),
            ({"signs": one, "text": "A", "purpose": "joy"}, 422, "/purpose"),
            ({"signs": one, **FOG, "row": 2}, 422, "/row"),
            ({"signs": one, "text": "A", "row": 300}, 422, "/row"),
            ({"signs": one, "text": "A", "row": 0}, 422, "/row"),
            ({"signs": [bench.gantry, *one], "text": "A", "beacon": True, "pixel_service": True}, 422, "/beacon"),
            ({"signs": [999], "text": "A"}, 404, "/signs"),
        ):
            found = await system.post("/publish", said, "k")
            assert found[0] == status and at in [one["at"] for one in found[1]["faults"]], (said, found)
        assert (await system.post("/publish", {"signs": one, "text": "A[fo9]B"}, "k"))[1]["faults"] == [
            {"at": "/text", "why": "the sign has no such font", "signs": one, "offset": 1}
        ]
        assert (await system.post("/show", {"sign": bench.one, "memory": "changeable", "row": 2}, "k"))[0] == 422
        assert (await system.ask("POST", "/publish", {"signs": one, "text": "A"}))[0] == 400, "no key"
        sent = {"Authorization": f"Bearer {system.word}", "Idempotency-Key": "k"}
        for body, status in ((b"{", 400), (b'{"a": 1}', 422), (b"[]", 422), (b'"\xff"', 400)):
            answer = await system.client.post(f"{BASE}/publish", data=body, headers={**sent, "Content-Type": JSON})
            assert answer.status == status and "error" in await answer.json(), body
        answer = await system.client.post(f"{BASE}/publish", data={"signs": "1"}, headers=sent)
        assert answer.status == 415
        assert bench.store.database.run("SELECT id FROM commands") == []

    run(tmp_path, str(tmp_path / "database"), act)


def test_who_may_not_is_refused(tmp_path: pathlib.Path, where: str) -> None:
    async def act(bench: Bench, visitor: Visitors) -> None:
        held, said = bench.store.database, {"signs": [bench.one], **FOG}
        await readable(bench)
        reader, operator = System(bench, visitor, "reader"), System(bench, visitor, "operator")
        reading = System(bench, visitor, "administrator", reads_only=True)
        for system in (reader, reading):
            assert (await system.get("/signs"))[0] == 200
            assert (await system.post("/publish", said, "k"))[0] == 403
            assert (await system.get("/audit"))[0] == 403
        audit = history.audit(held, None)[0]
        assert audit[2] == "administrator" and "was refused GET /api/1/audit" in audit[3] and "token “" in audit[3]
        assert (await operator.get("/audit"))[0] == 403
        all_signs = next(one for one in groups.listed(held) if one.has_all)
        groups.give(held, all_signs.id, "operator", Level.NOTHING, "administrator")
        route = groups.add(held, "A9", "route", "administrator")
        groups.change_signs(held, route, frozenset([bench.two]), frozenset([bench.two]), "administrator")
        groups.give(held, route, "operator", Level.APPROVED, "administrator")
        assert [one["id"] for one in (await operator.get("/signs"))[1]["signs"]] == [bench.two]
        assert (await reader.get(f"/signs/{bench.two}/device"))[0] == 404, "it says nothing of itself"
        for path in (
            f"/signs/{bench.one}",
            f"/signs/{bench.one}/device",
            "/commands/1",
            "/batches/1",
            f"/events?signs={bench.one}",
        ):
            assert (await operator.get(path))[0] == 404, path
        for path in ("/alarms/1/acknowledge", "/plans/1/begin", "/commands/1/withdraw"):
            assert (await operator.ask("POST", path))[0] == 404, path
        for path, name in (("/alarms", "alarms"), ("/plans", "plans"), ("/commands", "commands")):
            assert (await operator.get(path))[1] == {name: []}
        assert all(bench.one not in one["approved"] for one in (await operator.get("/texts"))[1]["texts"])
        assert (await operator.post("/publish", said, "k"))[0] == 404
        status, found = await operator.post("/publish", {"signs": [bench.two], "text": "OWN"}, "k")
        assert status == 422 and "approved texts" in found["error"]
        assert rights.of_user(held, "operator").may_command(bench.two)

    run(tmp_path, where, act)


def test_only_a_token_counts(tmp_path: pathlib.Path) -> None:
    async def act(bench: Bench, visitor: Visitors) -> None:
        one = await bench.logged_in(visitor, "administrator")
        answer = await one.answered(f"{BASE}/signs")
        assert answer.status == 401 and answer.headers["WWW-Authenticate"].startswith("Bearer"), "a cookie is none"
        token = await one.token()
        answer = await one.client.post(f"{BASE}/publish", json={"signs": [1], **FOG}, headers={"X-Token": token})
        assert answer.status == 401
        for word in ("", "Bearer", "Bearer x", f"Basic {token}", "Bearer \u00e4".encode().decode("latin-1")):
            assert (await one.answered(f"{BASE}/signs", headers={"Authorization": word})).status == 401
        answer = await visitor().answered(f"{BASE}/openapi.json")
        assert answer.status == 200 and await answer.json() == DOCUMENT, "the document is for everybody"
        system = System(bench, visitor, "administrator")
        answer = await system.client.get(
            "/audit", headers={"Authorization": f"Bearer {system.word}"}, allow_redirects=False
        )
        assert answer.status == 303, "a token is good for no page"
        users.change_role(bench.store.database, "operator", Role.READER, "administrator")

    run(tmp_path, str(tmp_path / "database"), act)


def test_a_token_is_made_and_ended_on_a_page(tmp_path: pathlib.Path) -> None:
    async def act(bench: Bench, visitor: Visitors) -> None:
        one = await bench.logged_in(visitor, "operator")
        fields = {"do": "add", "name": "<b>map</b>", "days": "3", "reads": "1", "old": "wrong"}
        assert (await one.post("/account/tokens", fields))[0] == 403 and tokens.listed(bench.store.database) == []
        status, text, _ = await one.post("/account/tokens", {**fields, "old": "a password of tests"})
        assert status == 200 and "&lt;b&gt;map&lt;/b&gt;" in text
        word = text.split("The new token: <code>")[1].split("<")[0]
        found = tokens.find(bench.store.database, word, "-")
        assert found is not None and found.role is Role.READER and found.user == "operator"
        assert word not in (await one.get("/account"))[1], "it is shown once"
        for wrong in ({**fields, "days": "x"}, {"do": "no"}, {"do": "end", "number": "x"}):
            assert (await one.post("/account/tokens", {**wrong, "old": "a password of tests"}))[0] == 422
        chief = await bench.logged_in(visitor, "administrator")
        assert "&lt;b&gt;map&lt;/b&gt;" in (await chief.get("/users"))[1]
        assert (await chief.post("/account/tokens", {"do": "end", "number": "1"}))[0] == 422, "another one's"
        assert (await chief.post("/users", {"do": "end-token", "token-number": "1"}))[0] == 200
        assert tokens.find(bench.store.database, word, "-") is None

    run(tmp_path, str(tmp_path / "database"), act)


async def told(answer: Any) -> dict[str, Any]:
    """The next event: a sign as the document has it, but for when it was heard."""
    while True:
        line = await asyncio.wait_for(answer.content.readline(), 20)
        assert line, "the stream has ended"
        if line == b"event: sign\n":
            held: dict[str, Any] = json.loads((await answer.content.readline()).removeprefix(b"data: "))
            if "shown" in held:
                assert "heard" not in held["shown"]
                check("Sign", {**held, "shown": {**held["shown"], "heard": held["shown"]["since"]}})
            return held


def test_events_say_what_signs_show(tmp_path: pathlib.Path, where: str, monkeypatch: pytest.MonkeyPatch) -> None:
    monkeypatch.setattr(events, "SILENCE", 0.5)

    async def act(bench: Bench, visitor: Visitors) -> None:
        system = System(bench, visitor, "reader")
        sent = {"Authorization": f"Bearer {system.word}"}
        every = await system.client.get(f"{BASE}/events", headers=sent)
        assert every.status == 200 and every.content_type == "text/event-stream"
        assert {(await told(every))["id"] for _ in NAMES} == set(bench.rows.values())
        two = await system.client.get(f"{BASE}/events?signs={bench.two}", headers=sent)
        assert (await told(two))["id"] == bench.two
        bench.read(bench.one, text=b"OTHER".hex())
        bench.read(bench.two, text=b"NEW".hex())
        assert {(await told(every))["shown"]["text"] for _ in range(2)} == {"OTHER", "NEW"}
        assert (await told(two))["shown"]["text"] == "NEW"
        tokens.end(bench.store.database, 1, "a test")
        ends = await asyncio.wait_for(asyncio.gather(every.content.read(), two.content.read()), 20)
        assert all(b"event" not in end for end in ends), "the streams end with the token"

    run(tmp_path, where, act)


def test_plans_are_begun_and_ended(tmp_path: pathlib.Path) -> None:
    async def act(bench: Bench, visitor: Visitors) -> None:
        line = f"publish 3 1 {b'FOG'.hex()} {b'me'.hex()} 0 0 100 65535 255 192.0.2.1"
        plan = plans.keep(bench.store.database, "fog", [(bench.one, line)], "operator")
        system = System(bench, visitor, "operator")
        status, found = await system.ask("POST", f"/plans/{plan}/begin")
        assert status == 200 and found["is_on"] and (await system.ask("POST", f"/plans/{plan}/begin"))[0] == 403
        status, found = await system.ask("POST", f"/plans/{plan}/end")
        assert status == 200 and not found["is_on"] and (await system.ask("POST", "/plans/99/end"))[0] == 404

    run(tmp_path, str(tmp_path / "database"), act)


def test_the_page_names_the_document() -> None:
    assert f"{BASE}/openapi.json" in (TOP / "docs/CONTROL.md").read_text()
