"""A control room for tests: pages without a worker, and visitors who ask for them."""

import asyncio
import contextlib
import json
import os
import pathlib
import re
from typing import Any, AsyncIterator, Awaitable, Callable

import yarl
from aiohttp import ClientResponse
from aiohttp.test_utils import TestClient, TestServer

from wisangub.process.places import SIGNTOOL, TOP
from wisangub.room import fleet
from wisangub.room.device import ERRORS, LASTING, MEASURED
from wisangub.room.store import database, passwords, users
from wisangub.room.store.devices import DeviceSaid
from wisangub.room.store.messages import RowSaid
from wisangub.room.store.readings import Said
from wisangub.room.store.store import Store
from wisangub.room.store.users import Role
from wisangub.room.web.app import application
from wisangub.room.web.service import Service
from wisangub.room.web.settings import Settings, zone_of

PROGRAM = os.environ.get("SIGNTOOL", str(SIGNTOOL))
READER, WRITER = "r3ad-c0mmun1ty", "wr1te-c0mmun1ty"
PASSWORD = "a password of tests"
SHOWN = {
    "source": "0300019a66",
    "mode": 8,
    "requester": "c0000201",
    "text": b"FOG".hex(),
    "owner": b"me".hex(),
    "beacon": 0,
    "pixel": 0,
    "priority": 100,
}
ITSELF: dict[str, int | str] = {
    "sysName": b"roadside".hex(),
    "sysDescr": b"a message sign".hex(),
    "moduleMake": b"Example Signs".hex(),
    "moduleModel": b"RS 96".hex(),
    "moduleVersion": b"1.0".hex(),
    "dmsSignWidth": 1920,
    "dmsSignHeight": 540,
    "dmsIllumControl": 6,
    "dmsIllumNumBrightLevels": 8,
    "dmsIllumManLevel": 8,
    "dmsStatDoorOpen": 5,
    "shortErrorStatus": 36,
    "dmsIllumBrightLevelStatus": 6,
    "dmsIllumLightOutputStatus": 49151,
    "tempMinCtrlCabinet": 20,
    "tempMaxCtrlCabinet": 31,
    "tempMinAmbient": -4,
    "tempMaxAmbient": -4,
    "tempMinSignHousing": 7,
    "tempMaxSignHousing": 8,
}  # what a sign says of itself
NAMES = ("one", "<b>two</b>", "gantry")
TOKEN = re.compile(r'name="token" value="([0-9a-f]{64})"')


def entered(folder: pathlib.Path) -> pathlib.Path:
    """A fleet of three signs whose communities stand nowhere else; nothing answers at their ports."""
    for name in ("roadside", "gantry"):
        text = (TOP / f"signs/{name}.sign").read_text()
        (folder / f"{name}.sign").write_text(re.sub(r"(?m)^communities .*$", f"communities {READER} {WRITER}", text))
    signs = [
        f'[[sign]]\nname = "{name}"\nplace = "at <i>{port}</i>"\naddress = "127.0.0.1:{port}"\n'
        f'description = "{"gantry" if name == "gantry" else "roadside"}.sign"\n'
        for port, name in enumerate(NAMES, 19161)
    ]
    (folder / "fleet.toml").write_text("\n".join(signs))
    return folder / "fleet.toml"


class Visitor:
    """A browser with cookies of its own."""

    def __init__(self, client: Any) -> None:
        self.client = client

    async def get(self, path: str) -> tuple[int, str]:
        async with self.client.get(yarl.URL(path, encoded=True), allow_redirects=False) as answer:
            return answer.status, await answer.text()

    async def answered(self, path: str, fields: Any = None, headers: dict[str, str] | None = None) -> ClientResponse:
        """A request, with its answer's headers; a POST where there are fields."""
        method = "GET" if fields is None else "POST"
        answer = await self.client.request(method, path, data=fields, headers=headers, allow_redirects=False)
        await answer.read()
        return answer

    async def token(self, path: str = "/account") -> str:
        """The token of a page's forms."""
        found = TOKEN.search((await self.get(path))[1])
        assert found is not None, path
        return found[1]

    async def post(self, path: str, fields: dict[str, Any] | list[tuple[str, Any]]) -> tuple[int, str, str]:
        """The status, the text and where it leads, of a form with its token."""
        held = list(fields.items()) if isinstance(fields, dict) else fields
        answer = await self.answered(path, [*held, ("token", await self.token())])
        return answer.status, await answer.text(), answer.headers.get("Location", "")

    async def log_in(self, name: str, password: str = PASSWORD, then: str = "/") -> tuple[int, str]:
        """The status, and where it leads."""
        token = await self.token("/login")
        answer = await self.answered("/login", {"token": token, "name": name, "password": password, "next": then})
        return answer.status, answer.headers.get("Location", await answer.text())


Visitors = Callable[[], Visitor]


class Bench:
    """A room with a user of each role; the names of the users are those of their roles."""

    def __init__(self, folder: pathlib.Path, where: str, is_behind_tls: bool = False, **settings: Any) -> None:
        database.opened(where).close()
        held: dict[str, Any] = {"zone": zone_of("Europe/Berlin"), "look": 0.05, **settings}
        self.settings = Settings(where, PROGRAM, is_behind_tls, **held)
        self.service = Service(self.settings, fleet.read(entered(folder)))
        self.store = Store(database.opened(where))
        for role in Role:
            users.add(self.store.database, role.word, role, PASSWORD, "a test")
        self.rows = {sign.name: row for row, sign in self.service.signs.items()}
        self.one, self.two, self.gantry = (self.rows[name] for name in NAMES)

    def read(self, row: int, number: int = -1, minutes: int = 65535, **changed: Any) -> None:
        """A sign says what it shows."""
        self.store.readings.keep([Said(row, number, minutes, json.dumps({**SHOWN, **changed}))])

    def silent(self, row: int, number: int = -2) -> None:
        self.store.readings.keep([Said(row, number, fault="no reply")])

    def table(self, row: int, reading: int = -3, priority: int = 9, number: int = 1) -> None:
        """A sign says a row of its table."""
        held = {
            "text": b"FOG".hex(),
            "owner": b"me".hex(),
            "checksum": 0x9A66,
            "beacon": 0,
            "pixel": 0,
            "priority": priority,
        }
        self.store.messages.keep([RowSaid(row, 3, number, reading, 4, json.dumps(held))])

    def itself(self, row: int, number: int = -11, **changed: int | str | None) -> None:
        """A sign says of itself what ITSELF has, but for what is changed, or left out."""
        every: dict[str, int | str | None] = {**ITSELF, **changed}
        values = {name: value for name, value in every.items() if value is not None}
        lasting, measured = ({name: values[name] for name in names if name in values} for names in (LASTING, MEASURED))
        errors = values.get(ERRORS, 0)
        assert isinstance(errors, int)
        self.store.devices.keep([DeviceSaid(row, number, lasting, measured, errors, frozenset(), True)])

    @contextlib.asynccontextmanager
    async def standing(self) -> AsyncIterator[Visitors]:
        """The service, and a way to make visitors."""
        server = TestServer(application(self.service))
        await server.start_server()
        clients: list[TestClient] = []

        def visitor() -> Visitor:
            clients.append(TestClient(server))
            return Visitor(clients[-1])

        try:
            yield visitor
        finally:
            for client in clients:
                await client.session.close()
            await server.close()
            self.service.close()

    async def logged_in(self, visitor: Visitors, name: str) -> Visitor:
        made = visitor()
        assert await made.log_in(name) == (303, "/")
        return made


Act = Callable[[Bench, Visitors], Awaitable[None]]


def run(folder: pathlib.Path, where: str, act: Act, is_behind_tls: bool = False, **settings: Any) -> None:
    """What visitors do."""
    before, passwords.COST = passwords.COST, 2**4

    async def acted() -> None:
        bench = Bench(folder, where, is_behind_tls, **settings)
        async with bench.standing() as visitor:
            await asyncio.wait_for(act(bench, visitor), 120)
        bench.store.database.close()

    try:
        asyncio.run(acted())
    finally:
        passwords.COST = before
