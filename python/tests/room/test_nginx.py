"""The pages behind TLS: the example nginx.conf, run by nginx."""

import contextlib
import pathlib
import socket
import ssl
from typing import Any, AsyncIterator

from . import needs

needs.modules("aiohttp", "jinja2")
needs.programs("nginx", "openssl")

import aiohttp
from aiohttp.abc import AbstractResolver

from .test_events import told
from .tls import NAME, nginx
from .visits import PASSWORD, Bench, Visitor, Visitors, run

BOAST = "203.0.113.9"  # an address that a client says it has


class Here(AbstractResolver):
    """Every name is this machine's."""

    async def resolve(self, host: str, port: int = 0, family: int = socket.AF_INET) -> list[dict[str, Any]]:
        return [{"hostname": host, "host": "127.0.0.1", "port": port, "family": socket.AF_INET, "proto": 0, "flags": 0}]

    async def close(self) -> None:
        pass


@contextlib.asynccontextmanager
async def behind(bench: Bench, service: int, folder: pathlib.Path) -> AsyncIterator[Visitor]:
    """A visitor who comes through the proxy, knows its certificate, and says the page's origin as a browser does."""
    with nginx(folder, service) as port:
        url = f"https://{NAME}:{port}"
        known = aiohttp.TCPConnector(
            ssl=ssl.create_default_context(cafile=str(folder / "certificate.pem")), resolver=Here()
        )
        headers = {"Origin": url, "X-Forwarded-For": BOAST}
        async with aiohttp.ClientSession(url, connector=known, headers=headers) as session:
            yield Visitor(session)


def test_all_through_the_proxy(tmp_path: pathlib.Path) -> None:
    async def act(bench: Bench, visitor: Visitors) -> None:
        async with behind(bench, visitor().client.port, tmp_path) as one:
            form = await one.answered("/login")
            assert form.status == 200 and form.headers["Strict-Transport-Security"] == "max-age=31536000"
            token = await one.token("/login")
            answer = await one.answered("/login", {"token": token, "name": "operator", "password": PASSWORD})
            assert answer.status == 303 and answer.headers["Location"] == "/"
            (cookie,) = [line for line in answer.headers.getall("Set-Cookie") if line.startswith("__Host-login=")]
            for word in ("Secure", "HttpOnly", "SameSite=Strict", "Path=/"):
                assert word in cookie, cookie
            assert (await one.get("/"))[0] == 200
            lines = bench.store.database.run("SELECT what FROM audit WHERE who = 'operator' ORDER BY id DESC LIMIT 1")
            assert lines == [("logged in, from 127.0.0.1",)], "the proxy's word counts, and not the client's"
            await refused(one)
            await followed(bench, one)
            left = await one.answered("/logout", {"token": await one.token()})
            (cookie,) = [line for line in left.headers.getall("Set-Cookie") if line.startswith("__Host-login=")]
            assert (
                "Max-Age=0" in cookie and "Secure" in cookie
            ), "else a browser does not take it for the one that it has"

    run(tmp_path, str(tmp_path / "database"), act, is_behind_tls=True)


async def refused(one: Visitor) -> None:
    """What changes nothing: a form without its token, one of another site, one that is too long."""
    fields = {"kind": "blank", "sign": "1", "number": "1", "confirmation": "x" * 24}
    assert (await one.answered("/send", fields)).status == 403
    other = {"Origin": "https://elsewhere.example"}
    assert (await one.answered("/send", {**fields, "token": await one.token()}, other)).status == 403
    assert (await one.answered("/send", {**fields, "text": "x" * 200_000})).status == 413


async def followed(bench: Bench, one: Visitor) -> None:
    """An event comes when it happens, though the proxy stands between."""
    async with one.client.get("/events?view=wall") as answer:
        assert answer.status == 200 and answer.headers["Content-Type"] == "text/event-stream"
        await told(answer)
        bench.read(bench.two, text=b"NEW".hex())
        assert "shows NEW" in (await told(answer))[f"sign-{bench.two}"]


def test_the_proxy_speaks_tls_alone(tmp_path: pathlib.Path) -> None:
    async def act(bench: Bench, visitor: Visitors) -> None:
        with nginx(tmp_path, visitor().client.port) as port:
            known = ssl.create_default_context(cafile=str(tmp_path / "certificate.pem"))
            known.set_alpn_protocols(["h2", "http/1.1"])
            with socket.create_connection(("127.0.0.1", port), 20) as plain:
                with known.wrap_socket(plain, server_hostname=NAME) as found:
                    assert found.version() in ("TLSv1.2", "TLSv1.3") and found.selected_alpn_protocol() == "h2"
            async with aiohttp.ClientSession() as session, session.get(f"http://127.0.0.1:{port}/login") as answer:
                assert answer.status == 400

    run(tmp_path, str(tmp_path / "database"), act, is_behind_tls=True)


def test_a_service_that_is_off_is_told(tmp_path: pathlib.Path) -> None:
    async def act(bench: Bench, visitor: Visitors) -> None:
        async with behind(bench, 9, tmp_path) as one:
            assert (await one.answered("/login")).status == 502

    run(tmp_path, str(tmp_path / "database"), act, is_behind_tls=True)
