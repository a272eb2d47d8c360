"""Who is slow, says nothing or says what is none: pages and worker go on, and the log has no traceback."""

import contextlib
import pathlib
import re
import socket
import time
import urllib.request
from typing import Any, Iterator

import pytest

from . import needs

needs.modules("aiohttp", "jinja2")

from aiohttp import web

from trials.room.beside import Service
from wisangub.room.service import Pages
from wisangub.room.store import passwords
from wisangub.room.web.limits import Patience
from wisangub.room.web.service import Service as OfPages

from .bench import HELLO, PROGRAM, bench
from .visits import Bench

HALF_OPEN = 365
HEAD = b"GET /login HTTP/1.1\r\nHost: a\r\n"
LATE = 60.0  # seconds that a busy machine takes


@contextlib.contextmanager
def pages(folder: pathlib.Path, **settings: Any) -> Iterator[Pages]:
    """Pages that stand as long as the block, over a database in a folder of their own."""
    folder.mkdir(exist_ok=True)
    made = Bench(folder, str(folder / "database"), **settings)
    standing = Pages(made.settings, list(made.service.signs.values()), "127.0.0.1", 0)
    standing.start()
    try:
        yield standing
    finally:
        standing.stop()
        made.store.database.close()
        made.service.close()


def said(port: int, octets: bytes) -> bytes:
    """All that comes back until the connection ends."""
    with socket.create_connection(("127.0.0.1", port), LATE) as connection:
        connection.sendall(octets)
        found = b""
        with contextlib.suppress(ConnectionError):
            while more := connection.recv(65536):
                found += more
    return found


def is_there(address: str) -> bool:
    with urllib.request.urlopen(f"{address}/login", timeout=LATE) as answer:
        return int(answer.status) == 200


def test_who_is_slow_is_let_go(
    tmp_path: pathlib.Path, monkeypatch: pytest.MonkeyPatch, capfd: pytest.CaptureFixture[str]
) -> None:
    monkeypatch.setattr(passwords, "COST", 2**4)
    with pages(tmp_path / "head", patience=Patience(head=0.5)) as standing:
        assert said(standing.port, HEAD) == b"", "a head that does not end"
        assert said(standing.port, b"") == b"", "and none"
        for malformed in (b"\x16\x03\x01\x02", b"GET / HTTP/9\r\n\r\n", b"G ET\r\n\r\n", HEAD + b"a\r\n\r\n"):
            assert said(standing.port, malformed)[:12] in (b"", b"HTTP/1.0 400", b"HTTP/1.1 400"), malformed
    with pages(tmp_path / "idle", patience=Patience(head=LATE, idle=0.5)) as standing:
        whole = HEAD + b"\r\n"
        assert said(standing.port, whole).startswith(b"HTTP/1.1 200"), "a connection that says nothing more"
    with pages(tmp_path / "body", patience=Patience(head=LATE, body=0.5)) as standing:
        post = b"POST /login HTTP/1.1\r\nHost: a\r\nContent-Type: application/x-www-form-urlencoded\r\n"
        assert said(standing.port, post + b"Content-Length: 9\r\n\r\nname").startswith(b"HTTP/1.1 408")
    assert "Traceback" not in capfd.readouterr().err


COOKIE = re.compile(rb"Set-Cookie: (before=[^;]+)")
OWN_TOKEN = re.compile(rb'name="token" value="([0-9a-f]{64})"')


def asked(port: int, first: bytes, body: bytes = b"", **headers: bytes) -> bytes:
    """What comes back for a request of these octets, after which the connection ends."""
    lines = [first + b" HTTP/1.1", b"Host: a", b"Connection: close", b"Content-Length: %d" % len(body)]
    lines += [name.replace("_", "-").encode() + b": " + value for name, value in headers.items()]
    return said(port, b"\r\n".join([*lines, b"", body]))


LONG = 10_000_000  # octets of a page, more than two machines keep between a program and another


def test_a_page_that_comes_slowly_comes_whole(tmp_path: pathlib.Path, monkeypatch: pytest.MonkeyPatch) -> None:
    monkeypatch.setattr(passwords, "COST", 2**4)
    with pages(tmp_path / "slow", patience=Patience(head=LATE, idle=2.0)) as standing:
        monkeypatch.setattr(OfPages, "page", lambda *_, **__: web.Response(body=bytes(LONG)))
        with socket.socket() as connection:
            connection.setsockopt(socket.SOL_SOCKET, socket.SO_RCVBUF, 65536)
            connection.settimeout(LATE)
            connection.connect(("127.0.0.1", standing.port))
            connection.sendall(HEAD + b"Connection: close\r\n\r\n")
            size = 0
            while more := connection.recv(100_000):
                size += len(more)
                time.sleep(0.05)
        assert size > LONG, "all of it, though it took longer than a connection waits for its next request"
        begun = time.monotonic()
        with socket.create_connection(("127.0.0.1", standing.port), LATE) as connection:
            connection.sendall(HEAD + b"\r\n")
            while standing.service.limits.standing and time.monotonic() - begun < LATE:
                time.sleep(0.1)
        assert not standing.service.limits.standing, "who takes nothing of it keeps no connection"


def test_what_is_no_text_is_refused_and_told_nowhere(
    tmp_path: pathlib.Path, monkeypatch: pytest.MonkeyPatch, capfd: pytest.CaptureFixture[str]
) -> None:
    monkeypatch.setattr(passwords, "COST", 2**4)
    with pages(tmp_path) as standing:
        form = asked(standing.port, b"GET /login")
        cookie, token = COOKIE.search(form), OWN_TOKEN.search(form)
        assert cookie is not None and token is not None
        fields = b"name=%b&password=b&token=" + token[1]
        kind = b"application/x-www-form-urlencoded"
        own: dict[str, bytes] = {"Cookie": cookie[1], "Content_Type": kind}
        requests: tuple[tuple[int, bytes, bytes, dict[str, bytes]], ...] = (
            (200, b"GET /login", b"", {"Cookie": b'before="a.\xff"'}),
            (303, b"GET /", b"", {"Cookie": b'login="a.\xff"'}),
            (400, b"GET /?find=\xff", b"", {}),
            (400, b"GET /login?next=%00", b"", {}),
            (400, b"POST /login", fields % b"\xff", own),
            (400, b"POST /login", fields % b"a%00", own),
            (400, b"POST /login", fields % b"\\ud800", {**own, "Content_Type": kind + b"; charset=unicode_escape"}),
            (403, b"POST /login", fields % b"a", {**own, "X_Token": b"\xff"}),
            (403, b"POST /login", fields % b"a", {**own, "Origin": b"http://["}),
            (401, b"GET /api/1/signs", b"", {"Authorization": b"Bearer \xff"}),
            (404, b"GET /static/" + b"a" * 5000, b"", {}),
        )
        for status, first, body, headers in requests:
            found = asked(standing.port, first, body, **headers)
            assert found.startswith(b"HTTP/1.1 %d" % status), (first[:40], headers, found[:80])
    assert "failed" not in capfd.readouterr().err


def test_one_that_waits_gives_way(tmp_path: pathlib.Path, monkeypatch: pytest.MonkeyPatch) -> None:
    monkeypatch.setattr(passwords, "COST", 2**4)
    with pages(tmp_path, patience=Patience(most=8, most_of_address=4)) as standing, contextlib.ExitStack() as stack:
        connections = [
            stack.enter_context(socket.create_connection(("127.0.0.1", standing.port), LATE)) for _ in range(6)
        ]
        for connection in connections[:2]:
            assert connection.recv(1) == b"", "those that have waited longest"
        connections[-1].sendall(HEAD + b"\r\n")
        assert connections[-1].recv(12) == b"HTTP/1.1 200"


def test_half_open_requests_leave_pages_and_worker_at_work(tmp_path: pathlib.Path) -> None:
    where = str(tmp_path / "database")
    with bench(tmp_path, where) as at, contextlib.ExitStack() as stack:
        service = Service(at.fleet, where, PROGRAM, tmp_path / "said")
        stack.callback(service.kill)
        service.start()
        for _ in range(HALF_OPEN):
            connection = stack.enter_context(socket.create_connection(("127.0.0.1", service.port), LATE))
            connection.sendall(HEAD)
        begun = time.monotonic()
        assert is_there(service.address) and time.monotonic() - begun < LATE
        command = at.ask(HELLO)
        ends = time.monotonic() + 60
        while (how := at.store.commands.how(command)) is None and time.monotonic() < ends:
            assert is_there(service.address)
        assert how == "accepted" and "Traceback" not in service.said.read_text()
