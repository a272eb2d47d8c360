"""The access log: a line of JSON for each request, and no secret in it."""

import errno
import json
import os
import pathlib
import stat
import threading
import urllib.error
import urllib.request

import pytest

from . import needs

needs.modules("aiohttp", "jinja2")

from aiohttp import web
from aiohttp.test_utils import make_mocked_request

from trials.room.beside import Browser
from wisangub.refusal import Refusal
from wisangub.room.service import Pages
from wisangub.room.store import passwords
from wisangub.room.web.access import AccessLog

from .test_limits import pages, said
from .visits import PASSWORD, Bench

KEYS = ["at", "address", "user", "method", "path", "status", "octets", "milliseconds"]


def test_each_request_is_a_line(tmp_path: pathlib.Path, monkeypatch: pytest.MonkeyPatch) -> None:
    monkeypatch.setattr(passwords, "COST", 2**4)
    log = tmp_path / "access"
    with pages(tmp_path, access_log=str(log)) as standing:
        browser = Browser(standing.address.rstrip("/"), "operator", PASSWORD)
        browser.get("/compose?text=a+secret+text")
        log.rename(tmp_path / "older")
        with pytest.raises(urllib.error.HTTPError):
            browser.get("/users")
        said(standing.port, b"G ET\r\n\r\n")
    lines = [json.loads(line) for path in (tmp_path / "older", log) for line in path.read_text().splitlines()]
    assert all(list(line) == KEYS for line in lines) and stat.S_IMODE(log.stat().st_mode) == 0o600
    asked = [(line["user"], line["method"], line["path"], line["status"]) for line in lines]
    assert asked[1:3] == [(None, "POST", "/login", 303), ("operator", "GET", "/", 200)]
    assert ("operator", "GET", "/compose", 200) in asked and ("operator", "GET", "/users", 403) in asked
    assert asked[-1][3] == 400 and {line["address"] for line in lines} == {"127.0.0.1"}
    text = (tmp_path / "older").read_text() + log.read_text()
    assert PASSWORD not in text and "secret" not in text and "login=" not in text


def test_a_log_that_cannot_be_written_is_said(tmp_path: pathlib.Path, monkeypatch: pytest.MonkeyPatch) -> None:
    monkeypatch.setattr(passwords, "COST", 2**4)
    made = Bench(tmp_path, str(tmp_path / "database"), access_log=str(tmp_path / "none" / "access"))
    standing = Pages(made.settings, list(made.service.signs.values()), "127.0.0.1", 0)
    with pytest.raises(Refusal, match="none/access"):
        standing.start()
    standing.service.close()
    made.service.close()
    made.store.database.close()


def test_a_log_that_fails_later_keeps_nobody_waiting(
    tmp_path: pathlib.Path, monkeypatch: pytest.MonkeyPatch, capfd: pytest.CaptureFixture[str]
) -> None:
    monkeypatch.setattr(passwords, "COST", 2**4)
    (tmp_path / "logs").mkdir()
    with pages(tmp_path, access_log=str(tmp_path / "logs" / "access")) as standing:
        (tmp_path / "logs").rename(tmp_path / "away")
        for _ in range(3):
            with urllib.request.urlopen(f"{standing.address}login", timeout=20) as answer:
                assert answer.status == 200
    assert capfd.readouterr().err.count("the access log: ") == 1


def test_a_line_that_is_written_in_part_takes_no_other_with_it(
    tmp_path: pathlib.Path, monkeypatch: pytest.MonkeyPatch, capfd: pytest.CaptureFixture[str]
) -> None:
    """As a disk becomes full; and the file may be another one by then."""
    path, room, write = tmp_path / "access", [1 << 20], os.write
    log = AccessLog(str(path), is_behind_tls=False)

    def full(file: int, octets: bytes) -> int:
        if not room[0] and octets:
            raise OSError(errno.ENOSPC, os.strerror(errno.ENOSPC))
        written = write(file, octets[: room[0]])
        room[0] -= written
        return written

    def asked(most: int, *paths: str) -> None:
        room[0] = most
        with monkeypatch.context() as patched:
            patched.setattr(os, "write", full)
            for one in paths:
                log.write(make_mocked_request("GET", one), web.Response(), 0.0)

    def read(file: pathlib.Path) -> list[str]:
        return [json.loads(line)["path"] for line in file.read_text().split("\n") if line.endswith("}")]

    asked(1 << 20, "/a")
    asked(50, "/b", "/c")
    asked(1 << 20, "/d", "/e")
    assert read(path) == ["/a", "/d", "/e"]
    assert capfd.readouterr().err.count("the access log: ") == 1
    asked(50, "/f")
    path.rename(tmp_path / "older")
    asked(1 << 20, "/g")
    assert read(tmp_path / "older") == ["/a", "/d", "/e"] and read(path) == ["/g"]
    assert path.read_text().startswith("{") and capfd.readouterr().err.count("the access log: ") == 1


def test_a_pipe_that_nobody_reads_keeps_nobody_waiting(
    tmp_path: pathlib.Path, capfd: pytest.CaptureFixture[str]
) -> None:
    path = tmp_path / "access"
    os.mkfifo(path)
    reader = os.open(path, os.O_RDONLY | os.O_NONBLOCK)
    log = AccessLog(str(path), is_behind_tls=False)

    def asked(times: int) -> None:
        for _ in range(times):
            log.write(make_mocked_request("GET", "/" + 500 * "a"), web.Response(), 0.0)

    def is_done(times: int) -> bool:
        asking = threading.Thread(target=asked, args=(times,), daemon=True)
        asking.start()
        asking.join(20)
        return not asking.is_alive()

    try:
        assert is_done(1) and json.loads(os.read(reader, 4096))["status"] == 200
        assert is_done(1000), "a pipe that is full"
        os.close(reader)
        assert is_done(3), "a pipe without a reader"
        assert capfd.readouterr().err.count("the access log: ") == 1
        with pytest.raises(Refusal, match="access: "):
            AccessLog(str(path), is_behind_tls=False)
    finally:
        path.unlink()
