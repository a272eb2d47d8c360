"""The service: where its pages are, and for whom."""

import os
import pathlib
import signal
import socket
import subprocess
import sys
import time
import urllib.request
from unittest import mock

import pytest

from . import needs

needs.modules("aiohttp", "jinja2")

from trials.room.beside import Service
from wisangub.endpoint.sockets import Waiting
from wisangub.refusal import Refusal
from wisangub.room import serve
from wisangub.room.addresses import is_this_machine
from wisangub.room.beside import Begun
from wisangub.room.serve import arguments
from wisangub.room.service import Pages
from wisangub.room.store import passwords

from .bench import PROGRAM, bench
from .visits import Bench


def test_the_pages_are_for_this_machine_unless_told() -> None:
    assert arguments().parse_args(["--fleet", "a"]).listen == "127.0.0.1:8080"
    assert arguments().parse_args(["--fleet", "a", "--listen", "0.0.0.0:80"]).listen == "0.0.0.0:80"


@pytest.mark.parametrize("listen", ("0.0.0.0:80", "[::]:80", "192.0.2.1:80"))
def test_other_machines_reach_them_by_tls_unless_told(monkeypatch: pytest.MonkeyPatch, listen: str) -> None:
    def main(*words: str) -> int:
        monkeypatch.setattr("sys.argv", ["wisangub-control", "--fleet", "/nowhere", "--listen", listen, *words])
        return serve.main()

    with pytest.raises(Refusal, match="in the clear: --behind-tls"):
        main()
    for word in ("--behind-tls", "--plain-http"):
        with pytest.raises(Refusal, match="/nowhere"):
            main(word)
    assert all(map(is_this_machine, ("127.0.0.1", "127.9.9.9", "::1", "localhost"))) and not is_this_machine("")


def test_the_pages_answer_where_they_are_told_to_be_alone(
    tmp_path: pathlib.Path, monkeypatch: pytest.MonkeyPatch
) -> None:
    monkeypatch.setattr(passwords, "COST", 2**4)
    made = Bench(tmp_path, str(tmp_path / "database"))
    pages = Pages(made.settings, list(made.service.signs.values()), "127.0.0.1", 0)
    pages.start()
    try:
        with urllib.request.urlopen(pages.address, timeout=20) as answer:
            assert answer.status == 200 and answer.url == f"{pages.address}login"
        with pytest.raises(OSError), socket.create_connection(("127.0.0.2", pages.port), 5):
            pass
        others = Pages(made.settings, list(made.service.signs.values()), "127.0.0.1", pages.port)
        with pytest.raises(Refusal, match="in use"):
            others.start()
        others.service.close()
    finally:
        pages.stop()
        made.store.database.close()
        made.service.close()


@pytest.mark.parametrize("host, port", (("a" * 64 + ".example", 0), ("127.0.0.1", 65536), ("192.0.2.1", 0)))
def test_where_no_pages_can_be_is_said_at_once(
    tmp_path: pathlib.Path, monkeypatch: pytest.MonkeyPatch, host: str, port: int
) -> None:
    monkeypatch.setattr(passwords, "COST", 2**4)
    made = Bench(tmp_path, str(tmp_path / "database"))
    pages, begun = Pages(made.settings, list(made.service.signs.values()), host, port), time.monotonic()
    with pytest.raises(Refusal, match=host) as refused:
        pages.start()
    assert time.monotonic() - begun < 30 and "no pages in time" not in str(refused.value)
    pages.thread.join(30)
    assert not pages.thread.is_alive() and pages.loop.is_closed()
    pages.service.close()
    made.store.database.close()
    made.service.close()


@pytest.mark.parametrize("which", (0, 1))
def test_pages_and_worker_end_together(tmp_path: pathlib.Path, which: int) -> None:
    """Whichever of the two processes is killed; and the port is free for the next service."""
    with bench(tmp_path, str(tmp_path / "database")) as at:
        service = Service(at.fleet, at.where, PROGRAM, tmp_path / "said")
        for _ in range(2):
            service.start()
            assert service.process is not None
            os.kill(service.pids[which], signal.SIGKILL)
            assert service.process.wait(60) == (-signal.SIGKILL, 1)[which]
        ends = time.monotonic() + 60
        with pytest.raises(OSError):
            while time.monotonic() < ends:
                socket.create_connection(("127.0.0.1", service.port), 5).close()
        assert which == 0 or "the pages ended by themselves" in service.said.read_text()


@pytest.mark.parametrize("does, status", (("os.kill(os.getpid(), 9)", 1), ("sys.exit(2)", 2), ("sys.exit()", 1)))
def test_pages_that_end_before_they_stand_say_how_the_service_ends(does: str, status: int) -> None:
    process = subprocess.Popen([sys.executable, "-c", f"import os, sys; {does}"])
    ours, theirs = socket.socketpair()
    with ours, theirs:
        waiting = mock.create_autospec(Waiting, instance=True, is_stopped=False)
        assert Begun(process, ours).status(waiting) == status
