"""The demonstration: one command, signs that are seen, a password that is taken, and nothing left at its end."""

import asyncio
import contextlib
import os
import pathlib
import re
import select
import signal
import socket
import subprocess
import sys
import time

from . import needs

needs.modules("aiohttp", "jinja2")

import aiohttp
import pytest

from trials.room.ports import free_port
from wisangub.process.places import TOP
from wisangub.refusal import Refusal
from wisangub.room import demo

from .visits import PROGRAM, Visitor

LIMIT = 600.0  # seconds after which something hangs: a machine whose disk is busy takes minutes for a start
NAMES = ("north", "south")


def until_said(process: subprocess.Popen[bytes], words: str) -> str:
    """What it printed, up to these words."""
    assert process.stdout is not None
    said, ends = b"", time.monotonic() + LIMIT
    while words.encode() not in said:
        assert time.monotonic() < ends and process.poll() is None, said
        if select.select([process.stdout], [], [], 0.2)[0]:
            said += os.read(process.stdout.fileno(), 65536)
    return said.decode()


async def seen(url: str, password: str, process: subprocess.Popen[bytes]) -> None:
    """A reader with the printed password sees both signs, as they were heard, while the demonstration stands."""
    async with aiohttp.ClientSession(url, cookie_jar=aiohttp.CookieJar(unsafe=True)) as session:
        one = Visitor(session)
        assert await one.log_in("reader", password) == (303, "/")
        page = ""
        while page.count("heard <time") < len(NAMES) or "2 signs, 0 lit, 0 silent" not in page:
            assert process.poll() is None, "it stands"
            await asyncio.sleep(0.2)
            page = (await one.get("/"))[1]
        assert all(name in page for name in NAMES)


def fleet_at(folder: pathlib.Path, ports: list[int]) -> str:
    """The file of a fleet of signs at these ports."""
    (folder / "fleet.toml").write_text(
        "\n".join(
            f'[[sign]]\nname = "{name}"\naddress = "127.0.0.1:{port}"\ndescription = "{TOP}/signs/roadside.sign"\n'
            for name, port in zip(NAMES, ports)
        )
    )
    return str(folder / "fleet.toml")


def refused(fleet: str) -> str:
    """What it says of a fleet whose signs do not all stand."""
    words = ["--fleet", fleet, "--listen", f"127.0.0.1:{free_port()}", "--signtool", PROGRAM]
    command = [sys.executable, "-m", "wisangub.room.demo", *words]
    ran = subprocess.run(command, cwd=TOP, stdin=subprocess.DEVNULL, capture_output=True, timeout=LIMIT)
    assert ran.returncode == 1 and b"log in" not in ran.stdout
    return ran.stderr.decode()


def test_a_sign_whose_port_is_taken_is_named(tmp_path: pathlib.Path) -> None:
    with socket.socket(socket.AF_INET, socket.SOCK_DGRAM) as held:
        held.bind(("127.0.0.1", 0))
        fleet = fleet_at(tmp_path, [free_port(socket.SOCK_DGRAM), held.getsockname()[1]])
        assert "no sign stands for south: is its port in use?" in refused(fleet)


def test_a_sign_that_does_not_come_up_is_named(tmp_path: pathlib.Path) -> None:
    sleeps = ["sleep", "60"]
    (tmp_path / "up").write_bytes(b"a sign at 127.0.0.1:1161\n")
    (tmp_path / "down").write_bytes(b"")
    with subprocess.Popen(sleeps) as first, subprocess.Popen(sleeps) as second:
        signs = [demo.Sign("north", first, tmp_path / "up"), demo.Sign("south", second, tmp_path / "down")]
        try:
            demo.await_signs(signs[:1], 0.0)
            with pytest.raises(Refusal, match="no sign stands for south after 0 s"):
                demo.await_signs(signs, 0.1)
        finally:
            first.kill()
            second.kill()


def test_the_whole_with_one_command(tmp_path: pathlib.Path) -> None:
    ports, listen = [free_port(socket.SOCK_DGRAM) for _ in NAMES], free_port()
    words = ["--fleet", fleet_at(tmp_path, ports), "--listen", f"127.0.0.1:{listen}", "--signtool", PROGRAM]
    with subprocess.Popen(
        [sys.executable, "-m", "wisangub.room.demo", *words], cwd=TOP, stdin=subprocess.DEVNULL, stdout=subprocess.PIPE
    ) as process:
        try:
            said = until_said(process, "the control room of 2 signs is at")
            found = re.search(r"log in as reader with (\S+)", said)
            assert found is not None and said.count("log in as") == 3
            asyncio.run(asyncio.wait_for(seen(f"http://127.0.0.1:{listen}", found[1], process), LIMIT))
            process.send_signal(signal.SIGINT)
            assert process.wait(LIMIT) == 0  # it gives each of its three programs 20 s to end
        finally:
            if process.poll() is None:
                process.terminate()
                with contextlib.suppress(subprocess.TimeoutExpired):
                    process.wait(LIMIT)
                process.kill()
    for port in ports:
        with socket.socket(socket.AF_INET, socket.SOCK_DGRAM) as free:
            free.bind(("127.0.0.1", port))
