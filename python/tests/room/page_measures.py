"""Pages a second, and the service's memory: env -C python python3 -m tests.room.page_measures [--signs N] [--seconds N]

Signs on loopback, the service as `wisangub-control` runs it, one browser that listens to the wall, and visitors that
ask for one page after the other, eight at a time.
"""

import argparse
import asyncio
import os
import pathlib
import statistics
import subprocess
import sys
import tempfile
import time

from trials.room.loopback import Fates, Loopback
from wisangub.process.places import TOP
from wisangub.refusal import status_of
from wisangub.room import start

VISITORS = 8
PATIENCE = 300.0


def memory(process: int) -> tuple[int, int]:
    """The service's memory now and at most, in MiB."""
    words = pathlib.Path(f"/proc/{process}/status").read_text().split()
    now, most = (int(words[words.index(name) + 1]) // 1024 for name in ("VmRSS:", "VmHWM:"))
    return now, most


def fleet_of(folder: pathlib.Path, loopback: Loopback) -> None:
    """The fleet's file, and a user."""
    from wisangub.room.store import database, users

    from .visits import PASSWORD

    (folder / "a.sign").write_bytes((TOP / "signs/roadside.sign").read_bytes())
    (folder / "fleet.toml").write_text(
        "\n".join(
            f'[[sign]]\nname = "{sign.name}"\naddress = "127.0.0.1:{sign.port}"\ndescription = "a.sign"\n'
            for sign in loopback.signs
        )
    )
    held = database.opened(str(folder / "database"))
    users.add(held, "operator", users.Role.OPERATOR, PASSWORD, "a measure")
    held.close()


async def measured(url: str, path: str, cookies: dict[str, str], seconds: float) -> str:
    """How many pages of a path were answered, and how long one took."""
    import aiohttp

    took: list[float] = []
    ends = time.monotonic() + seconds

    async def visit(session: aiohttp.ClientSession) -> None:
        while (begun := time.monotonic()) < ends:
            async with session.get(url + path) as answer:
                assert answer.status == 200, path
                await answer.read()
            took.append(time.monotonic() - begun)

    async with aiohttp.ClientSession(cookies=cookies, cookie_jar=aiohttp.CookieJar(unsafe=True)) as session:
        await asyncio.gather(*(visit(session) for _ in range(VISITORS)))
    tenths = statistics.quantiles(took, n=20)
    return (
        f"{path}: {len(took) / seconds:.0f} a second, half within {1000 * statistics.median(took):.0f} ms,"
        f" 19 of 20 within {1000 * tenths[-1]:.0f} ms"
    )


async def visited(url: str, signs: int, seconds: float, process: int) -> None:
    """Logs in, waits until all signs were heard, and measures."""
    import aiohttp

    from .visits import PASSWORD, TOKEN

    async with aiohttp.ClientSession(cookie_jar=aiohttp.CookieJar(unsafe=True)) as session:
        page = await (await session.get(url + "/login")).text()
        found = TOKEN.search(page)
        assert found is not None
        fields = {"token": found[1], "name": "operator", "password": PASSWORD, "next": "/"}
        await session.post(url + "/login", data=fields)
        ends = time.monotonic() + PATIENCE
        while (page := await (await session.get(url + "/")).text()).count("heard <time") < signs:
            assert time.monotonic() < ends, "not all signs were heard in time"
            await asyncio.sleep(1)
        picture = page[page.index("/pictures/") :].split('"')[0].split("?")[0]
        cookies = {cookie.key: cookie.value for cookie in session.cookie_jar}
        async with session.get(url + "/events?view=wall"):
            print(f"memory before: {memory(process)[0]} MiB")
            for path in ("/", "/signs/1", "/history", "/compose?sign=1", picture):
                print(await measured(url, path, cookies, seconds))
        print("memory after: %d MiB, at most %d MiB" % memory(process))


def main() -> int:
    parser = argparse.ArgumentParser(
        prog="env -C python python3 -m tests.room.page_measures",
        description=__doc__,
        formatter_class=argparse.RawDescriptionHelpFormatter,
    )
    parser.add_argument("--signs", type=int, default=200, help="how many signs")
    parser.add_argument("--seconds", type=float, default=10.0, help="for each page")
    asked = parser.parse_args()
    start.needed("tests.room.page_measures", "aiohttp", "jinja2")
    from trials.room.ports import free_port, until_answers

    from .visits import PROGRAM

    text = (TOP / "signs/roadside.sign").read_bytes()
    loopback = Loopback(PROGRAM, {f"sign {number:04}": text for number in range(asked.signs)}, Fates(1, 0.0), 1.0)
    loopback.start()
    with tempfile.TemporaryDirectory() as held:
        fleet_of(pathlib.Path(held), loopback)
        port = free_port()
        service = subprocess.Popen(
            [
                sys.executable,
                "-m",
                "wisangub.room",
                "--fleet",
                f"{held}/fleet.toml",
                "--database",
                f"{held}/database",
                "--listen",
                f"127.0.0.1:{port}",
                "--no-worker",
            ],
            cwd=TOP,
            stdin=subprocess.DEVNULL,
            stdout=subprocess.DEVNULL,
        )
        try:
            until_answers(port)
            print(
                "%d signs; load of the machine %.1f, processors %d"
                % (asked.signs, os.getloadavg()[0], os.cpu_count() or 0)
            )
            asyncio.run(visited(f"http://127.0.0.1:{port}", asked.signs, asked.seconds, service.pid))
        finally:
            service.terminate()
            service.wait(60)
            loopback.end()
    return 0


if __name__ == "__main__":
    sys.exit(status_of(main))
