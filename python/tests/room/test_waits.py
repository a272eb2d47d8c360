"""Programs that begin while the database is away, or find it damaged or gone: a word, and no traceback."""

import pathlib
import select
import signal
import sqlite3
import subprocess
import sys
import threading
import time
from concurrent.futures import ThreadPoolExecutor
from typing import IO

import pytest

from trials.room import beside
from trials.room.cluster import Cluster, cluster
from trials.room.ports import free_port
from wisangub.endpoint.sockets import Waiting
from wisangub.process.places import TOP
from wisangub.refusal import Refusal
from wisangub.room import start
from wisangub.room.store import database, sqlite
from wisangub.room.store.database import Away, Failed, NotYet
from wisangub.room.store.store import Store
from wisangub.room.waits import waited

from .bench import HELLO, PROGRAM, bench
from .test_database import BLANK, SIGN

PATIENCE = 60.0


def until_said(source: IO[bytes] | None, words: str) -> str:
    """A line with these words, of what a program says."""
    assert source is not None
    ends = time.monotonic() + PATIENCE
    while time.monotonic() < ends and select.select([source], [], [], PATIENCE)[0]:
        line = source.readline().decode()
        if words in line or not line:
            return line
    return ""


def begun(module: str, fleet: pathlib.Path, where: str, *words: str) -> subprocess.Popen[bytes]:
    return subprocess.Popen(
        [sys.executable, "-m", module, "--fleet", str(fleet), "--database", where, "--signtool", PROGRAM, *words],
        cwd=TOP,
        stdin=subprocess.DEVNULL,
        stdout=subprocess.PIPE,
        stderr=subprocess.STDOUT,
        bufsize=0,
    )


def programs(fleet: pathlib.Path, where: str) -> dict[str, subprocess.Popen[bytes]]:
    """A worker, and a service where this Python sees what it needs, and what each says once it stands."""
    made = {"a worker of 1 signs": begun("wisangub.room.worker.program", fleet, where)}
    if not start.lacking(("aiohttp", "jinja2")):
        made["the control room of 1 signs is at"] = begun(
            "wisangub.room", fleet, where, "--listen", f"127.0.0.1:{free_port()}"
        )
    return made


def test_what_begins_while_the_server_is_down_waits_for_it(tmp_path: pathlib.Path) -> None:
    if start.lacking(("psycopg",)):
        pytest.skip("this Python does not see psycopg: apt-get install python3-psycopg")
    try:
        with cluster() as server:
            waits_and_goes_on(tmp_path, server)
    except Refusal as refused:
        pytest.skip(str(refused))


def waits_and_goes_on(folder: pathlib.Path, server: Cluster) -> None:
    where = server.database()
    with bench(folder, where) as at:
        command = at.ask(HELLO)
        server.stop(signal.SIGQUIT)
        made = programs(at.fleet, where)
        try:
            for program in made.values():
                assert until_said(program.stdout, "it is waited for")
            server.start()
            for words, program in made.items():
                assert until_said(program.stdout, words), words
            with pytest.raises(Failed):
                at.store.commands.how(command)
            ends = time.monotonic() + PATIENCE
            while at.store.commands.how(command) is None and time.monotonic() < ends:
                time.sleep(0.1)
            assert at.store.commands.how(command) == "accepted"
        finally:
            for program in made.values():
                program.terminate()
        assert [program.wait(PATIENCE) for program in made.values()] == [0] * len(made)


def test_a_file_that_another_one_keeps_is_waited_for(
    tmp_path: pathlib.Path, monkeypatch: pytest.MonkeyPatch, capfd: pytest.CaptureFixture[str]
) -> None:
    monkeypatch.setattr(sqlite, "PATIENCE", 0.2)
    where = str(tmp_path / "database")
    other = database.opened(where)
    other.begin(False, True)
    with pytest.raises(Away, match="locked"):
        Store(database.opened(where)).signs.enter([SIGN])
    threading.Timer(1.5, other.roll_back).start()
    assert waited(Waiting(), lambda: Store(database.opened(where)).signs.enter([SIGN]))
    said = capfd.readouterr().err
    assert said.count("it is waited for") == 1 and "the database answers" in said


def test_what_is_stopped_waits_no_longer() -> None:
    waiting = Waiting()

    def away() -> int:
        waiting.is_stopped = True
        raise NotYet("it is away")

    assert waited(waiting, away) is None
    with pytest.raises(Refusal, match="the database: damaged"):
        waited(Waiting(), lambda: database_failed())


def database_failed() -> int:
    raise Failed("damaged")


def filled(where: str) -> bytes:
    """A database with a sign, its lines and commands, in one file."""
    store = Store(database.opened(where))
    (sign,) = store.signs.enter([SIGN])
    for _ in range(300):
        store.commands.ask(sign, "me", BLANK)
    store.database.close()
    with sqlite3.connect(where) as held:
        held.execute("PRAGMA journal_mode = DELETE")
    held.close()
    return pathlib.Path(where).read_bytes()


DAMAGES = {
    "nothing but its head": lambda octets: octets[:4096],
    "half of it": lambda octets: octets[: len(octets) // 2],
    "zeros behind its head": lambda octets: octets[:4096] + bytes(len(octets) - 4096),
    "letters everywhere": lambda octets: octets[:100] + b"A" * (len(octets) - 100),
    "no text in its texts": lambda octets: octets.replace(b"CREATE TABLE", b"CREATE\xff\xffABLE"),
}


@pytest.mark.parametrize("name", DAMAGES)
def test_a_file_that_is_damaged_is_a_word(tmp_path: pathlib.Path, name: str) -> None:
    where, fleet = tmp_path / "database", tmp_path / "fleet.toml"
    octets = filled(str(where))
    fleet.write_text(f'[[sign]]\nname = "one"\naddress = "127.0.0.1:1161"\ndescription = "{TOP}/signs/roadside.sign"\n')
    where.write_bytes(DAMAGES[name](octets))
    words = [
        ("wisangub.room.users", "list"),
        ("wisangub.room.command", "--wait", "1", "one", BLANK),
        ("wisangub.room.signs", "list"),
    ]
    made = programs(fleet, str(where))
    with ThreadPoolExecutor() as pool:
        for done in pool.map(lambda one: beside.ended(str(where), *one), words):
            assert done.returncode and done.stderr and "Traceback" not in done.stderr, done
    for program in made.values():
        said = program.communicate(timeout=PATIENCE)[0].decode()
        assert program.returncode and said and "Traceback" not in said, said


def test_a_worker_says_once_that_its_database_is_gone(
    tmp_path: pathlib.Path, capfd: pytest.CaptureFixture[str]
) -> None:
    with bench(tmp_path, str(tmp_path / "database")) as at:
        worker = at.worker()
        at.ask(HELLO)
        (tmp_path / "database").rename(tmp_path / "aside")
        before = len(at.live.requests)
        for _ in range(5):
            worker.guarded_round()
        assert capfd.readouterr().err.count("was taken away or replaced") == 1 and len(at.live.requests) == before
        (tmp_path / "aside").rename(tmp_path / "database")
        worker.guarded_round()
        assert "the database answers again" in capfd.readouterr().err
