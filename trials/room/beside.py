"""A service with pages as a process, somebody who asks for its pages, and the programs that end beside it: for chaos
and for tests."""

import contextlib
import pathlib
import re
import subprocess
import sys
import time
import urllib.parse
import urllib.request
from concurrent.futures import ThreadPoolExecutor
from dataclasses import dataclass, field

from wisangub.process.places import TOP

from .ports import PATIENCE, free_port, until_answers

TOKEN = re.compile(r'name="token" value="([0-9a-f]{64})"')
NAME, PASSWORD = "beside", "a password of chaos"
AT_ONCE = 8  # pages that are asked for together, so that several threads of the service have a connection
PAGES = ("/", "/history", "/account")


class Browser:
    """Somebody who is logged in."""

    def __init__(self, address: str, name: str = NAME, password: str = PASSWORD) -> None:
        self.address = address
        self.opener = urllib.request.build_opener(urllib.request.ProxyHandler({}), urllib.request.HTTPCookieProcessor())
        self.post("/login", "/login", [("name", name), ("password", password)])

    def get(self, path: str) -> str:
        """A page."""
        with self.opener.open(self.address + path, timeout=PATIENCE) as answer:
            return str(answer.read().decode())

    def post(self, path: str, form: str, fields: list[tuple[str, str]]) -> str:
        """The page that an answer to a form leads to, with the token of the form."""
        token = TOKEN.search(self.get(form))
        assert token is not None, f"{form} has no form"
        body = urllib.parse.urlencode([*fields, ("token", token[1])]).encode()
        with self.opener.open(self.address + path, body, timeout=PATIENCE) as answer:
            return str(answer.read().decode())

    def look(self) -> None:
        """Asks for many pages at a time."""
        with ThreadPoolExecutor(AT_ONCE) as pool:
            list(pool.map(self.get, [PAGES[at % len(PAGES)] for at in range(2 * AT_ONCE)]))


@dataclass
class Service:
    """Pages, and a worker where it is not left out, in a process; what it says goes to a file."""

    fleet: pathlib.Path
    where: str
    signtool: str
    said: pathlib.Path
    words: list[str] = field(default_factory=list)
    port: int = field(default_factory=free_port)
    process: subprocess.Popen[bytes] | None = None

    @property
    def address(self) -> str:
        return f"http://127.0.0.1:{self.port}"

    def start(self) -> None:
        """Returns when its pages answer."""
        call = [
            sys.executable,
            "-m",
            "wisangub.room",
            "--fleet",
            str(self.fleet),
            "--database",
            self.where,
            "--signtool",
            self.signtool,
            "--listen",
            f"127.0.0.1:{self.port}",
            *self.words,
        ]
        with open(self.said, "ab") as said:
            self.process = subprocess.Popen(call, cwd=TOP, stdin=subprocess.DEVNULL, stdout=said, stderr=said)
        until_answers(self.port, lambda: self.is_standing)

    @property
    def pids(self) -> list[int]:
        """Its processes: the worker, and those that it began."""
        assert self.process is not None
        pid = self.process.pid
        return [pid, *map(int, pathlib.Path(f"/proc/{pid}/task/{pid}/children").read_text().split())]

    def open_files(self, of: str) -> list[str]:
        """What its processes have open whose name begins so."""
        return [name for pid in self.pids for name in open_files(pid, of)]

    @property
    def is_standing(self) -> bool:
        """Whether it was started, and has not ended by itself."""
        return self.process is not None and self.process.poll() is None

    def kill(self) -> None:
        """Ends the worker at once, and returns when the pages have ended with it."""
        if self.process is not None:
            pids = self.pids if self.is_standing else []
            self.process.kill()
            self.process.wait()
            self.process = None
            ends = time.monotonic() + PATIENCE
            while any(pathlib.Path(f"/proc/{pid}").exists() for pid in pids) and time.monotonic() < ends:
                time.sleep(0.02)

    def end(self) -> int:
        """Its exit status, after a SIGTERM."""
        assert self.process is not None
        self.process.terminate()
        return self.process.wait(PATIENCE)


def open_files(pid: int, of: str) -> list[str]:
    """What a process has open whose name begins so."""
    found = []
    with contextlib.suppress(OSError):  # it ended meanwhile
        for place in pathlib.Path(f"/proc/{pid}/fd").iterdir():
            with contextlib.suppress(OSError):  # it was closed meanwhile
                found.append(str(place.readlink()))
    return sorted(name for name in found if name.startswith(of))


def enter(where: str) -> None:
    """The operator who asks for pages."""
    done = ended(where, "wisangub.room.users", "add", NAME, "operator", said=PASSWORD)
    assert done.returncode == 0, done.stderr


def ended(where: str, module: str, *words: str, said: str = "") -> subprocess.CompletedProcess[str]:
    """A program over the database, run to its end."""
    return subprocess.run(
        [sys.executable, "-m", module, "--database", where, *words],
        cwd=TOP,
        input=said + "\n",
        capture_output=True,
        text=True,
        timeout=PATIENCE,
    )


def worker_ended(fleet: pathlib.Path, where: str, signtool: str) -> int | None:
    """The exit status of a worker that is ended once it stands; None where it gave up, since there was no database."""
    call = [
        sys.executable,
        "-m",
        "wisangub.room.worker.program",
        "--fleet",
        str(fleet),
        "--database",
        where,
        "--signtool",
        signtool,
    ]
    with subprocess.Popen(call, cwd=TOP, stdin=subprocess.DEVNULL, stdout=subprocess.PIPE) as worker:
        assert worker.stdout is not None
        is_standing = bool(worker.stdout.readline())
        worker.terminate()
        status = worker.wait(PATIENCE)
        return status if is_standing else None
