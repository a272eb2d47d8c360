"""The whole on one machine: three signs and the control room: wisangub-control demo [--listen 127.0.0.1:8080]

It starts the signs of signs/fleet.toml, or of another fleet of this machine's, by wisangub-sign, and the control
room over a database in a folder that is made for it, with a user of each role, whose password is printed. An interrupt
ends all of it, and the folder goes.
"""

import contextlib
import pathlib
import secrets
import signal
import subprocess
import sys
import tempfile
import time
import tomllib
from dataclasses import dataclass
from typing import BinaryIO, Iterator

from wisangub.endpoint.sockets import host_and_port
from wisangub.process.places import SIGNTOOL, TOP, environment
from wisangub.refusal import Refusal, status_of
from wisangub.room.output import print_line
from wisangub.room.store.users import Role

from . import fleet, options, start
from .serve import LISTEN
from .store import database, users

_FLEET = TOP / "signs/fleet.toml"
_PATIENCE = 60.0  # seconds that a sign has to begin on a busy machine
_STANDS = b"a sign at "  # what it prints then


@dataclass(frozen=True)
class Sign:
    """A sign that was begun, and the file of what it prints."""

    name: str
    process: subprocess.Popen[bytes]
    said: pathlib.Path

    @property
    def is_up(self) -> bool:
        return self.said.read_bytes().startswith(_STANDS)


def _entries(path: pathlib.Path) -> list[tuple[str, int, pathlib.Path]]:
    """The name, the port and the description of each sign of a fleet."""
    fleet.read(path)  # which says what is not in order
    held = tomllib.loads(path.read_text(encoding="utf-8"))["sign"]
    return [(one["name"], host_and_port(one["address"])[1], path.parent / one["description"]) for one in held]


@contextlib.contextmanager
def _ended(processes: list[subprocess.Popen[bytes]]) -> Iterator[None]:
    """Whatever happens, the processes end."""
    try:
        yield
    finally:
        for process in reversed(processes):
            process.terminate()
        for process in processes:
            try:
                process.wait(20)
            except subprocess.TimeoutExpired:
                process.kill()
                process.wait()


def _begun(words: list[str], out: BinaryIO | None = None) -> subprocess.Popen[bytes]:
    """A process of this Python, in a group of its own, so that an interrupt comes to this one alone."""
    return subprocess.Popen(
        [sys.executable, "-m", *words],
        env=environment(),
        cwd=TOP,
        stdin=subprocess.DEVNULL,
        stdout=out,
        process_group=0,
    )


def await_signs(signs: list[Sign], patience: float = _PATIENCE) -> None:
    """Each of the signs stands; refused by their names where some ended, or do not stand after so many seconds."""
    ends = time.monotonic() + patience
    while waited := [sign for sign in signs if not sign.is_up]:
        dead = [sign.name for sign in waited if sign.process.poll() is not None]
        if dead:
            raise Refusal(f"no sign stands for {', '.join(dead)}: is its port in use?", 1)
        if time.monotonic() > ends:
            raise Refusal(f"no sign stands for {', '.join(sign.name for sign in waited)} after {patience:.0f} s", 1)
        time.sleep(0.05)


def _begin_signs(
    path: pathlib.Path, program: str, folder: pathlib.Path, running: list[subprocess.Popen[bytes]]
) -> None:
    """The signs are among what runs, and stand; what they print is in files of the folder."""
    signs = []
    for number, (name, port, description) in enumerate(_entries(path)):
        words = ["--signtool", program, "--sign", str(description), "--port", str(port)]
        said = folder / f"sign-{number}"
        with said.open("wb") as out:
            running.append(_begun(["wisangub.endpoint.sign", *words], out))
        signs.append(Sign(name, running[-1], said))
    await_signs(signs)


def _enter(where: str) -> None:
    """A user of each role, with a password that is printed."""
    held = database.opened(where)
    for role in Role:
        password = secrets.token_urlsafe(9)
        users.add(held, role.word, role, password, "the demonstration")
        print_line(f"log in as {role.word} with {password}")
    held.close()


def main() -> int:
    parser = options.command_options(__doc__, "wisangub-control demo")
    parser.add_argument("--listen", default=LISTEN, metavar="HOST:PORT", help="where the pages are")
    parser.add_argument(
        "--fleet", type=pathlib.Path, default=_FLEET, metavar="FILE", help="the signs that it begins and drives"
    )
    parser.add_argument(
        "--signtool", default=str(SIGNTOOL), metavar="PATH", help="the program that the signs and their centres are"
    )
    asked = parser.parse_args()
    start.needed("wisangub.room.demo", "aiohttp", "jinja2")
    signal.signal(signal.SIGTERM, signal.default_int_handler)
    path, running = asked.fleet.resolve(), list[subprocess.Popen[bytes]]()
    with tempfile.TemporaryDirectory(prefix="control-") as made:
        folder = pathlib.Path(made)
        where = str(folder / "room.sqlite")
        rest = ["--listen", asked.listen, "--signtool", asked.signtool]
        with contextlib.suppress(KeyboardInterrupt), _ended(running):
            _begin_signs(path, asked.signtool, folder, running)
            _enter(where)
            running.append(_begun(["wisangub.room", "--fleet", str(path), "--database", where, *rest]))
            running[-1].wait()
            raise Refusal("the control room ended by itself", 1)
    return 0


if __name__ == "__main__":
    sys.exit(status_of(main))
