"""docs/CONTROL.md: the lines of "Install" and of "Without pages", pasted into an interactive shell, as they stand there
but for ports. Passwords are typed, and stand in no history."""

import contextlib
import os
import pathlib
import pty
import re
import select
import signal
import socket
import time
import urllib.request
from typing import Iterator

import pytest

from . import needs

needs.modules("aiohttp", "jinja2")

from trials.room.beside import Browser
from trials.room.ports import free_port
from wisangub.process.places import SIGNTOOL, TOP

PAGE = (TOP / "docs/CONTROL.md").read_text(encoding="utf-8")
INSTALL = (TOP / "tools/release/INSTALL").read_text(encoding="utf-8")  # the lines of services
PASSWORD = "a long pasted password"
PATIENCE = 120.0  # seconds that a busy machine takes
PROMPT = "pasted> "
PORTS = ("1161", "1162", "1163")


def blocks(begins: str, ends: str) -> list[list[str]]:
    """The blocks of commands between two places of the page, each as its lines."""
    part = PAGE[PAGE.index(begins) : PAGE.index(ends, PAGE.index(begins))]
    found = re.findall(r"(?m)(?:^    .+\n)+", part)
    return [[line[4:] for line in block.splitlines()] for block in found]


class Shell:
    """An interactive bash at a terminal of its own, with a history."""

    def __init__(self, folder: pathlib.Path) -> None:
        self.history = folder / "history"
        self.said = ""
        environment = {**os.environ, "HISTFILE": str(self.history), "PS1": PROMPT, "TERM": "dumb", "HISTCONTROL": ""}
        self.pid, self.terminal = pty.fork()
        if not self.pid:
            os.chdir(folder)
            os.execvpe("bash", ["bash", "--noprofile", "--norc", "-i"], environment)
        self.until(PROMPT)

    def paste(self, words: str) -> None:
        os.write(self.terminal, f"{words}\n".encode())

    def until(self, words: str) -> str:
        """What was printed up to these words, which are past then."""
        ends = time.monotonic() + PATIENCE
        while words not in self.said:
            assert time.monotonic() < ends, f"not said: {words}: {self.said}"
            if select.select([self.terminal], [], [], 0.2)[0]:
                self.said += os.read(self.terminal, 65536).decode(errors="replace")
        before, _, self.said = self.said.partition(words)
        return before

    def type_password(self) -> None:
        for words in ("Password: ", "Again: "):
            self.until(words)
            self.paste(PASSWORD)

    def end(self) -> str:
        """What the history has, once the shell has ended."""
        self.paste("kill $(jobs -p); wait; exit")
        ends = time.monotonic() + PATIENCE
        while os.waitpid(self.pid, os.WNOHANG) == (0, 0):
            if select.select([self.terminal], [], [], 0.1)[0]:
                with contextlib.suppress(OSError):
                    os.read(self.terminal, 65536)
            assert time.monotonic() < ends, "the shell ends"
        os.close(self.terminal)
        return self.history.read_text(encoding="utf-8")


@contextlib.contextmanager
def shell(folder: pathlib.Path) -> Iterator[Shell]:
    """A shell in a folder with what the page's lines name; ports that are free in the place of those of the fleet."""
    if not SIGNTOOL.exists():
        pytest.skip(f"no program at {SIGNTOOL}")
    (folder / "bin").symlink_to(TOP / "bin")
    (folder / "signs").mkdir()
    for name in ("roadside", "gantry"):
        (folder / "signs" / f"{name}.sign").symlink_to(TOP / f"signs/{name}.sign")
    made = Shell(folder)
    try:
        yield made
    finally:
        with contextlib.suppress(ProcessLookupError):
            os.killpg(made.pid, signal.SIGHUP)


def with_ports(words: str, ports: dict[str, str]) -> str:
    return re.sub("|".join(ports), lambda found: ports[found[0]], words)


def test_the_lines_of_install(tmp_path: pathlib.Path) -> None:
    first, second = blocks("\n## Install\n", "\n**A fleet**")
    fleet = (TOP / "signs/fleet.toml").read_text(encoding="utf-8").replace('"roadside', '"signs/roadside')
    with shell(tmp_path) as at:
        (tmp_path / "FLEET.toml").write_text(fleet.replace('"gantry', '"signs/gantry'), encoding="utf-8")
        at.paste("\n".join(first))
        at.type_password()
        at.until(PROMPT)
        listen = f"127.0.0.1:{free_port()}"
        at.paste(f"{' '.join(second)} --listen {listen}")
        at.until(f"the control room of 3 signs is at http://{listen}")
        with urllib.request.urlopen(f"http://{listen}/login", timeout=PATIENCE) as answer:
            assert answer.status == 200
        assert "B300 east" in Browser(f"http://{listen}", "ann", PASSWORD).get("/")
        os.write(at.terminal, b"\x03")
        at.until(PROMPT)
        history = at.end()
    assert PASSWORD not in history and all(line in history for line in (*first, *second))


def test_the_lines_without_pages(tmp_path: pathlib.Path) -> None:
    (lines,) = blocks("**Without pages**", "A command is a line of a centre")
    ports = {port: str(free_port(socket.SOCK_DGRAM)) for port in PORTS}
    with shell(tmp_path) as at:
        fleet = (TOP / "signs/fleet.toml").read_text(encoding="utf-8")
        (tmp_path / "signs/fleet.toml").write_text(with_ports(fleet, ports), encoding="utf-8")
        at.paste(with_ports("\n".join(lines), ports) + "; echo ended with $?")
        said = at.until("ended with 0")
        assert "a worker of 3 signs" in said and "accepted" in said, said
        history = at.end()
    assert "publish-text" in history


def test_no_line_of_the_page_has_a_password() -> None:
    commands = re.findall(r"(?m)^    .*wisangub-control.*$", PAGE + INSTALL)
    assert len(commands) > 12
    assert not [line for line in commands if re.search(r"echo|printf|<<<|PGPASSWORD|//[^/@]*:[^/@]*@", line)]
