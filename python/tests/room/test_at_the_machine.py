"""The commands of who is at the machine: what is no UTF-8, nobody's number, and options that would do nothing."""

import os
import pathlib
import pty
import subprocess
import sys

import pytest

from wisangub.process.places import TOP, environment
from wisangub.room.store import database, history
from wisangub.room.store.store import Store

from . import needs
from .test_database import BLANK, SIGN

CONTROL = str(TOP / "bin/wisangub-control")
PASSWORD = b"a long password\n"
LIMIT = 300.0  # seconds after which something hangs


def ran(*words: str | bytes, said: bytes = b"", **more: str) -> "subprocess.CompletedProcess[bytes]":
    return subprocess.run(
        [sys.executable, CONTROL, *words],
        input=said,
        capture_output=True,
        env={**environment(), **more},
        timeout=LIMIT,
        check=False,
    )


def refused(*words: str | bytes, said: bytes = b"") -> str:
    """Why something was refused: one line."""
    ended = ran(*words, said=said)
    lines = ended.stderr.decode().splitlines()
    assert ended.returncode in (1, 2) and len(lines) == 1, ended.stderr
    return lines[0]


def test_a_word_that_is_no_utf8_is_refused_in_words(where: str) -> None:
    Store(database.opened(where)).signs.enter([SIGN])
    at = ("--database", where)
    calls: list[tuple[str | bytes, ...]] = [
        ("command", *at, b"\xff", BLANK),
        ("command", *at, "--who", b"\xff", SIGN.name, BLANK),
        ("signs", *at, "rename", b"\xff", SIGN.name),
        ("users", *at, "disable", b"\xff"),
        ("tokens", *at, "add", "map", b"\xff"),
    ]
    for words in calls:
        assert "'\\udcff' is no UTF-8" in refused(*words), words
    assert "a password is written in UTF-8" in refused("users", *at, "add", "bob", "reader", said=b"\xff" + PASSWORD)
    held = database.opened(where)
    assert held.run("SELECT count(*) FROM commands") == [(0,)] and history.audit(held, None) == []


def test_a_password_that_is_not_given_is_refused_in_words(tmp_path: pathlib.Path) -> None:
    """The terminal says that there is no more of it."""
    where = str(tmp_path / "database")
    pid, terminal = pty.fork()
    if not pid:
        os.execve(
            sys.executable,
            [sys.executable, CONTROL, "users", "--database", where, "--create", "add", "ann", "reader"],
            environment(),
        )
    said = b""
    while b"Password: " not in said:
        said += os.read(terminal, 4096)
    os.write(terminal, b"\x04")
    try:
        while more := os.read(terminal, 4096):
            said += more
    except OSError:  # it has ended
        pass
    assert os.waitstatus_to_exitcode(os.waitpid(pid, 0)[1]) == 2
    os.close(terminal)
    assert b"no password was given" in said and b"Traceback" not in said


NOBODY = 54321
_READS = (
    "import os, sys; os.setuid(int(sys.argv[1]));"
    " sys.exit(not (os.access(sys.argv[2], os.R_OK) and os.access(sys.argv[3], os.W_OK)))"
)


@pytest.mark.skipif(os.getuid() != 0, reason="only root may be another user")
def test_who_has_no_name_at_the_machine_is_told_by_his_number(tmp_path: pathlib.Path) -> None:
    """As in a container that runs under any number."""
    where = str(tmp_path / "database")
    words = "import os, sys; os.setuid(int(sys.argv[1])); os.execv(sys.executable, [sys.executable, *sys.argv[2:]])"
    path = {
        name: value for name, value in environment().items() if name not in ("LOGNAME", "USER", "LNAME", "USERNAME")
    }
    os.chown(tmp_path, NOBODY, NOBODY)
    for folder in (tmp_path.parent, tmp_path.parent.parent):
        folder.chmod(0o711)
    if subprocess.run([sys.executable, "-c", _READS, str(NOBODY), CONTROL, str(tmp_path)], check=False).returncode:
        pytest.skip("others may not read this checkout")
    for call in (("command", "--help"), ("users", "--database", where, "--create", "add", "ann", "administrator")):
        ended = subprocess.run(
            [sys.executable, "-c", words, str(NOBODY), CONTROL, *call],
            input=PASSWORD,
            capture_output=True,
            env=path,
            timeout=LIMIT,
            check=False,
        )
        assert ended.returncode == 0, ended.stderr
    said = history.audit(database.opened(where), None)
    assert {who for _, _, who, _ in said} == {f"uid {NOBODY} at the machine"}


@pytest.mark.parametrize(("option", "value"), (("--alarms", "alarms.toml"), ("--give-up", "60")))
def test_what_pages_alone_do_nothing_with_is_refused(tmp_path: pathlib.Path, option: str, value: str) -> None:
    """Nobody would be told of an alarm, though a file says who."""
    needs.modules("aiohttp", "jinja2")
    fleet, where = str(TOP / "signs/fleet.toml"), str(tmp_path / "database")
    words = refused("--fleet", fleet, "--database", where, "--create", "--no-worker", option, value)
    assert words == f"{option} is a worker's, and --no-worker begins none: give it to each wisangub-control worker"
