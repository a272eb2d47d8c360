"""With --fast signd goes on with the same options, journal and words, where it is built and has what is asked for."""

import argparse
import logging
import pathlib
import re
import signal
import socket
import subprocess
import sys

import pytest

from model import wire
from wisangub import __version__
from wisangub.endpoint.fast import MOST_RECORDED, call, hand_over, lacks
from wisangub.process.places import SIGND, SIGNTOOL, TOP, environment

from .waiting import PATIENCE

SIGN = str(TOP / "signs/roadside.sign")
FRONT_END = [sys.executable, str(TOP / "bin/wisangub-sign")]
ACTIVATE = (1, 3, 6, 1, 4, 1, 1206, 4, 2, 3, 6, 3, 0)
BLANK = bytes.fromhex("ffffff070001000000000000")
SOURCE = (1, 3, 6, 1, 4, 1, 1206, 4, 2, 3, 6, 7, 0)  # dmsMsgSourceMode


def asked_for(**others: object) -> argparse.Namespace:
    """Nothing beside a description, and these."""
    words: dict[str, object] = {"fast": "signd", "host": "127.0.0.1", "port": 1161, "sign": SIGN}
    words |= {"signtool": str(SIGNTOOL), "most_recorded": 50, "lose": 0, "page": None}
    words |= dict.fromkeys(("journal", "keep", "archive", "objects", "down", "log"))
    words |= dict.fromkeys(("fresh", "json", "accept_damage", "need_journal", "no_ticks", "quiet"), False)
    return argparse.Namespace(**words | others)


def ran(*words: str) -> tuple[int, str, str]:
    """How the front end ended, and what it printed and said."""
    ended = subprocess.run(
        [*FRONT_END, *words], capture_output=True, text=True, env=environment(), timeout=PATIENCE, check=False
    )
    return ended.returncode, ended.stdout, ended.stderr


@pytest.fixture
def echo(tmp_path: pathlib.Path) -> str:
    """What says signd's version, and prints any other words."""
    path = tmp_path / "signd"
    path.write_text(f'#!/bin/sh\n[ "$*" = --version ] && echo signd {__version__} || echo "$@"\nexit 7\n')
    path.chmod(0o700)
    return str(path)


def test_what_signd_lacks_is_said() -> None:
    others: list[dict[str, object]] = [
        {"signtool": "model/signtool"},
        {"journal": "a", "fresh": True},
        {"page": 8161},
        {"lose": 3},
        {"log": "-"},
        {"journal": "a", "sign": None},
        {"most_recorded": MOST_RECORDED + 1},
    ]
    assert lacks(asked_for()) == lacks(asked_for(sign=None)) == lacks(asked_for(journal="a", quiet=True)) == ""
    said = [lacks(asked_for(**one)) for one in others]
    assert all(words.startswith("signd has no --") for words in said) and len(set(said)) == len(others)


def test_signd_is_handed_each_option(echo: str) -> None:
    words = ["--quiet", "--no-ticks", "--need-journal", "--accept-damage", "--most-recorded", "7", "--down", "power"]
    words += ["--journal=-j", "--keep", "2k", "--archive", "kept", "--objects", "none.objects", "--listen", "[::1]:99"]
    words += ["--sign", SIGN]
    status, printed, said = ran("--fast", echo, *words)
    handed = "--host ::1 --port 99 --objects none.objects --journal -j --keep 2k --archive kept --down power"
    assert printed == f"{handed} --most-recorded 7 --accept-damage --need-journal --no-ticks --quiet -- {SIGN}\n"
    assert status == 7 and said == f"--fast: {echo} goes on\n"
    assert call(asked_for(sign=None))[-1] == str(TOP / "signs/bench.sign")


def test_faults_of_what_is_asked_are_told_as_ever(echo: str, tmp_path: pathlib.Path) -> None:
    (tmp_path / "torn.sign").write_text("sign 96 27\n")
    for words in (["--down", "power"], ["--sign", str(tmp_path / "torn.sign")], ["--lose", "-1"], ["--fast", ""]):
        status, _, said = ran("--fast", echo, *words)
        assert (status, said) == (2, ran(*words)[2])


def test_where_signd_is_not_built_this_front_end_goes_on(caplog: pytest.LogCaptureFixture) -> None:
    log = logging.getLogger("wisangub")
    log.addHandler(caplog.handler)
    try:
        hand_over(asked_for(fast="none/signd"))
        hand_over(asked_for(fast="/bin/true"))
        hand_over(asked_for(page=8161))
    finally:
        log.removeHandler(caplog.handler)
    goes_on = "; this front end goes on"
    assert caplog.messages == [
        f"--fast: there is no signd at none/signd: make -C examples builds it{goes_on}",
        f"--fast: /bin/true is no signd of version {__version__}: make -C examples builds one{goes_on}",
        f"--fast: signd has no --page{goes_on}",
    ]


def served(*words: str) -> tuple[list[str], list[str], list[object]]:
    """What a front end prints and says to whom it is asked by a Get, by an activation and by a Get again; and what it
    answers."""
    asked = [wire.Message(wire.GET, b"public", 1, 0, 0, [(SOURCE, (wire.NULL, b""))])] * 3
    asked[1] = wire.Message(wire.SET, b"administrator", 2, 0, 0, [(ACTIVATE, (wire.OCTETS, BLANK))])
    replies: list[object] = []
    with subprocess.Popen(
        [*FRONT_END, "--port", "0", *words],
        stdout=subprocess.PIPE,
        stderr=subprocess.PIPE,
        text=True,
        env=environment(),
    ) as process, socket.socket(socket.AF_INET, socket.SOCK_DGRAM) as manager:
        assert process.stdout is not None
        first = process.stdout.readline()
        found = re.fullmatch(r"a sign at (localhost|127\.0\.0\.1):(\d+)\n", first)
        assert found, process.communicate()
        manager.settimeout(PATIENCE)
        manager.connect(("127.0.0.1", int(found[2])))
        for one in asked:
            manager.send(wire.written(one))
            replies.append(wire.read(manager.recv(65536)))
        process.send_signal(signal.SIGTERM)
        printed, said = process.communicate(timeout=PATIENCE)
        assert process.returncode == 0
    return [found[1], *printed.splitlines()], said.splitlines(), replies


@pytest.mark.skipif(not SIGND.is_file(), reason="examples/out/signd is not built")
@pytest.mark.skipif(not SIGNTOOL.is_file(), reason="the program is not built")
def test_both_front_ends_print_and_answer_the_same(tmp_path: pathlib.Path) -> None:
    words = ["--host", "localhost", "--sign", SIGN]
    slow, fast = served(*words), served("--fast", *words)
    assert fast[0] == slow[0] == ["localhost", f"accepted {BLANK.hex()}"] and fast[2] == slow[2]
    assert fast[1] == [f"--fast: {SIGND} goes on", *slow[1]]


@pytest.mark.skipif(not SIGND.is_file(), reason="examples/out/signd is not built")
@pytest.mark.skipif(not SIGNTOOL.is_file(), reason="the program is not built")
@pytest.mark.parametrize("more", ([], ["--keep", "1"]))
def test_both_front_ends_go_on_from_each_others_journals(tmp_path: pathlib.Path, more: list[str]) -> None:
    path = tmp_path / "kept"
    journal = ["--journal", str(path), "--sign", SIGN, *more]
    turns: list[list[str]] = [["--fast"], [], ["--fast"], []]
    replies = []
    for turn in turns:
        replies.append(served(*journal, *turn)[2][0])
        assert (b"\nstate 1 sign #2 " in path.read_bytes()) == bool(more)
    assert replies[1] == replies[2] == replies[3] != replies[0]


@pytest.mark.skipif(not SIGND.is_file(), reason="examples/out/signd is not built")
def test_signd_says_why_it_does_not_start_in_the_same_words(tmp_path: pathlib.Path) -> None:
    (tmp_path / "odd.sign").write_text("sign of nothing\nend\n")
    with socket.socket(socket.AF_INET, socket.SOCK_DGRAM) as taken:
        taken.bind(("127.0.0.1", 0))
        at = f"127.0.0.1:{taken.getsockname()[1]}"
        for words, said in (
            (["--listen", at, "--sign", SIGN], f"{at}: Address already in use"),
            (["--port", "65536", "--sign", SIGN], "65536 is no port: 0 to 65535"),
            (["--host", "no.such.host.invalid", "--sign", SIGN], "no.such.host.invalid: Name or service not known"),
            (
                ["--port", "0", "--sign", str(tmp_path / "odd.sign")],
                f"{tmp_path}/odd.sign: line 1: no description of a sign",
            ),
        ):
            status, _, told = ran("--fast", *words)
            assert (status, told.splitlines()[1:]) == (2, [said]), words
