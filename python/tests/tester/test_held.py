"""Two tests of one sign from two commands: the second says so, and does not begin, as long as the first runs."""

import os
import pathlib
import signal
import subprocess
import sys
import tempfile
from unittest import mock

from model import text
from wisangub.process.places import TOP, environment
from wisangub.refusal import Refusal
from wisangub.tester.sign import held
from wisangub.tester.sign.clock import RealClock
from wisangub.tester.sign.link import UdpLink

from .endpoints import LONG, come, silence


def command(folder: pathlib.Path, to: str, *options: str) -> list[str]:
    described = folder / "bench.sign"
    described.write_bytes(text.BENCH)
    conform = [sys.executable, "-m", "wisangub.tester"]
    return [*conform, "--to", to, "--sign", str(described), "--signtool", "model", *options]


def refused(words: list[str], at: dict[str, str]) -> str:
    """What a command says that does not begin."""
    ended = subprocess.run(words, cwd=TOP, env=at, capture_output=True, text=True, timeout=LONG, check=False)
    assert ended.returncode == 2 and not ended.stdout, ended
    return ended.stderr


def test_a_second_test_of_a_sign_does_not_begin() -> None:
    """By whatever name its machine is called; its reports stay as they are, and a killed test holds nothing."""
    with tempfile.TemporaryDirectory() as place, silence() as port:
        folder = pathlib.Path(place)
        report, at = folder / "report.json", {**environment(), "XDG_RUNTIME_DIR": place}
        first = command(folder, f"127.0.0.1:{port}", "--json", str(report), "--wait", "60")
        with subprocess.Popen(first, cwd=TOP, env=at, stdout=subprocess.PIPE, stderr=subprocess.DEVNULL) as process:
            try:
                assert come(report) and process.stdout is not None and process.stdout.readline()
                before = report.read_bytes()
                said = f"a test of the sign at 127.0.0.1:{port} runs already: process {process.pid}; "
                said += "two would disturb each other\n"
                again = ["--json", str(folder / "other.json")]
                assert refused(command(folder, f"localhost:{port}", *again), at) == said
                assert refused(command(folder, f"127.0.0.1:{port}", "--resume", str(report)), at) == said
                assert refused(command(folder, f"127.0.0.1:{port}", "--repeat", "tick"), at) == said
                describe = [sys.executable, "-m", "wisangub.tester", "describe", "--to", f"127.0.0.1:{port}"]
                assert said in refused([*describe, "--communities", "public", "admin"], at)
                vectors = [sys.executable, "-m", "wisangub.tester", "vectors", "--to", f"127.0.0.1:{port}"]
                assert refused(vectors, at) == said
                assert report.read_bytes() == before and not (folder / "other.json").exists()
            finally:
                process.send_signal(signal.SIGKILL)
                process.wait(LONG)
        with mock.patch.dict(os.environ, at):
            UdpLink("127.0.0.1", port, RealClock()).close()
        assert not list(folder.glob("wisangub-*")), "nothing stays of a test that has ended"


def test_signs_of_other_addresses_are_tested_side_by_side() -> None:
    with tempfile.TemporaryDirectory() as place, mock.patch.dict(os.environ, {"XDG_RUNTIME_DIR": place}):
        links = [UdpLink(host, port, RealClock()) for host, port in (("127.0.0.1", 9), ("127.0.0.1", 10), ("::1", 9))]
        for link in links:
            link.close()
        UdpLink("127.0.0.1", 9, RealClock()).close()


def test_an_address_of_one_interface_alone_is_held_with_it() -> None:
    with tempfile.TemporaryDirectory() as place, mock.patch.dict(os.environ, {"XDG_RUNTIME_DIR": place}):
        every = [held.Held(("fe80::1", 9, 0, number)) for number in (0, 1, 2)]
        assert [one.named for one in every] == ["[fe80::1]:9", "[fe80::1%1]:9", "[fe80::1%2]:9"]
        for one in every:
            one.close()


def test_without_such_a_folder_there_is_one_among_temporary_files() -> None:
    """Where that is another's, or others may write to it, a test begins all the same."""
    with tempfile.TemporaryDirectory() as place, mock.patch.object(held, "_places", lambda _: ("", place + "/none")):
        with mock.patch("tempfile.gettempdir", lambda: place):
            first, own = held.hold(("127.0.0.1", 9)), pathlib.Path(place, f"wisangub-{os.getuid()}")
            assert first is not None and own.stat().st_mode & 0o777 == 0o700
            try:
                held.hold(("127.0.0.1", 9))
                raise AssertionError("it is held twice")
            except Refusal:
                first.close()
            own.chmod(0o777)
            assert held.hold(("127.0.0.1", 9)) is None
