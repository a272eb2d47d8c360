"""wisangub-conform vectors at a port that is silent, and at one that answers wrongly."""

import contextlib
import json
import pathlib
import socket
import subprocess
import sys
import tempfile
import threading
import time
import xml.etree.ElementTree as ET

from wisangub.process.places import TOP

from .skipping import skip

CALL = [sys.executable, "-m", "wisangub.tester", "vectors"]


def asked(port: int, *more: str) -> subprocess.CompletedProcess[str]:
    """How the tool ends at a port of this machine."""
    words = [*CALL, "--to", f"127.0.0.1:{port}", "--wait", "0.2", *more]
    return subprocess.run(words, capture_output=True, text=True, timeout=120, check=False)


def received(udp_socket: socket.socket) -> int:
    """How many datagrams wait."""
    count = 0
    udp_socket.setblocking(False)
    while True:
        try:
            udp_socket.recv(2048)
        except BlockingIOError:
            return count
        count += 1


def test_stops_after_three_silent_requests() -> None:
    with socket.socket(socket.AF_INET, socket.SOCK_DGRAM) as udp_socket:
        udp_socket.bind(("127.0.0.1", 0))
        ended = asked(udp_socket.getsockname()[1])
        assert ended.returncode == 2
        assert received(udp_socket) == 3
        assert "3 requests one after the other without a reply: stopped" in ended.stderr


def test_asks_over_ipv6_too() -> None:
    with socket.socket(socket.AF_INET6, socket.SOCK_DGRAM) as udp_socket:
        try:
            udp_socket.bind(("::1", 0))
        except OSError:
            skip("this machine has no IPv6")
        call = [*CALL, "--to", f"[::1]:{udp_socket.getsockname()[1]}", "--wait", "0.2"]
        ended = subprocess.run(call, capture_output=True, text=True, timeout=120, check=False)
        assert received(udp_socket) == 3 and "without a reply: stopped" in ended.stderr, ended


def test_a_report_that_cannot_be_written_is_no_difference() -> None:
    """It is looked at before the first datagram; a disk that is full is found at the end."""
    with socket.socket(socket.AF_INET, socket.SOCK_DGRAM) as udp_socket:
        udp_socket.bind(("127.0.0.1", 0))
        for path, why, count in (
            ("/nowhere/report.xml", "/nowhere/report.xml.new: No such file or directory", 0),
            ("/dev/full", "No space left on device", 3),
        ):
            ended = asked(udp_socket.getsockname()[1], "--junit", path)
            assert (ended.returncode, received(udp_socket)) == (2, count), ended
            assert ended.stderr == f"the report cannot be written: {why}\n"


def test_goes_on_where_replies_are_wrong() -> None:
    with socket.socket(socket.AF_INET, socket.SOCK_DGRAM) as udp_socket:
        udp_socket.bind(("127.0.0.1", 0))
        udp_socket.settimeout(20)

        def answer() -> None:
            try:
                while octets := udp_socket.recvfrom(2048):
                    udp_socket.sendto(b"\0", octets[1])
            except OSError:
                pass

        thread = threading.Thread(target=answer, daemon=True)
        thread.start()
        ended = asked(udp_socket.getsockname()[1])
    assert ended.returncode == 1
    assert ended.stdout.splitlines()[-1].startswith("0 passed, ")


def test_what_comes_from_elsewhere_is_not_taken_and_the_report_says_what_failed() -> None:
    with socket.socket(socket.AF_INET, socket.SOCK_DGRAM) as udp_socket, socket.socket(
        socket.AF_INET, socket.SOCK_DGRAM
    ) as other, tempfile.TemporaryDirectory() as folder:
        udp_socket.bind(("127.0.0.1", 0))
        other.bind(("127.0.0.1", 0))

        def answer() -> None:
            for _ in range(3):
                _, sender = udp_socket.recvfrom(2048)
                other.sendto(b"\0", sender)

        thread = threading.Thread(target=answer, daemon=True)
        thread.start()
        report = pathlib.Path(folder, "report.xml")
        ended = asked(udp_socket.getsockname()[1], "--junit", str(report))
        thread.join(20)
        suite = ET.fromstring(report.read_bytes())
    assert ended.returncode == 2 and ended.stderr.count("a reply came from 127.0.0.1:") == 3
    assert (suite.get("tests"), suite.get("failures")) == ("3", "3")


def test_a_stranger_that_goes_on_sending_gives_a_silent_sign_no_more_time() -> None:
    with socket.socket(socket.AF_INET, socket.SOCK_DGRAM) as udp_socket, socket.socket(
        socket.AF_INET, socket.SOCK_DGRAM
    ) as other:
        udp_socket.bind(("127.0.0.1", 0))
        udp_socket.settimeout(20)
        over = threading.Event()

        def flood() -> None:
            _, asker = udp_socket.recvfrom(2048)
            while not over.wait(0.02):
                other.sendto(b"\0", asker)

        thread = threading.Thread(target=flood, daemon=True)
        thread.start()
        ended = asked(udp_socket.getsockname()[1])
        over.set()
        thread.join(20)
    assert ended.returncode == 2 and "3 requests one after the other without a reply: stopped" in ended.stderr


def test_replies_that_come_twice_are_none_to_what_is_asked_next() -> None:
    lines = (TOP / "vectors/requests.jsonl").read_text(encoding="ascii").splitlines()
    cases = [case for case in map(json.loads, lines) if not case["changes"]]
    replies = {case["request"]: case["reply"] for case in cases}
    with socket.socket(socket.AF_INET, socket.SOCK_DGRAM) as udp_socket:
        udp_socket.bind(("127.0.0.1", 0))
        udp_socket.settimeout(20)

        def answer() -> None:
            with contextlib.suppress(OSError):
                while octets := udp_socket.recvfrom(2048):
                    reply = replies[octets[0].hex()]
                    for _ in range(2 if reply else 0):
                        udp_socket.sendto(bytes.fromhex(reply), octets[1])
                        time.sleep(0.01)

        threading.Thread(target=answer, daemon=True).start()
        ended = asked(udp_socket.getsockname()[1])
    assert ended.returncode == 0 and f"{len(cases)} passed, 0 failed" in ended.stdout, ended


def test_a_network_that_is_not_there_is_no_difference() -> None:
    ended = subprocess.run(
        [*CALL, "--to", "255.255.255.255:161"], capture_output=True, text=True, timeout=60, check=False
    )
    assert ended.returncode == 2 and "Traceback" not in ended.stderr, ended


def test_refuses_what_is_no_address() -> None:
    table = [
        (["--to", "nobody"], "--to wants HOST:PORT"),
        (["--to", "127.0.0.1:65536"], "--to wants HOST:PORT"),
        (["--to", "no.such.host.invalid:161"], "no.such.host.invalid: "),
        (["--to", "no..host:161"], "no..host: no such host"),
        (["--wait", "0"], "--wait: a number above 0"),
    ]
    for words, said in table:
        ended = subprocess.run([*CALL, *words], capture_output=True, text=True, timeout=60, check=False)
        assert ended.returncode == 2 and said in ended.stderr and "Traceback" not in ended.stderr, ended
