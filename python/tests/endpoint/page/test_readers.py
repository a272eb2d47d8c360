"""A browser that hangs does not hold the sign, and a page without a port does not begin one."""

import pathlib
import socket
import statistics
import subprocess
import sys
import time

from wisangub.endpoint.page.server import MOST_AT_ONCE
from wisangub.process.places import TOP, environment
from wisangub.snmp.names import scalar

from .bench import PROGRAM, Bench, bench

GETS = 500
ROUNDS = 5
HUNG = 10
FILLED = 4.0  # seconds in which what ten browsers are sent fills their room
WIDTH = scalar("vmsSignWidthPixels")


def processor(one: Bench) -> float:
    """Seconds of a processor that all threads of the front end have had, those that are over left out."""
    tasks = pathlib.Path(f"/proc/{one.process.pid}/task").iterdir()
    return sum(int((task / "schedstat").read_text(encoding="ascii").split()[0]) for task in tasks) / 1e9


def asked(one: Bench) -> tuple[float, float]:
    """What so many Gets take, one after the other: of a processor, and by the clock."""
    before, begun = processor(one), time.monotonic()
    for _ in range(GETS):
        one.get(WIDTH)
    return processor(one) - before, time.monotonic() - begun


def test_ten_hung_browsers_do_not_slow_the_sign() -> None:
    """The medians of some rounds, in turn with a page that nobody looks at, since others have the machine too. The
    browsers read nothing: what they are sent fills their room, and then their threads wait. By the clock a busy machine
    alone makes more of a difference than what is let pass of a processor."""
    with bench() as alone, bench() as beside:
        hung = [beside.listener(4096) for _ in range(HUNG)]
        full = time.monotonic() + FILLED
        while time.monotonic() < full:
            beside.get(WIDTH)
        times = [(*asked(alone), *asked(beside)) for _ in range(ROUNDS)]
        own, clock, own_beside, clock_beside = (statistics.median(some) for some in zip(*times))
        assert own_beside < 2 * own and clock_beside < 5 * clock + 1.0, times
        for one in hung:
            one.close()


def test_more_requests_than_there_are_places_wait_for_nobody() -> None:
    with bench() as one:
        hung = [one.listener() for _ in range(MOST_AT_ONCE + 5)]
        assert one.get(WIDTH) == 96
        assert sum(made.recv(1) == b"" for made in hung) == 5, "the last ones are let go at once"
        for made in hung:
            made.close()


def test_a_start_whose_page_has_no_port_is_not_recorded(tmp_path: pathlib.Path) -> None:
    journal = tmp_path / "journal"
    with socket.create_server(("127.0.0.1", 0)) as other:
        port = other.getsockname()[1]
        call = [sys.executable, "-m", "wisangub.endpoint.sign", "--signtool", PROGRAM, "--port", "0"]
        call += ["--page", str(port), "--journal", str(journal)]
        ended = subprocess.run(
            call, cwd=TOP, env=environment(), capture_output=True, text=True, timeout=60, check=False
        )
    assert (ended.returncode, ended.stdout) == (2, "")
    assert ended.stderr == f"127.0.0.1:{port}: Address already in use\n"
    assert not journal.exists()
