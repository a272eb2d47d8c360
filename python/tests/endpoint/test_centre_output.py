"""Standard output of a centre whose reader stands still: commands are carried out, and their lines wait in order."""

import contextlib
import signal
import subprocess
from collections.abc import Iterator
from dataclasses import dataclass

from wisangub.process.places import environment

from . import with_centres
from .test_standard_error import _emptied, _full
from .waiting import PATIENCE, until
from .with_centres import BLANK, BenchSign

ACCEPTED = "ledger {} ffffff07000100007f000001 accepted"


@dataclass
class Unread:
    """A centre whose lines nobody takes until they are read here, and its sign."""

    sign: BenchSign
    process: "subprocess.Popen[bytes]"
    pipe: int
    octets: bytes = b""

    def order(self, *lines: str) -> None:
        """An operator's lines."""
        assert self.process.stdin is not None
        self.process.stdin.write("".join(f"{line}\n" for line in lines).encode())
        self.process.stdin.flush()

    def asks(self, count: int) -> None:
        """Waits until the sign heard so many requests."""
        until(lambda: len(self.sign.heard) >= count, f"request {count}")

    def lines(self) -> list[str]:
        """What it printed until now."""
        self.octets += _emptied(self.pipe)
        return self.octets.lstrip(b"x").decode().splitlines()


@contextlib.contextmanager
def unread(*words: str) -> Iterator[Unread]:
    with BenchSign() as sign, _full() as (read, write):
        call = with_centres.call("--to", f"127.0.0.1:{sign.port()}", *words)
        with subprocess.Popen(
            call, stdin=subprocess.PIPE, stdout=write, stderr=subprocess.DEVNULL, env=environment()
        ) as process:
            try:
                yield Unread(sign, process, read)
            finally:
                process.kill()


def printed(count: int) -> list[str]:
    """What is printed of so many commands."""
    return [line for at in range(1, count + 1) for line in ("idle", "last accepted", ACCEPTED.format(at))]


def test_commands_are_carried_out_though_nobody_reads_how_they_end() -> None:
    with unread() as centre:
        for count in (1, 2, 3):
            centre.order(BLANK)
            centre.asks(count)
        centre.order("no command")
        until(lambda: "bad line" in centre.lines(), "what waited")
        assert centre.lines() == [*printed(3), "bad line"]


def test_a_job_that_waits_for_its_sign_has_its_ticks_though_lines_wait() -> None:
    """A request goes out again while what was printed before it is not taken."""
    with unread("--tick", "0.1") as centre:
        centre.order(BLANK)
        centre.asks(1)
        centre.sign.is_silent = True
        centre.order(BLANK)
        centre.asks(4)
        assert centre.sign.heard[2] == centre.sign.heard[1] != centre.sign.heard[0]
        until(lambda: centre.lines() == printed(1), "what waited, while the job goes on")


def test_at_the_end_of_its_commands_a_centre_waits_until_its_lines_are_taken() -> None:
    with unread() as centre:
        centre.order(BLANK)
        assert centre.process.stdin is not None
        centre.process.stdin.close()
        centre.asks(1)
        with contextlib.suppress(subprocess.TimeoutExpired):
            assert centre.process.wait(3) is None, "its line is not taken yet"
        until(lambda: centre.lines() == printed(1), "what waited")
        assert centre.process.wait(PATIENCE) == 0


def test_a_reader_that_stands_still_keeps_no_centre_from_ending() -> None:
    with unread() as centre:
        centre.order(BLANK)
        centre.asks(1)
        centre.process.send_signal(signal.SIGTERM)
        assert centre.process.wait(PATIENCE) == 1
