"""A centre's front end: what it asks its co-process for, and a sign that found a row in error."""

import pathlib
import socket
from typing import Any, Callable, Iterator

import pytest

from model import wire
from wisangub.endpoint.centre_front_end import CentreFrontEnd, last_command
from wisangub.endpoint.journal import Journal
from wisangub.endpoint.questions import Questions
from wisangub.endpoint.records import Head
from wisangub.process.coprocess import CoProcess

from .waiting import MODEL
from .with_centres import BenchSign

BLANK = b"blank 1 65535 255 127.0.0.1"


class Listened(CoProcess):
    """A co-process whose questions are kept."""

    def __init__(self) -> None:
        super().__init__(MODEL, ["centre"])
        self.asked: list[bytes] = []

    def ask(self, line: bytes) -> list[bytes]:
        self.asked.append(line)
        return super().ask(line)


@pytest.fixture
def silent() -> Iterator[socket.socket]:
    """A sign that says nothing, and the socket to it."""
    with socket.socket(socket.AF_INET, socket.SOCK_DGRAM) as sign, socket.socket(
        socket.AF_INET, socket.SOCK_DGRAM
    ) as front_end:
        sign.bind(("127.0.0.1", 0))
        front_end.connect(sign.getsockname())
        yield front_end


def test_whether_a_job_is_under_way_is_asked_without_the_ledger(silent: socket.socket) -> None:
    centre = Listened()
    front_end = CentreFrontEnd(centre, silent, None, None, 1.0, 1.0)
    assert not front_end.is_busy
    assert front_end.hand(BLANK).startswith(b"send ") and front_end.is_busy
    assert front_end.hand(b"tick") == b"ok" and front_end.is_busy
    assert front_end.hand(b"restart") == b"ok" and not front_end.is_busy
    assert centre.asked == [b"status last"] * 3
    centre.end()


def test_an_operator_has_the_ledger(silent: socket.socket, capfd: pytest.CaptureFixture[str]) -> None:
    centre = Listened()
    front_end = CentreFrontEnd(centre, silent, None, None, 1.0, 1.0)
    front_end.hand(BLANK)
    front_end.hand(b"restart")
    assert front_end.carry_out("status") and centre.asked[-1] == b"status"
    assert capfd.readouterr().out.splitlines()[-1] == "ledger 1 ffffff07000100007f000001 unknown"
    assert not front_end.finish([], 1.0) and centre.asked[-1] == b"status"
    assert capfd.readouterr().out.splitlines()[-1] == "ledger 1 ffffff07000100007f000001 unknown"
    centre.end()


def test_a_reply_from_elsewhere_is_not_taken_and_told_once(
    silent: socket.socket, capfd: pytest.CaptureFixture[str]
) -> None:
    centre = Listened()
    front_end = CentreFrontEnd(centre, silent, None, None, 30.0, 1.0)
    reply = wire.read(bytes.fromhex(front_end.hand(BLANK)[5:].decode()))
    reply.kind = wire.RESPONSE
    with socket.socket(socket.AF_INET, socket.SOCK_DGRAM) as other:
        other.bind(("127.0.0.1", 0))
        for octets in (b"", b"no message", *[wire.written(reply)] * 3):
            other.sendto(octets, silent.getsockname())
        assert not front_end.carry_on(0.5) and front_end.is_busy and front_end.heard == b""
        said, port = capfd.readouterr().err, other.getsockname()[1]
    assert said.count("a reply came from ") == 1 and f"from 127.0.0.1:{port}, and not from 127.0.0.1:" in said
    with socket.socket(socket.AF_INET, socket.SOCK_DGRAM) as other:
        other.setsockopt(socket.SOL_SOCKET, socket.SO_REUSEADDR, 1)
        with pytest.raises(OSError):
            other.bind(silent.getsockname())
    centre.end()


class Recorded(Listened):
    """A co-process beside a journal: of each line that it is handed, what the journal has then."""

    def __init__(self, path: pathlib.Path) -> None:
        super().__init__()
        self.path, self.handed, self.last = path, list[bytes](), list[bytes]()

    def hand(self, lines: list[bytes]) -> list[bytes]:
        self.handed += lines
        self.last.append(self.path.read_bytes().splitlines()[-1].partition(b" #")[0])
        return super().hand(lines)


def test_each_line_is_recorded_before_it_is_handed_over(silent: socket.socket, tmp_path: pathlib.Path) -> None:
    journal = Journal.opened(str(tmp_path / "journal"), Head("centre", "bench", 1))
    centre = Recorded(tmp_path / "journal")
    front_end = CentreFrontEnd(centre, silent, journal, None, 0.1, 1.0)
    front_end.hand(BLANK)
    assert not front_end.carry_on(0.5)
    assert centre.handed == centre.last and centre.handed[:3] == [BLANK, b"tick", b"tick"]
    journal.close()
    centre.end()


class Sign(BenchSign):
    """A bench sign; what it is asked with numbers below 0 it answers so."""

    def __init__(self, answers: Callable[[bytes], list[bytes]]) -> None:
        super().__init__()
        self.answers = answers
        self.below: list[tuple[bytes, Any]] = []
        self.peers: set[Any] = set()

    def replies(self, octets: bytes, _peer: Any) -> list[bytes]:
        some, message = super().replies(octets, _peer), wire.spelled(octets)
        if message is not None and message.number < 0:
            self.below.append((octets, _peer))
            return self.answers(some[0])
        self.peers.add(_peer)
        return some


def other_number(reply: bytes) -> bytes:
    """The reply to another request."""
    message = wire.read(reply)
    message.number -= 1
    return wire.written(message)


def published(sign: Sign, line: str, journal: Journal | None = None) -> CentreFrontEnd:
    """A front end that carried a command out."""
    centre = CoProcess(MODEL, ["centre"])
    centre.begin(b"status last", "the model")
    if journal:
        centre.replay(journal.lines())
    front_end = socket.socket(socket.AF_INET, socket.SOCK_DGRAM)
    front_end.connect(sign.socket.getsockname())
    made = CentreFrontEnd(centre, front_end, journal, None, 0.3, 30.0, Questions("/bin/false", None))
    with front_end:
        made.carry_out(line)
    centre.end()
    return made


WIDE = f"publish 3 1 {b'ABABABABAB'.hex()} - 0 0 9 65535 255 127.0.0.1"
STEP = "step 5 (is the message valid)"


def test_a_sign_is_asked_why_a_row_is_in_error(capfd: pytest.CaptureFixture[str]) -> None:
    with Sign(lambda reply: [b"0", other_number(reply), reply]) as sign:
        published(sign, WIDE)
        said = capfd.readouterr()
        assert said.out == "idle\nlast failed at step 5: the row has status 5, error\n"
        assert said.err == f"{STEP}: the sign found fault 5 at octet 4: textTooBig\n"
        ((octets, peer),) = sign.below
        message = wire.read(octets)
        assert peer not in sign.peers and message.kind == wire.GET and message.community == b"public"
        assert message.number < -4 and [name[-3:] for name, _ in message.bindings] == [
            (5, 9, 0),
            (6, 18, 0),
            (6, 19, 0),
        ]


@pytest.mark.parametrize("answers", [lambda _: [], lambda reply: [other_number(reply)], lambda _: [b"\x30\x00", b"x"]])
def test_without_an_answer_in_a_second_no_more_is_said(
    answers: Callable[[bytes], list[bytes]], capfd: pytest.CaptureFixture[str]
) -> None:
    with Sign(answers) as sign:
        published(sign, WIDE)
        said = capfd.readouterr()
        assert said.out == "idle\nlast failed at step 5: the row has status 5, error\n" and said.err == f"{STEP}\n"
        assert len(sign.below) == 1


def test_no_other_end_asks_the_sign(capfd: pytest.CaptureFixture[str]) -> None:
    with Sign(lambda reply: [reply]) as sign:
        published(sign, f"publish 3 1 {b'AB'.hex()} - 0 0 9 65535 255 127.0.0.1")
        published(sign, "blank 1 65535 8 127.0.0.1")
        published(sign, "publish 3 9 41 - 0 0 9 65535 255 127.0.0.1")
        assert sign.below == [] and capfd.readouterr().err == "step 7 (activate)\nstep 1 (open the row)\n"


def test_the_question_is_no_record_and_its_number_is_used_once(
    tmp_path: pathlib.Path, capfd: pytest.CaptureFixture[str]
) -> None:
    path, used = str(tmp_path / "journal"), list[int]()
    with Sign(lambda reply: [reply]) as sign:
        for _ in range(3):
            journal = Journal.opened(path, Head("centre", "bench", 1))
            published(sign, WIDE, journal)
            used.append(wire.read(sign.below[-1][0]).number)
            journal.close()
        records = (tmp_path / "journal").read_bytes()
    assert len(set(used)) == 3 == len(sign.below) and all(number < 0 for number in used)
    replies = [line.split(b" ")[1].decode() for line in records.split(b"\n") if line.startswith(b"datagram ")]
    numbers = [wire.read(bytes.fromhex(reply)).number for reply in replies]
    assert min(numbers) == 1 and {-number for number in used} <= set(numbers), "only the centre's own are recorded"
    assert capfd.readouterr().err.count("the sign found fault 5 at octet 4") == 3


def test_a_front_end_that_finds_a_job_not_done_asks_too(
    tmp_path: pathlib.Path, capfd: pytest.CaptureFixture[str]
) -> None:
    path = str(tmp_path / "journal")
    with Sign(lambda reply: [reply]) as sign:
        journal = Journal.opened(path, Head("centre", "bench", 1))
        published(sign, WIDE, journal)
        kept = [line for lines in journal.lines() for line in lines]
        journal.close()
        capfd.readouterr()
        centre = CoProcess(MODEL, ["centre"])
        centre.begin(b"status last", "the model")
        centre.replay([kept[:-1]])
        with socket.socket(socket.AF_INET, socket.SOCK_DGRAM) as front_end:
            front_end.connect(sign.socket.getsockname())
            made = CentreFrontEnd(centre, front_end, None, None, 0.3, 30.0, Questions("/bin/false", None))
            made.line = last_command([kept[:-1]])
            assert made.is_busy and made.line == WIDE and not made.finish([], 30.0)
        centre.end()
        assert capfd.readouterr().err == f"{STEP}: the sign found fault 5 at octet 4: textTooBig\n"
        assert len({octets for octets, _ in sign.below}) == 1, "the same octets under the same number"


def test_the_last_command_of_a_journal() -> None:
    assert last_command([[b"publish 1", b"tick"], [b"blank 2", b"datagram -"], [b"tick"], []]) == "blank 2"
    assert last_command([[b"tick"]]) == "" == last_command([])
