"""The sign that watches a central system."""

import contextlib
import errno
import json
import pathlib
import signal
import socket
import subprocess
import sys
import tempfile
from dataclasses import replace
from typing import Any, Iterator

from model import text
from model.centre import Centre
from trials.wrong_signs.bench import ModelJudge, ModelOracle
from wisangub.process.places import TOP
from wisangub.snmp import wire
from wisangub.snmp.names import Memory, RowStatus, scalar
from wisangub.tester.centre.program import Report, serve
from wisangub.tester.centre.watch import Habit, Watch
from wisangub.tester.context import ADDRESS, Context, activate
from wisangub.tester.findings.results import Verdict
from wisangub.tester.requests.messages import spelled
from wisangub.tester.requests.objects import Column, Row, instance, integer
from wisangub.tester.requests.steps import Ask, get, get_next, put
from wisangub.tester.sign.clock import RealClock
from wisangub.tester.sign.described import described

from .endpoints import LONG, in_real_time

ROW = Row(Memory.CHANGEABLE, 1)
CONTEXT = Context(described(text.BENCH), (b"public", b"admin"), ModelJudge(text.BENCH))
CODE = CONTEXT.code(ROW, CONTEXT.crc(b"A"), address=ADDRESS)
WRITE = put(ROW.text(b"A"), ROW.owner(b""), ROW.beacon(0), ROW.pixel(0), ROW.priority(100))
PUBLICATION: list[Ask | None] = [
    put(ROW.status(RowStatus.MODIFY_REQ)),
    get(ROW.cell(Column.STATUS)),
    WRITE,
    put(ROW.status(RowStatus.VALIDATE_REQ)),
    None,
    get(ROW.cell(Column.STATUS)),
    get(ROW.cell(Column.CRC)),
    activate(CODE),
]


PAST = (1, 3, 6, 1, 4, 1, 1206, 4, 2, 3, 99)
ANSWER = wire.Message(wire.RESPONSE, b"admin", 1, 0, 0, [(scalar("vmsSignHeightPixels"), integer(1))])


def taken(owner: bytes) -> list[Ask | None]:
    """A row with a message of this owner."""
    return [put(ROW.status(RowStatus.MODIFY_REQ)), put(ROW.text(b"A"), ROW.owner(owner))]


def in_error() -> list[Ask | None]:
    """A row whose text does not fit."""
    text = put(ROW.text(b"[zz]"), ROW.owner(b""))
    return [put(ROW.status(RowStatus.MODIFY_REQ)), text, put(ROW.status(RowStatus.VALIDATE_REQ)), None]


def watched(steps: list[Ask | None], numbers: list[int] | None = None, apart: float = 1.0) -> Watch:
    """What is seen of these requests, so many seconds apart; None is a tick."""
    watch = Watch(b"public")
    told(ModelOracle(text.BENCH), watch, steps, numbers, apart)
    return watch


def told(
    sign: ModelOracle, watch: Watch, steps: list[Ask | None], numbers: list[int] | None = None, apart: float = 1.0
) -> None:
    """What a sign that watches is sent."""
    for at, step in enumerate(steps):
        if step is None:
            sign.tick()
            watch.ticked()
            continue
        octets = step.octets(numbers[at] if numbers else at + 1, CONTEXT.communities)
        for row in watch.rows_asked(octets):
            watch.owned(row, sign_owner(sign, row))
        watch.heard(at * apart, octets, sign.datagram(octets))


def sign_owner(sign: ModelOracle, row: Row) -> bytes:
    """The owner that the sign has of a row."""
    reply = sign.datagram(get(row.cell(Column.OWNER)).octets(0, CONTEXT.communities))
    message = spelled(reply or b"")
    held = message.bindings[0][1][1] if message is not None else b""
    return held if isinstance(held, bytes) else b""


def habits(watch: Watch) -> list[Habit]:
    return [seen.habit for seen in watch.seen]


def test_a_good_publication_shows_nothing() -> None:
    assert habits(watched(PUBLICATION)) == []


def test_each_habit_is_seen() -> None:
    height, none = get(scalar("vmsSignHeightPixels")), get(instance(2, 5))
    bad = put(ROW.text(b"A"), ROW.beacon(2))
    table: list[tuple[list[Ask | None], list[int] | None, Habit]] = [
        ([height, get(scalar("vmsSignWidthPixels"))], [5, 5], Habit.NUMBER),
        ([*PUBLICATION[:6], activate(CODE)], None, Habit.UNREAD),
        ([WRITE], None, Habit.UNASKED),
        ([none, height, none], None, Habit.AFTER),
        ([put(ROW.status(RowStatus.MODIFY_REQ), is_writer=False)], None, Habit.READER),
        ([*PUBLICATION[:4], get(ROW.cell(Column.CRC)), None], None, Habit.EARLY),
        ([*in_error(), get(ROW.cell(Column.STATUS)), activate(CODE)], None, Habit.ERROR),
        ([replace(height, community=b"nobody")], None, Habit.DROPPED),
        ([height] * 5, [1] * 5, Habit.STORM),
        ([put(ROW.status(RowStatus.MODIFY_REQ)), bad, put(ROW.status(RowStatus.VALIDATE_REQ))], None, Habit.IGNORED),
        ([activate(CONTEXT.blank_code(256)), height], None, Habit.IGNORED),
        (
            [put((scalar("defaultPageOnTime"), integer(256))), height, activate(CONTEXT.blank_code(1))],
            None,
            Habit.IGNORED,
        ),
    ]
    for steps, numbers, habit in table:
        assert habits(watched(steps, numbers)) == [habit], (habit, steps)
    assert habits(watched([height] * 3, apart=0.5)) == [Habit.FAST]
    assert habits(watched([height, height, None, height, height, None], apart=0.5)) == []
    assert habits(watched([none, height])) == []  # a probe for an object that a sign need not have
    assert habits(watched([get_next(PAST), height, get_next(PAST)])) == []  # walks to their end
    assert habits(watched([activate(CONTEXT.blank_code(256)), get(scalar("dmsActivateMsgError"))])) == []
    right: list[Ask | None] = [put((scalar("defaultPageOnTime"), integer(value))) for value in (256, 255)]
    assert habits(watched([*right, activate(CONTEXT.blank_code(1))])) == []
    again = watched([height, height], [5, 5], apart=0.5)
    assert habits(again) == [] and again.again == 1


def test_a_row_of_another_owner_is_taken() -> None:
    empties: list[Ask | None] = [put(ROW.status(RowStatus.NOT_USED_REQ))]
    table: list[tuple[list[Ask | None], set[bytes], list[Habit]]] = [
        (taken(b"you"), set(), [Habit.TAKEN]),
        (taken(b"me"), set(), []),
        (empties, set(), []),  # perhaps it is "me", which has written nothing yet
        (empties, {b"me"}, []),
        (empties, {b"you"}, [Habit.TAKEN]),
    ]
    for steps, owners, seen in table:
        sign = ModelOracle(text.BENCH)
        for step in taken(b"me"):
            if step is not None:
                sign.datagram(step.octets(1, CONTEXT.communities))
        watch = Watch(b"public", owners=owners)
        told(sign, watch, steps)
        assert habits(watch) == seen, steps


def test_a_storm_of_writes_is_seen_whatever_their_numbers() -> None:
    write: list[Ask | None] = [put((scalar("defaultPageOnTime"), integer(3)))] * 5
    assert habits(watched(write, apart=0.1)) == [Habit.STORM]
    assert habits(watched(write, apart=2.0)) == []


def test_what_is_dropped_is_counted_by_kind() -> None:
    watch = Watch(b"public")
    for octets in (bytes(1473), b"\x30\0", get(PAST).octets(1, (b"a", b"b")), wire.written(ANSWER)):
        watch.heard(0.0, octets, None)
    assert dict(watch.dropped) == {"its length": 1, "its BER": 1, "its community": 1, "its kind": 1}
    assert watch.verdict() is Verdict.DIFFERS


def test_nothing_heard_is_not_judged() -> None:
    watch = Watch(b"public")
    assert watch.verdict() is Verdict.NOT_JUDGED and watch.lines()[-1] == "not judged: nothing was heard"
    assert watched(PUBLICATION).verdict() is Verdict.CONFORMS


def test_our_own_centre_conforms() -> None:
    """A publication, a refused one, a blank and an activation of the central system of the model, at any phase."""
    jobs: list[tuple[str, tuple[object, ...]]] = [
        ("publish", (3, 1, b"A", b"me", 0, 0, 100, 65535, 255, b"\1\2\3\4")),
        ("publish", (3, 1, b"[zz]", b"me", 0, 0, 100, 65535, 255, b"\1\2\3\4")),
        ("blank", (1, 65535, 255, b"\1\2\3\4")),
        ("blank", (1, 65535, 3, b"\1\2\3\4")),
    ]
    for phase in (0.05, 0.3, 0.6, 0.95):
        sign, watch, centre = ModelOracle(text.BENCH), Watch(b"public"), Centre(b"admin", False, 1)
        for job in jobs:
            run_job(sign, watch, centre, job, phase)
        assert watch.requests > 15 and habits(watch) == [], (phase, watch.lines())


def run_job(sign: ModelOracle, watch: Watch, centre: Centre, job: tuple[str, tuple[object, ...]], phase: float) -> None:
    """A job to its end: the sign's seconds and those of the central system follow each other by `phase`."""
    going = centre.command(job)
    for _ in range(40):
        while going is not None:
            for row in watch.rows_asked(going):
                watch.owned(row, sign_owner(sign, row))
            reply = sign.datagram(going)
            watch.heard(0.0, going, reply)
            going = centre.receive(reply) if reply is not None else None
        if centre.job is None:
            return
        if phase < 0.5:
            sign.tick()
            watch.ticked()
        going = centre.tick()
        if phase >= 0.5:
            sign.tick()
            watch.ticked()


@contextlib.contextmanager
def watching(described: pathlib.Path) -> Iterator[tuple["subprocess.Popen[bytes]", int]]:
    """The program on a port, which is gone afterwards."""
    call = [sys.executable, "-m", "wisangub.tester.centre.program", "--port", "0", "--sign", str(described)]
    with subprocess.Popen([*call, "--signtool", "model"], cwd=TOP, stdout=subprocess.PIPE) as sign:
        try:
            assert sign.stdout is not None
            yield sign, int(sign.stdout.readline().split(b":")[-1])
        finally:
            sign.kill()


def ended(sign: "subprocess.Popen[bytes]") -> tuple[int, str]:
    """The status of the program after a signal, and what it tells."""
    sign.send_signal(signal.SIGTERM)
    assert sign.stdout is not None
    said = sign.stdout.read().decode()
    return sign.wait(10), said


def test_our_own_centre_conforms_on_its_port() -> None:
    """A publication, and one whose text does not fit: there the front end asks by itself what the sign found."""
    described = TOP / "signs/roadside.sign"
    jobs = [f'publish-text 3 1 "{words}" - 0 0 100 65535 255 127.0.0.1\n' for words in ("A", "[zz]")]
    with in_real_time(), watching(described) as (sign, port):
        call = [sys.executable, "bin/wisangub-centre", "--signtool", str(TOP / "model/signtool")]
        call += ["--to", f"127.0.0.1:{port}", "--sign", str(described)]
        told = subprocess.run(
            call, input="".join(jobs).encode(), cwd=TOP, capture_output=True, timeout=LONG, check=False
        )
        assert told.returncode == 1 and b"last accepted" in told.stdout and b"fault 3 at octet 0" in told.stderr, told
        status, said = ended(sign)
        assert status == 0 and said.endswith("conforms\n"), said


def test_it_answers_on_a_port_and_tells_at_its_end() -> None:
    with tempfile.TemporaryDirectory() as folder, socket.socket(socket.AF_INET, socket.SOCK_DGRAM) as udp_socket:
        described = pathlib.Path(folder) / "bench.sign"
        described.write_bytes(text.BENCH)
        with watching(described) as (sign, port):
            udp_socket.settimeout(5)
            for ask in (put((scalar("defaultPageOnTime"), integer(3))), get(scalar("defaultPageOnTime"))):
                udp_socket.sendto(ask.octets(9, CONTEXT.communities), ("127.0.0.1", port))
                assert udp_socket.recv(2000)
            status, said = ended(sign)
            assert status == 1 and "used again for another request: 1" in said, said


class NoWayBack(socket.socket):
    """A socket that sends nothing, for a reason of the system: to port 0, or to all hosts, as a forged sender has."""

    def sendto(self, *_: Any) -> int:
        raise OSError(errno.EINVAL, "Invalid argument")


def test_a_sender_to_whom_nothing_can_be_sent_ends_nothing() -> None:
    watch = Watch(b"public")
    with NoWayBack(socket.AF_INET, socket.SOCK_DGRAM) as here, socket.socket(
        socket.AF_INET, socket.SOCK_DGRAM
    ) as there:
        here.bind(("127.0.0.1", 0))
        for number in (1, 2):
            there.sendto(get(scalar("defaultPageOnTime")).octets(number, CONTEXT.communities), here.getsockname())
        serve(here, ModelOracle(text.BENCH), RealClock(), watch, 1.0)
    assert watch.requests == 2


def test_a_wrong_command_is_a_word() -> None:
    for options, words in (
        (["--port", "65536"], b"--port: a port from 0 to 65535 is wanted, and not '65536'"),
        (["--port", "0", "--seconds", "nan"], b"--seconds: a number above 0 is wanted, and not 'nan'"),
        (["--port", "0", "--json", "/no/such/folder/report.json"], b"/no/such/folder"),
    ):
        call = [sys.executable, "-m", "wisangub.tester.centre.program", *options, "--signtool", "model"]
        ended = subprocess.run(
            [*call, "--sign", str(TOP / "signs/roadside.sign")], cwd=TOP, capture_output=True, timeout=60, check=False
        )
        assert ended.returncode == 2 and words in ended.stderr and b"Traceback" not in ended.stderr, ended


def test_a_row_s_owner_is_shown_without_control_octets() -> None:
    sign, watch = ModelOracle(text.BENCH), Watch(b"public")
    for step in taken(b"me\x1b[2J"):
        assert step is not None
        sign.datagram(step.octets(1, CONTEXT.communities))
    told(sign, watch, taken(b"you"))
    assert [held.words for held in watch.seen] == [r"row 3.1 of me\x1b[2J, by you"]


def test_a_report_is_written_anew_each_minute() -> None:
    with tempfile.TemporaryDirectory() as folder:
        path, watch = pathlib.Path(folder) / "report.json", Watch(b"public")
        report = Report(path, watch)
        watch.heard(0.0, b"", None)
        for _ in range(59):
            report.ticked()
        assert not path.exists()
        report.ticked()
        assert json.loads(path.read_text(encoding="utf-8"))["dropped"] == 1
        (path.parent / "report.json.new").mkdir()  # as where there is no room
        watch.heard(0.0, b"", None)
        for _ in range(60):
            report.ticked()
        assert json.loads(path.read_text(encoding="utf-8"))["dropped"] == 1
        (path.parent / "report.json.new").rmdir()
        report.write()
        assert json.loads(path.read_text(encoding="utf-8"))["dropped"] == 2
        Report(None, watch).write()


def test_who_is_killed_leaves_a_whole_report() -> None:
    with tempfile.TemporaryDirectory() as folder:
        described, path = pathlib.Path(folder) / "bench.sign", pathlib.Path(folder) / "report.json"
        described.write_bytes(text.BENCH)
        call = [sys.executable, "-m", "wisangub.tester.centre.program", "--port", "0", "--sign", str(described)]
        call += ["--signtool", "model", "--json", str(path)]
        with subprocess.Popen(call, cwd=TOP, stdout=subprocess.PIPE) as sign:
            assert sign.stdout is not None and sign.stdout.readline()
            sign.kill()
        assert json.loads(path.read_text(encoding="utf-8"))["verdict"] == "not judged"
