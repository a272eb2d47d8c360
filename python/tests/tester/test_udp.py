"""The command line over UDP: a right sign, a wrong one and its report's command, and nobody at all."""

import errno
import json
import pathlib
import shlex
import signal
import socket
import subprocess
import sys
import tempfile
import threading
import time
import xml.etree.ElementTree as ET
from typing import Any
from unittest import mock

from model import text
from trials.lossy_ways import Way
from wisangub.process.places import TOP
from wisangub.snmp.names import scalar
from wisangub.tester.requests.steps import get
from wisangub.tester.sign.clock import RealClock
from wisangub.tester.sign.link import UdpLink

from .endpoints import LONG, come, free_port, front_end, in_real_time, silence


def conform(port: int, described: pathlib.Path, *options: str) -> subprocess.CompletedProcess[bytes]:
    call = [sys.executable, "-m", "wisangub.tester", "--to", f"127.0.0.1:{port}", "--sign", str(described)]
    return subprocess.run(
        [*call, "--signtool", "model", *options], cwd=TOP, capture_output=True, timeout=LONG, check=False
    )


def is_good(ended: subprocess.CompletedProcess[bytes]) -> bool:
    """Whether nothing differs; on a busy machine replies are late, and not all is judged."""
    said = {0: b"conforms: nothing differs in ", 3: b"not judged: nothing differs in "}
    return ended.returncode in said and said[ended.returncode] in ended.stdout


def test_a_right_sign_over_udp() -> None:
    with tempfile.TemporaryDirectory() as folder:
        described, port = pathlib.Path(folder) / "bench.sign", free_port()
        described.write_bytes(text.BENCH)
        right = ("bin/wisangub-sign", "--signtool", str(TOP / "model/signtool"))
        with in_real_time(), front_end(*right, "--port", str(port), "--sign", str(described)):
            ended = conform(port, described, "--only", "communities", "--only", "priorities", "--wait", "5")
            assert is_good(ended), ended


def test_a_wrong_sign_over_udp_and_its_command() -> None:
    with tempfile.TemporaryDirectory() as folder:
        described, port, report = pathlib.Path(folder) / "bench.sign", free_port(), pathlib.Path(folder) / "report.json"
        described.write_bytes(text.BENCH)
        wrong = ("-m", "trials.wrong_signs.serve", "--port", str(port), "--sign", str(described), "the_reader_writes")
        with in_real_time(), front_end(*wrong):
            ended = conform(port, described, "--only", "communities", "--json", str(report), "--wait", "5")
            assert ended.returncode == 1, ended
            held = json.loads(report.read_text(encoding="utf-8"))["differences"][0]
            assert held["chapter"] == "communities" and not held["rule"]["own"] and held["datagrams"] == 1, held
            words = shlex.split(held["command"])
            again = subprocess.run([sys.executable, *words], cwd=TOP, capture_output=True, timeout=LONG, check=False)
            assert again.returncode == 1 and b"another error-status" in again.stdout, again


def test_a_wrong_command_is_a_word() -> None:
    with tempfile.TemporaryDirectory() as folder:
        described, port = pathlib.Path(folder) / "bench.sign", free_port()
        described.write_bytes(text.BENCH)
        table = [
            (["--wait", "0"], b"--wait: a number above 0 is wanted, and not '0'"),
            (["--wait", "1e300"], b"--wait: a number up to 1000000000 is wanted, and not '1e300'"),
            (["--lossy", "101"], b"--lossy: a number from 0 to 100 is wanted, and not '101'"),
            (["--requests", "-1"], b"--requests: a whole number from 0 is wanted, and not '-1'"),
            (["--silent", "0"], b"--silent: a whole number above 0 is wanted, and not '0'"),
            (["--budget", "nan"], b"--budget: a number above 0 is wanted, and not 'nan'"),
            (["--texts", "some"], b"--texts: a whole number, or all, is wanted, and not 'some'"),
            (["--only", "nothing"], b"--only"),
            (["--communities", "a b", "c"], b"--communities: 1 to 32 octets without a space are wanted, and not 'a b'"),
            (["--communities", "a", ""], b"--communities: 1 to 32 octets without a space are wanted, and not ''"),
            (["--communities", "a", "a"], b"--communities: the reader's and the writer's differ, and both are 'a'"),
            (["--repeat", ""], b"a sequence is octets"),
            (["--repeat", "tick", "--json", "no.json"], b"--repeat is no test, and --json is of one"),
            (["--requests", "9" * 400], b"--requests: a whole number from 0 is wanted"),
            (["--to", "no.such.host.invalid:161"], b"no.such.host.invalid"),
            (["--to", "no..host:161"], b"no..host: no such host"),
            (["--to", "127.0.0.1"], b"--to wants HOST:PORT"),
            (["--to", "127.0.0.1:65536"], b"--to wants HOST:PORT"),
            *[
                ([f"--{kind}", f"{folder}/none/it"], b"the report cannot be written")
                for kind in ("html", "junit", "json", "pdf")
            ],
            (["--json", folder], b"the report cannot be written"),
            (["--pcap", f"{folder}/none/it"], b"none/it: No such file or directory"),
            (["--pcap", "/dev/full"], b"/dev/full: the capture ends early"),
            (["--sign", f"{folder}/none.sign"], b"none.sign"),
            (["--signtool", "/bin/true"], b"/bin/true"),
        ]
        for options, words in table:
            ended = conform(port, described, "--wait", "0.2", *options)
            assert ended.returncode == 2 and words in ended.stderr + ended.stdout, (options, ended)
            assert b"Traceback" not in ended.stderr, ended
        described.write_bytes(text.BENCH.replace(b"rows 2 1", b"rows 2"))
        ended = conform(port, described)
        assert ended.returncode == 2 and b"line 3: 'rows 2'; such a line is: rows CHANGEABLE VOLATILE" in ended.stderr


def test_interrupts_put_the_sign_back_and_write_the_report() -> None:
    with tempfile.TemporaryDirectory() as folder:
        described, port, report = pathlib.Path(folder) / "bench.sign", free_port(), pathlib.Path(folder) / "report.json"
        described.write_bytes(text.BENCH)
        right = ("bin/wisangub-sign", "--signtool", str(TOP / "model/signtool"))
        call = [sys.executable, "-m", "wisangub.tester", "--to", f"127.0.0.1:{port}", "--sign", str(described)]
        call += ["--signtool", "model", "--json", str(report), "--wait", "5"]
        with in_real_time(), front_end(*right, "--port", str(port), "--sign", str(described)):
            with subprocess.Popen(call, cwd=TOP, stdout=subprocess.PIPE) as tester:
                assert tester.stdout is not None
                assert b"without --slow" in tester.stdout.readline() and b"BER forms" in tester.stdout.readline()
                assert json.loads(report.read_text(encoding="utf-8"))["chapters"][0]["name"] == "ber"
                for number in (signal.SIGINT, signal.SIGTERM, signal.SIGINT):
                    tester.send_signal(number)
                said = tester.stdout.read()
                assert tester.wait(60) == 3 and b"interrupted" in said, said
            held = json.loads(report.read_text(encoding="utf-8"))
            assert held["verdict"] == "not judged" and not any("brought back" in line for line in held["way"]), held


def test_a_terminal_that_is_gone_ends_the_test_as_an_interrupt_does() -> None:
    with tempfile.TemporaryDirectory() as folder:
        described, port, report = pathlib.Path(folder) / "bench.sign", free_port(), pathlib.Path(folder) / "report.json"
        described.write_bytes(text.BENCH)
        right = ("bin/wisangub-sign", "--signtool", str(TOP / "model/signtool"))
        call = [sys.executable, "-m", "wisangub.tester", "--to", f"127.0.0.1:{port}", "--sign", str(described)]
        call += ["--signtool", "model", "--json", str(report), "--wait", "5"]
        with in_real_time(), front_end(*right, "--port", str(port), "--sign", str(described)):
            with subprocess.Popen(call, cwd=TOP, stdout=subprocess.PIPE, stderr=subprocess.PIPE) as tester:
                assert tester.stdout is not None and tester.stderr is not None
                assert b"without --slow" in tester.stdout.readline() and b"BER forms" in tester.stdout.readline()
                tester.stdout.close()
                is_outlived = signal.getsignal(signal.SIGHUP) is signal.SIG_IGN  # as under nohup
                tester.send_signal(signal.SIGTERM if is_outlived else signal.SIGHUP)
                assert b"Broken pipe" in tester.stderr.read() and tester.wait(LONG) == 2
            held = json.loads(report.read_text(encoding="utf-8"))
            assert held["verdict"] == "not judged" and held["is_set_back"], held["way"]
            assert any("interrupted" in line for line in held["not_judged"]), held["not_judged"]


def test_a_test_that_is_killed_leaves_whole_reports_of_what_was_judged() -> None:
    with tempfile.TemporaryDirectory() as name:
        folder, port = pathlib.Path(name), free_port()
        described, page, junit, report = (folder / held for held in ("bench.sign", "it.html", "it.xml", "it.json"))
        described.write_bytes(text.BENCH)
        right = ("bin/wisangub-sign", "--signtool", str(TOP / "model/signtool"))
        call = [sys.executable, "-m", "wisangub.tester", "--to", f"127.0.0.1:{port}", "--sign", str(described)]
        call += ["--signtool", "model", "--json", str(report), "--junit", str(junit), "--html", str(page)]
        with in_real_time(), front_end(*right, "--port", str(port), "--sign", str(described)):
            for judged, line in enumerate((b"without --slow", b"BER forms")):
                with subprocess.Popen([*call, "--wait", "5"], cwd=TOP, stdout=subprocess.PIPE) as tester:
                    assert tester.stdout is not None and any(line in said for said in tester.stdout)
                    tester.kill()
                held = json.loads(report.read_text(encoding="utf-8"))
                whole = [one["name"] for one in held["chapters"] if one["cases"] == one["wanted"] > 0]
                assert whole == ["ber"][:judged] and held["is_set_back"] is not bool(judged), held["chapters"]
                suite = ET.fromstring(junit.read_text(encoding="utf-8"))
                assert suite.get("errors") == "1" and int(suite.get("tests") or 0) > 10
                shown = page.read_text(encoding="utf-8")
                assert held["verdict"] == "not judged" and "had not come to its end" in held["not_judged"][0], held
                assert held["not_judged"][0] in shown and shown.endswith("</html>\n")


def test_two_runs_write_no_one_file() -> None:
    with tempfile.TemporaryDirectory() as name, silence() as port, silence() as other:
        folder = pathlib.Path(name)
        described, report, capture = folder / "bench.sign", folder / "report.json", folder / "report.pcap"
        described.write_bytes(text.BENCH)
        options = ("--wait", "100", "--json", str(report))
        call = [sys.executable, "-m", "wisangub.tester", "--to", f"127.0.0.1:{port}", "--sign", str(described)]
        call += ["--signtool", "model", *options, "--pcap", str(capture)]
        with subprocess.Popen(call, cwd=TOP, stdout=subprocess.PIPE) as first:
            assert come(report)
            before = report.read_bytes()
            ended = [conform(other, described, *more) for more in (options, ("--pcap", str(capture)))]
            assert report.read_bytes() == before and capture.stat().st_size
            first.terminate()
        for path, one in zip((report, capture), ended):
            assert one.returncode == 2 and b"%s: another run writes it" % bytes(path) in one.stderr, one


def test_a_port_that_closes_ends_the_test() -> None:
    with tempfile.TemporaryDirectory() as folder:
        described, port = pathlib.Path(folder) / "bench.sign", free_port()
        described.write_bytes(text.BENCH)
        right = ("bin/wisangub-sign", "--signtool", str(TOP / "model/signtool"), "--port", str(port))
        call = [sys.executable, "-m", "wisangub.tester", "--to", f"127.0.0.1:{port}", "--sign", str(described)]
        call += ["--signtool", "model", "--silent", "6", "--wait", "0.5", "--lossy", "50"]
        with in_real_time():
            with front_end(*right, "--sign", str(described)):
                tester = subprocess.Popen(call, cwd=TOP, stdout=subprocess.PIPE)
                assert tester.stdout is not None and b"without --slow" in tester.stdout.readline()
                assert b"BER forms" in tester.stdout.readline()
            said = tester.communicate(timeout=LONG)[0]
        assert tester.returncode == 3 and b"the test was stopped: 6 requests in a row had no reply" in said, said
        assert b"Random requests: not come to" in said and b"could not be brought back" in said, said


class Unheard(socket.socket):
    """A socket whose next datagrams, out and in, meet this fault."""

    fault: OSError | None = None

    def send(self, *what: Any) -> int:
        if self.fault is not None:
            raise self.fault
        return super().send(*what)

    def recv(self, *most: Any) -> bytes:
        if (fault := self.fault) is not None:
            self.fault = None
            raise fault
        return super().recv(*most)


def test_a_network_that_is_gone_for_a_while_is_no_answer() -> None:
    for number in (errno.ENETUNREACH, errno.EHOSTUNREACH, errno.ECONNREFUSED, errno.EPERM, errno.EACCES, errno.EIO):
        link = UdpLink("127.0.0.1", free_port(), RealClock())
        with link.socket, Unheard(socket.AF_INET, socket.SOCK_DGRAM) as broken:
            broken.bind(("127.0.0.1", 0))
            broken.connect(broken.getsockname())
            link.socket = broken
            link.send(b"one")
            broken.fault = OSError(number, "")
            try:
                link.send(b"another")
                assert link.receive(link.clock.now() + LONG) == b"one" and number != errno.EIO
                assert link.receive(link.clock.now()) is None
            except OSError as fault:
                assert fault.errno == number == errno.EIO


class Flood:
    """A socket at which something waits at any time."""

    def __init__(self, is_readable: int) -> None:
        self.file = is_readable

    def fileno(self) -> int:
        return self.file

    def recv(self, _: int) -> bytes:
        return b"more"


def test_who_floods_holds_no_wait_up() -> None:
    link, (here, there) = UdpLink("127.0.0.1", free_port(), RealClock()), socket.socketpair()
    with link.socket, here, there:
        there.send(b"more")
        link.socket = Flood(here.fileno())  # type: ignore[assignment]
        for _ in range(2):  # each wait takes what lies there, and ends
            count = sum(1 for _ in range(10**5) if link.receive(link.clock.now() - 1) is not None)
            assert 1000 <= count < 10**5


def test_a_name_of_both_families_is_ipv4_as_for_the_front_ends() -> None:
    both = [
        (socket.AF_INET6, socket.SOCK_DGRAM, 0, "", ("::1", 1161, 0, 0)),
        (socket.AF_INET, socket.SOCK_DGRAM, 0, "", ("127.0.0.1", 1161)),
    ]
    with mock.patch("socket.getaddrinfo", return_value=both):
        link = UdpLink("localhost", 1161, RealClock())
    assert link.addresses()[1] == ("127.0.0.1", 1161)
    link.close()


class OtherPort(threading.Thread):
    """Repeats what comes to one port from another one."""

    def __init__(self, port: int) -> None:
        super().__init__(daemon=True)
        self.here, self.other = (socket.socket(socket.AF_INET, socket.SOCK_DGRAM) for _ in range(2))
        self.here.bind(("127.0.0.1", port))
        self.here.settimeout(LONG)
        self.count = 0

    def run(self) -> None:
        while (received := self.here.recvfrom(65_535))[0]:
            self.other.sendto(*received)
            self.count += 1

    def end(self) -> None:
        self.other.sendto(b"", self.here.getsockname())
        self.join()
        self.here.close()
        self.other.close()


def test_a_sign_that_answers_from_another_port_is_not_reached() -> None:
    with tempfile.TemporaryDirectory() as folder:
        described, port = pathlib.Path(folder) / "bench.sign", free_port()
        described.write_bytes(text.BENCH)
        sign = OtherPort(port)
        sign.start()
        with in_real_time():
            ended = conform(port, described, "--wait", "0.2")
        sign.end()
        assert ended.returncode == 2 and b"does not answer" in ended.stdout and sign.count, ended


class Echo(threading.Thread):
    """Answers each datagram with itself, after so many seconds, until an empty one comes."""

    def __init__(self, seconds: float = 0.0) -> None:
        super().__init__(daemon=True)
        self.seconds = seconds
        self.socket = socket.socket(socket.AF_INET, socket.SOCK_DGRAM)
        self.socket.bind(("127.0.0.1", 0))
        self.port = int(self.socket.getsockname()[1])

    def run(self) -> None:
        while (received := self.socket.recvfrom(65_535))[0]:
            time.sleep(self.seconds)
            self.socket.sendto(*received)


def through(share: float, sent: list[bytes], seconds: float = 0.0) -> tuple[list[bytes], Way]:
    """What comes back of datagrams over a way, of which that share is lost, late or doubled."""
    echo = Echo(seconds)
    echo.start()
    way, back = Way(echo.port, share, seed=1), list[bytes]()
    way.start()
    with socket.socket(socket.AF_INET, socket.SOCK_DGRAM) as test:
        test.settimeout(4)
        for octets in sent:
            test.sendto(octets, ("127.0.0.1", way.port))
        try:
            while len(back) < len(sent) or share:
                back.append(test.recv(100))
        except TimeoutError:
            pass
    way.end()
    echo.socket.sendto(b"", ("127.0.0.1", echo.port))
    echo.join()
    echo.socket.close()
    return back, way


def test_a_share_of_what_goes_over_a_lossy_way_is_lost_late_or_doubled() -> None:
    sent = [b"%d" % number for number in range(60)]
    with in_real_time():
        back, way = through(0.0, sent)
        assert back == sent and way.spoilt == 0 and way.through == 120
        back, way = through(1.0, sent)
        assert way.spoilt == way.through and set(back) < set(sent) and len(set(back)) < len(back), back
        assert back != sorted(back, key=int)


def test_a_lossy_way_tells_what_of_a_silence_is_the_sign_s() -> None:
    asked = get(scalar("vmsSignHeightPixels")).octets(7, (b"public", b"admin"))
    with in_real_time():
        back, way = through(0.0, [asked, asked], seconds=0.3)
        assert back == [asked, asked] and 0.3 <= way.slowest < 30 and "the sign took up to" in way.late_words()
        assert through(0.0, [b"no message"], seconds=0.3)[1].slowest == 0


def test_where_nobody_answers_it_says_so_and_ends() -> None:
    with tempfile.TemporaryDirectory() as folder:
        described = pathlib.Path(folder) / "bench.sign"
        described.write_bytes(text.BENCH)
        with in_real_time():
            ended = conform(free_port(), described, "--wait", "0.2")
            assert ended.returncode == 2 and b"does not answer" in ended.stdout, ended
