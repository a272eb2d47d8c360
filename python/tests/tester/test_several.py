"""Several signs in a run, over UDP: each with its verdict and its reports, lists at fault, and an interrupt."""

import contextlib
import json
import pathlib
import signal
import struct
import subprocess
import sys
import tempfile
import time
from collections import Counter

from model import text
from wisangub.process.places import TOP, environment
from wisangub.refusal import Refusal
from wisangub.tester.several.listed import Listed, read
from wisangub.tester.several.program import Several

from .endpoints import LONG, come, free_port, front_end, in_real_time, silence

CALL = [sys.executable, "-m", "wisangub.tester", "several"]
OPTIONS = ["--signtool", "model", "--only", "communities", "--wait", "5"]


def ports_of(captured: bytes) -> list[tuple[int, int]]:
    """From which port and to which each packet of a capture went."""
    found, at = list[tuple[int, int]](), 24
    while at < len(captured):
        source, target = struct.unpack_from(">HH", captured, at + 16 + 20)
        found.append((source, target))
        at += 16 + struct.unpack_from("<I", captured, at + 8)[0]
    return found


def test_each_sign_has_its_verdict_and_its_reports() -> None:
    with tempfile.TemporaryDirectory() as name, contextlib.ExitStack() as ends:
        folder, ports = pathlib.Path(name), [free_port() for _ in range(2)]
        described = folder / "bench.sign"
        described.write_bytes(text.BENCH)
        ends.enter_context(in_real_time())
        right = ("bin/wisangub-sign", "--signtool", str(TOP / "model/signtool"))
        ends.enter_context(front_end(*right, "--port", str(ports[0]), "--sign", str(described)))
        wrong = ("-m", "trials.wrong_signs.serve", "--port", str(ports[1]), "--sign", str(described))
        ends.enter_context(front_end(*wrong, "the_reader_writes"))
        (folder / "list").write_text(
            f"# two signs\nnorth 127.0.0.1:{ports[0]} bench.sign --lossy 50\nsouth 127.0.0.1:{ports[1]} bench.sign\n"
            "west 127.0.0.1:1 no.sign\n",
            encoding="utf-8",
        )
        call = [*CALL, str(folder / "list"), "--into", str(folder / "reports"), "--pcap", *OPTIONS]
        ended = subprocess.run(call, cwd=TOP, capture_output=True, timeout=LONG, check=False)
        assert ended.returncode == 1 and b"1 conforms, 1 differs, 1 not tested" in ended.stdout, ended
        assert b"north at 127.0.0.1:%d: conforms: nothing differs in" % ports[0] in ended.stdout, ended
        held = json.loads((folder / "reports/several.json").read_text(encoding="utf-8"))
        assert [one["verdict"] for one in held] == ["conforms", "differs", "not tested"]
        assert "no.sign" in held[2]["words"]
        for kind in ("html", "json", "junit.xml", "txt"):
            assert (folder / f"reports/south.{kind}").stat().st_size, kind
        for sign, port in zip(("north", "south"), ports):
            asked = ports_of((folder / f"reports/{sign}.pcap").read_bytes())
            assert asked and all(port in both for both in asked), "each its own"


def test_no_file_is_of_all_signs() -> None:
    """Each test would write it over: what --pdf and --pcap of all make is called by the signs."""
    table = [
        (("--pcap", "all.pcap"), "where --pdf and --pcap have no FILE: these are no options"),
        (("--only", "get", "--pdf", "all.pdf"), "where --pdf and --pcap have no FILE: these are no options"),
        (("--js", "all.json"), "--js is not for a test of several signs"),
        (("--jun=all.xml",), "--jun=all.xml is not for a test of several signs"),
    ]
    with tempfile.TemporaryDirectory() as name:
        folder = pathlib.Path(name)
        (folder / "list").write_text("west 127.0.0.1:1 no.sign\n", encoding="utf-8")
        for options, words in table:
            call = [*CALL, str(folder / "list"), "--into", str(folder / "reports"), *options]
            ended = subprocess.run(call, cwd=folder, env=environment(), capture_output=True, timeout=LONG, check=False)
            assert ended.returncode == 2 and words in ended.stderr.decode(), (options, ended)
            assert [path.name for path in folder.iterdir()] == ["list"], "nothing was begun"


def test_a_sign_whose_reports_cannot_be_written_keeps_no_other_from_its_test() -> None:
    with tempfile.TemporaryDirectory() as name:
        folder, long = pathlib.Path(name), 300 * "a"
        (folder / "list").write_text(f"{long} 127.0.0.1:1 no.sign\nwest 127.0.0.1:1 no.sign\n", encoding="utf-8")
        call = [*CALL, str(folder / "list"), "--into", str(folder / "reports"), "--jobs", "1", *OPTIONS]
        ended = subprocess.run(call, cwd=TOP, capture_output=True, timeout=LONG, check=False)
        assert ended.returncode == 2 and b"2 not tested" in ended.stdout and not ended.stderr, ended
        held = json.loads((folder / "reports/several.json").read_text(encoding="utf-8"))
        assert "File name too long" in held[0]["words"] and "no.sign" in held[1]["words"]


def test_a_report_of_all_that_cannot_be_written_is_found_at_the_start() -> None:
    """No sign differs for it, and none is tested; a disk that is full then is found at the end."""
    with tempfile.TemporaryDirectory() as name:
        folder = pathlib.Path(name)
        (folder / "list").write_text("west 127.0.0.1:1 no.sign\n", encoding="utf-8")
        for is_full in (False, True):
            reports = folder / f"reports-{is_full}"
            reports.mkdir()
            report = reports / "several.json"
            if is_full:
                report.symlink_to("/dev/full")
            else:
                report.mkdir()
            call = [*CALL, str(folder / "list"), "--into", str(reports), *OPTIONS]
            ended = subprocess.run(call, cwd=TOP, capture_output=True, timeout=LONG, check=False)
            why = b"No space left on device" if is_full else b"Is a directory"
            assert ended.returncode == 2 and why in ended.stderr and ended.stderr.count(b"\n") == 1, ended
            assert (reports / "west.txt").exists() == is_full


def test_two_runs_are_not_into_one_folder() -> None:
    with tempfile.TemporaryDirectory() as name, silence() as port:
        folder, report = pathlib.Path(name), pathlib.Path(name) / "reports/several.json"
        (folder / "bench.sign").write_bytes(text.BENCH)
        (folder / "list").write_text(f"north 127.0.0.1:{port} bench.sign\n", encoding="utf-8")
        call = [*CALL, str(folder / "list"), "--into", str(report.parent), *OPTIONS, "--wait", "100"]
        with subprocess.Popen(call, cwd=TOP, stdout=subprocess.PIPE) as first:
            assert come(report)
            held = json.loads(report.read_text(encoding="utf-8"))
            assert [(one["verdict"], one["words"]) for one in held] == [("not judged", "not begun")]
            ended = subprocess.run(call, cwd=TOP, capture_output=True, timeout=LONG, check=False)
            first.terminate()
        said = b"%s: another run writes it" % bytes(report)
        assert ended.returncode == 2 and said in ended.stderr and not ended.stdout, ended


class Counting(Several):
    """It tests nothing, and counts how many tests of a sign there are at a time."""

    def __init__(self) -> None:
        super().__init__(pathlib.Path(), [])
        self.counts, self.most = Counter[str](), Counter[str]()

    def _test(self, held: Listed) -> None:
        self.counts[held.to] += 1
        self.most[held.to] = max(self.most[held.to], self.counts[held.to])
        time.sleep(0.05)
        self.counts[held.to] -= 1
        self.ended[held.name] = (0, "")


def test_a_sign_that_is_listed_twice_has_one_test_at_a_time() -> None:
    signs = [Listed(f"sign{at}", f"127.0.0.1:{1 + at % 2}", pathlib.Path("bench.sign")) for at in range(8)]
    counting = Counting()
    counting.run(signs, 10**9)  # of which no more are begun than there are signs
    assert counting.most == {"127.0.0.1:1": 1, "127.0.0.1:2": 1} and len(counting.ended) == 8


def test_an_interrupt_ends_the_tests_that_run_and_begins_no_other() -> None:
    with tempfile.TemporaryDirectory() as name, contextlib.ExitStack() as ends:
        folder, port = pathlib.Path(name), free_port()
        described = folder / "bench.sign"
        described.write_bytes(text.BENCH)
        ends.enter_context(in_real_time())
        right = ("bin/wisangub-sign", "--signtool", str(TOP / "model/signtool"))
        ends.enter_context(front_end(*right, "--port", str(port), "--sign", str(described)))
        lines = [f"{one} 127.0.0.1:{port} bench.sign\n" for one in ("first", "second")]
        (folder / "list").write_text("".join(lines), encoding="utf-8")
        call = [*CALL, str(folder / "list"), "--into", str(folder), "--jobs", "1", "--signtool", "model", "--wait", "5"]
        with subprocess.Popen(call, cwd=TOP, stdout=subprocess.PIPE) as several:
            said, until = folder / "first.txt", time.monotonic() + LONG
            while not (said.exists() and b"BER forms" in said.read_bytes()) and time.monotonic() < until:
                time.sleep(0.1)
            several.send_signal(signal.SIGINT)
            assert several.stdout is not None
            printed = several.stdout.read()
            assert several.wait(LONG) == 3 and b"2 not judged" in printed, printed
        assert b"it was interrupted" in said.read_bytes() and not (folder / "second.txt").exists()


def test_a_list_at_fault_is_refused_with_its_line() -> None:
    table = [
        ("north 127.0.0.1:1\n", "line 1: such a line is: NAME HOST:PORT DESCRIPTION"),
        ("../north 127.0.0.1:1 a.sign\n", "line 1: such a line is"),
        ("several 127.0.0.1:1 a.sign\n", "line 1: several.json is the report of all signs"),
        ("\nnorth 127.0.0.1:1 a.sign\nnorth 127.0.0.1:2 a.sign\n", "line 3: another sign is called north"),
        ("north 127.0.0.1:1 'a.sign\n", "line 1: No closing quotation"),
        ("north 127.0.0.1:1 a.sign --json=x\n", "--json=x is not for a test of several signs"),
        ("north 127.0.0.1:1 a.sign --lossy 101\n", "line 1: these are no options of a test"),
        ("north 127.0.0.1:1 a.sign --pcap x\nsouth 127.0.0.1:2 a.sign --pca=./x\n", "x is a file of north too"),
        ("# nobody\n", "names no sign"),
    ]
    with tempfile.TemporaryDirectory() as folder:
        path = pathlib.Path(folder) / "list"
        for lines, words in table:
            path.write_text(lines, encoding="utf-8")
            try:
                read(path)
            except Refusal as refused:
                assert words in str(refused), (lines, refused)
            else:
                raise AssertionError(lines)
