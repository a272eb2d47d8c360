"""A capture of what was sent, the report as a PDF, and files that are whole at every moment."""

import argparse
import io
import json
import os
import pathlib
import shutil
import struct
import subprocess
import sys
import tempfile
import time
from typing import Callable

from wisangub.process.places import TOP, environment
from wisangub.refusal import Refusal, reason
from wisangub.tester.chapters import ALL
from wisangub.tester.cli import arguments
from wisangub.tester.findings.results import ChapterResult, Results
from wisangub.tester.report import pdf, words
from wisangub.tester.report.outputs import Outputs, check_apart
from wisangub.tester.sign.capture import Capture, packet_of
from wisangub.whole import WholeFile, alone

from .skipping import skip

HERE, THERE = ("127.0.0.1", 40000), ("192.0.2.7", 161)


class Echo:
    """A link on which each datagram comes back."""

    def __init__(self) -> None:
        self.octets: bytes | None = None

    def send(self, octets: bytes) -> None:
        self.octets = octets

    def receive(self, until: float) -> bytes | None:
        octets, self.octets = self.octets, None
        return octets

    def close(self) -> None:
        ...


def test_a_capture_has_each_datagram_with_its_headers() -> None:
    file = io.BytesIO()
    link = Capture(Echo(), file, HERE, THERE)
    link.send(b"\x30\x00")
    assert link.receive(1.0) == b"\x30\x00" and link.receive(1.0) is None
    held = file.getvalue()
    assert struct.unpack("<IHHiIII", held[:24]) == (0xA1B2C3D4, 2, 4, 0, 0, 65535, 101)
    first = struct.unpack("<IIII", held[24:40])
    assert first[2] == first[3] == 30 and held[40:70] == packet_of(b"\x30\x00", HERE, THERE)
    assert held[40 + 12 : 40 + 20] == bytes([127, 0, 0, 1, 192, 0, 2, 7]) and held[60:64] == b"\x9c\x40\x00\xa1"
    assert held[86:116] == packet_of(b"\x30\x00", THERE, HERE) and len(held) == 116


def test_a_full_disk_ends_a_capture_and_no_test() -> None:
    link = Capture(Echo(), pathlib.Path("/dev/full").open("wb"), HERE, THERE)
    for octets in (b"one", b"two"):
        link.send(octets)
        assert link.receive(1.0) == octets
    try:
        link.close()
    except OSError as fault:
        assert reason(fault) == "/dev/full: the capture ends early: No space left on device"
    else:
        raise AssertionError


def test_a_packet_of_ipv6_has_its_addresses() -> None:
    packet = packet_of(b"A", ("::1", 1), ("fe80::2%eth0", 2))
    assert packet[0] == 0x60 and packet[4:8] == b"\x00\x09\x11\x40" and len(packet) == 49 and packet[-1:] == b"A"


def test_a_report_is_printed_where_chromium_is_there() -> None:
    if shutil.which("chromium") is None:
        skip("there is no chromium")
    assert pdf.printed(pdf.printer(), "<!doctype html><title>t</title><p>conforms").startswith(b"%PDF-")


def test_no_report_is_printed_by_a_program_that_makes_none() -> None:
    try:
        pdf.printed("/bin/true", "<p>")
    except Refusal as refused:
        assert "Chromium printed no report" in str(refused)
    else:
        raise AssertionError


def test_a_disk_that_is_full_ends_no_test() -> None:
    with tempfile.TemporaryDirectory() as name:
        folder = pathlib.Path(name)
        asked = argparse.Namespace(html=folder / "it.html", junit=folder / "it.xml", json=folder / "it.json", pdf=None)
        about = words.About("127.0.0.1:1", "bench.sign", "model", None, 1, 0, False, "today")
        judged = [ChapterResult(ALL[0], wanted=1, blocks=1)]
        outputs, results = Outputs(asked, about, lambda _: []), Results(is_going_on=True, chapters=judged)
        outputs.write(results)
        (folder / "it.json.new").mkdir()  # as little can be written beside the report as where there is no room
        results.is_going_on = False
        outputs.go_on(results)
        assert json.loads(asked.json.read_bytes())["verdict"] == "not judged"
        try:
            outputs.end(results)
        except Refusal as refused:
            assert "the report cannot be written" in str(refused)
        else:
            raise AssertionError
        (folder / "it.json.new").rmdir()
        outputs.end(results)
        assert json.loads(asked.json.read_bytes())["verdict"] == "conforms"
        outputs.close()


def test_a_file_is_written_anew_under_its_name() -> None:
    with tempfile.TemporaryDirectory() as folder:
        path, link = pathlib.Path(folder) / "report.json", pathlib.Path(folder) / "link.json"
        path.write_text("of last week", encoding="utf-8")
        path.chmod(0o640)
        link.symlink_to(path)
        file = WholeFile(link)
        assert path.read_text(encoding="utf-8") == "of last week"
        for held in ("nothing yet", "all"):
            file.write(held)
            assert path.read_text(encoding="utf-8") == held and link.is_symlink()
        assert path.stat().st_mode & 0o777 == 0o640 and sorted(os.listdir(folder)) == ["link.json", "report.json"]
        (path.parent / "report.json.new").mkdir()
        try:
            file.write("more")
        except OSError:
            assert path.read_text(encoding="utf-8") == "all"
        else:
            raise AssertionError


def test_what_is_no_utf_8_is_written_in_its_escapes() -> None:
    with tempfile.TemporaryDirectory() as folder:
        path = pathlib.Path(folder) / "report.html"
        WholeFile(path).write(os.fsdecode(b"\xff.sign"))
        assert path.read_bytes() == b"\\udcff.sign"


def test_a_pipe_has_one_text_after_the_other() -> None:
    read, write = os.pipe()
    file = WholeFile(pathlib.Path(f"/proc/self/fd/{write}"))
    os.close(write)
    file.write("one ")
    file.write("two")
    file.close()
    with open(read, encoding="utf-8") as held:
        assert held.read() == "one two"


def test_no_file_is_begun_where_none_can_be_written() -> None:
    with tempfile.TemporaryDirectory() as folder:
        for path in (pathlib.Path(folder), pathlib.Path(folder) / "none" / "report.json", pathlib.Path("/proc/report")):
            try:
                WholeFile(path)
            except OSError:
                assert not os.listdir(folder)
            else:
                raise AssertionError(path)


def refused_words(make: Callable[[], object]) -> str:
    """Why nothing is made."""
    try:
        made = make()
    except OSError as fault:
        return reason(fault)
    raise AssertionError(made)


def test_a_file_is_of_one_run_at_a_time() -> None:
    with tempfile.TemporaryDirectory() as folder:
        path = pathlib.Path(folder) / "report.json"
        first, second = WholeFile(path), WholeFile(path)  # neither has written yet
        first.write("of the first")
        another = f"{path}: another run writes it"
        for make in (lambda: second.write("of the second"), lambda: WholeFile(path), lambda: alone(path)):
            assert refused_words(make) == another and path.read_text(encoding="utf-8") == "of the first"
        first.write("all of the first")
        assert refused_words(lambda: WholeFile(path)) == another and os.listdir(folder) == ["report.json"]
        first.close()
        second.write("of the second")
        assert refused_words(lambda: first.write("of the first")) == another
        second.close()
        capture = alone(path)
        assert refused_words(lambda: WholeFile(path)) == another and path.read_bytes() == b""
        capture.close()
        WholeFile(path).close()


def test_two_reports_are_no_one_file_and_none_is_what_is_read() -> None:
    with tempfile.TemporaryDirectory() as name:
        path, sign = pathlib.Path(name) / "report", pathlib.Path(name) / "my.sign"
        link, nowhere = path.with_name("link"), pathlib.Path(os.devnull)
        link.symlink_to(path)
        sign.touch()
        options = ["--to", "127.0.0.1:1", "--sign", str(sign)]
        table = [
            (["--html", str(path), "--json", str(link)], f"{path} is to be two reports"),
            (["--json", str(path), "--pcap", str(path)], f"{path} is to be two reports"),
            (["--pcap", str(sign)], f"{sign} is what the test reads"),
        ]
        for more, why in table:
            try:
                check_apart(arguments().parse_args([*options, *more]))
            except Refusal as refused:
                assert str(refused) == f"the report cannot be written: {why}"
            else:
                raise AssertionError(more)
        check_apart(arguments().parse_args([*options, "--html", str(nowhere), "--json", str(nowhere)]))


_WRITING = """
import itertools, pathlib, sys
from wisangub.whole import WholeFile
file = WholeFile(pathlib.Path(sys.argv[1]))
for number in itertools.count():
    file.write(str(number % 10) * 2_000_000)
    print(number, flush=True)
"""


def test_who_is_killed_leaves_a_whole_file() -> None:
    with tempfile.TemporaryDirectory() as folder:
        path = pathlib.Path(folder) / "report.json"
        for delay in (0.0, 0.001, 0.002, 0.004):
            call = [sys.executable, "-c", _WRITING, str(path)]
            with subprocess.Popen(call, cwd=TOP, env=environment(), stdout=subprocess.PIPE) as writing:
                assert writing.stdout is not None and writing.stdout.readline() == b"0\n"
                time.sleep(delay)
                writing.kill()
            held = path.read_text(encoding="utf-8")
            assert held == held[0] * 2_000_000, (delay, len(held))
