"""A description as a front end hands it over: up to its line `end`, its digest, and the number that it begins with."""

import hashlib
import pathlib
import re
import tempfile

from model.text import BENCH
from wisangub.process import description
from wisangub.process.places import TOP
from wisangub.refusal import Refusal


def read(octets: bytes) -> bytes | str | None:
    """What is read of a file with these octets; or why it is refused."""
    with tempfile.TemporaryDirectory() as folder:
        path = pathlib.Path(folder, "made.sign")
        path.write_bytes(octets)
        try:
            return description.read(str(path))
        except Refusal as found:
            return str(found)


def test_a_description_ends_with_its_line_end_and_a_newline() -> None:
    for after in (b"\n", b"\r\n", b"", b"\n\n\r\n# more\n"):
        found = read(BENCH.rstrip(b"\n") + after)
        assert found == BENCH and description.digest(BENCH) == hashlib.sha256(BENCH).hexdigest(), after
    assert description.BENCH == BENCH and description.digest(None) == "bench"


def test_the_bench_sign_is_the_programs_own() -> None:
    source = (TOP / "crates/dms_sign_text/src/bench_sign.rt").read_bytes()
    found = re.search(rb'pub const BENCH: &str = "([^"]*)";', source)
    assert found and found[1] == BENCH


def test_what_is_no_description_is_refused_by_its_line() -> None:
    for octets, words in (
        (BENCH + b"tick\n", "after its line `end` there is more"),
        (BENCH.replace(b"\nend", b""), "line 17: there is no line `end`"),
        (b"", "line 1: there is no line `end`"),
    ):
        assert words in str(read(octets)), octets[-20:]


def test_what_nobody_sees_in_a_refused_line_is_named() -> None:
    mark, tab = b"\xef\xbb\xbf" + BENCH, BENCH.replace(b"size ", b"size\t", 1)
    line = tab.split(b"\n").index(next(line for line in tab.split(b"\n") if b"\t" in line)) + 1
    assert "byte order mark" in description.unseen(mark, b"line 1")
    assert "its octet 5 is a tab" in description.unseen(tab, b"line %d" % line)
    for text, answer in ((BENCH, b"line 1"), (mark, b"line 2"), (tab, b"memory"), (tab, b"line 999"), (tab, b"line 0")):
        assert description.unseen(text, answer) == ""


def test_a_centre_is_described_with_another_first_number() -> None:
    assert description.first_of(None) == description.first_of(BENCH) == 1
    other = description.with_first(None, 700)
    assert other is not None and description.first_of(other) == 700
    assert other == BENCH.replace(b"\nfirst 1\n", b"\nfirst 700\n")
    assert description.with_first(BENCH, 1) == BENCH and description.with_first(None, 1) is None
    ended = BENCH.replace(b"\nfirst 1\n", b"\r\nfirst 1\r\n")
    assert description.with_first(ended, 9) == ended.replace(b"first 1", b"first 9")
