"""Records: their octets, and how far a file is whole."""

import re
import zlib

from wisangub.endpoint import known, records
from wisangub.endpoint.records import RULES, Extent, Head, Unknown, lines_of, record, whole
from wisangub.process.places import TOP

LINES = [
    b"journal 2 sign rules 1 description bench",
    b"start b 10 5",
    b"clock 10 5",
    b"ticks 3",
    b"heard",
    b"datagram 3000",
    b"datagram -",
]
TEXT = records.records(LINES)
ENDS = [found.end() for found in re.finditer(rb"\n", TEXT)]


def test_a_record_has_its_number_and_the_checksum_of_its_own_octets() -> None:
    for number, (begin, end) in enumerate(zip([0, *ENDS], ENDS), 1):
        assert TEXT[begin : end - 9] == LINES[number - 1] + b" #%d %d " % (number, number)
        assert TEXT[end - 9 : end] == b"%08x\n" % zlib.crc32(TEXT[begin : end - 9])
    assert record(b"tick", 12, 9) == b"tick #12 9 %08x\n" % zlib.crc32(b"tick #12 9 ")


def test_each_prefix_is_whole_up_to_its_last_record() -> None:
    for size in range(len(TEXT) + 1):
        ends = [0, *(end for end in ENDS if end <= size)]
        assert whole(TEXT[:size]) == Extent(ends[-1], len(ends), max(1, len(ends) - 1))


def test_a_changed_octet_ends_what_is_whole() -> None:
    for at in range(len(TEXT)):
        for change in (1, 0x20, 0x80):
            text = TEXT[:at] + bytes([TEXT[at] ^ change]) + TEXT[at + 1 :]
            assert whole(text).size == max([0, *(end for end in ENDS if end <= at)])


def test_a_record_of_another_shape_is_not_whole() -> None:
    before = record(b"a", 1, 1)

    def after(summed: bytes, digits: bytes | None = None) -> int:
        tail = b"%08x" % zlib.crc32(summed) if digits is None else digits
        return whole(before + summed + tail + b"\n").number

    assert after(b"b #2 1 ") == after(b"b #2 2 ") == after(b" #2 2 ") == after(b"b #9 # #2 2 ") == 3
    for summed in (
        b"b #3 1 ",
        b"b #1 1 ",
        b"b #2 3 ",
        b"b #2 0 ",
        b"b #02 1 ",
        b"b #2 01 ",
        b"b #2 +1 ",
        b"b #2 1",
        b"b #2  1 ",
        b"b #2 1  ",
        b"b 2 1 ",
        b"b#2 1 ",
        b"#2 1 ",
        b"b #2 ",
        b"b #2 x ",
        b"b",
        b"",
    ):
        assert after(summed) == 2, summed
    assert after(b"b #2 1 ", b"%08X" % zlib.crc32(b"b #2 1 ")) == 2
    assert after(b"b #2 1 ", b"%09x" % zlib.crc32(b"b #2 1 ")) == 2


def test_records_that_wait_for_a_sync_say_since_which() -> None:
    text = records.records([b"a", b"b"], 1, 1) + records.records([b"c", b"d", b"e"], 3, 3) + record(b"f", 6, 3)
    assert whole(text) == Extent(len(text), 7, 3)
    assert [line for some in lines_of(text, 0, len(text)) for line in some] == [b"a", b"b", b"c", b"d", b"e", b"f"]
    assert records.number_at(text, len(records.records([b"a", b"b"], 1, 1))) == 3


def test_many_chunks_are_whole_and_give_their_lines() -> None:
    lines = [b"ticks %d" % at for at in range(1, 70_001)]
    text = records.records(lines[:60_000], 1, 1) + records.records(lines[60_000:], 60_001)
    assert len(text) > 2 * records.CHUNK and whole(text, known.of_sign).size == len(text)
    assert [line for some in lines_of(text, 0, len(text)) for line in some] == lines
    at = len(text) - records.CHUNK - 7
    assert whole(text[:at] + b"x" + text[at + 1 :]).size == text.rfind(b"\n", 0, at) + 1


def test_records_of_the_front_end_are_not_handed_over() -> None:
    assert [line for some in lines_of(TEXT, 0, len(TEXT)) for line in some] == LINES[3:]


def test_no_record_that_is_handed_over_is_shorter() -> None:
    assert len(b"tick #00000000\n") == records.SHORTEST < len(record(b"tick", 2, 2)) == 19


def test_lines_that_no_end_knows() -> None:
    of_both = [b"tick", b"datagram -", b"datagram 30ffAB", b"datagram " + b"30" * 1472]
    of_sign = [b"ticks 0", b"ticks 4294967295", b"ticks 0000000007", b"heard", b"power-lost", b"power-back 0"]
    of_sign += [b"power-back 4294967295", b"start - 0 5", b"start 174002b2-8f8c 1795543676 1242", b"clock 1795543676 5"]
    of_sign += [b"clock 999999999999999999 -999999999999999999", b"start " + b"b" * 63 + b" 0 1"]
    of_centre = [b"publish 3 1 41 - 0 0 9 65535 255 127.0.0.1", b"blank x", b"activate", b"restart"]
    of_centre += [b"datagram " + b"30" * 1473]
    of_none = [
        b"hello world",
        b"ticks 12x",
        b"ticks 4294967296",
        b"ticks 00000000001",
        b"ticks",
        b"ticks ",
        b"",
        b"end",
    ]
    of_none += [
        b"power-back 4294967296",
        b"power-back",
        b"tick ",
        b" tick",
        b"Tick",
        b"heard 1",
        b"power-lost 3",
        b"show",
    ]
    of_none += [
        b"datagram",
        b"datagram ",
        b"datagram 3",
        b"datagram 3g",
        b"datagram --",
        b"datagram 30 30",
        b"ticks -1",
    ]
    of_none += [b"state 1 sign", b"start 1 2", b"start a b c", b"clock 1", b"clock 1 2 3", b"clock x 2", b"publishx"]
    of_none += [b"clock 1000000000000000000 1", b"clock 1 -1000000000000000000", b"start b 1000000000000000000 1"]
    of_none += [b"start b 1 0000000000000000001", b"start " + b"b" * 64 + b" 0 1", b"start \x7f 0 1", b"start \xe4 0 1"]
    of_none += [b"journal 2 sign rules 1 description bench", b"datagram " + b"30" * 32_764]
    for line in of_both:
        assert known.of_sign(line) and known.of_centre(line), line
    for line in of_sign:
        assert known.of_sign(line) and not known.of_centre(line), line
    for line in of_centre:
        assert known.of_centre(line) and not known.of_sign(line), line
    for line in of_none:
        assert not known.of_sign(line) and not known.of_centre(line), line


def test_a_whole_record_with_a_line_that_no_end_knows_is_told() -> None:
    for at in range(1, len(LINES)):
        lines = [*LINES[:at], b"hello world", *LINES[at:]]
        try:
            whole(records.records(lines), known.of_sign)
            found = ""
        except Unknown as fault:
            found = str(fault)
        assert found == f"record {at + 1} at octet {ENDS[at - 1]} is 'hello world'"


def test_a_head_is_read_as_it_is_written() -> None:
    for head in (Head("sign", "bench"), Head("centre", "0" * 64, 17), Head("sign", "a", None, 2, 3)):
        assert Head.of(head.line()) == head
    for line in (
        b"",
        b"journal",
        b"journal 1 sign rules x description bench",
        b"journal 1 sign rules 1 description bench 3 4",
        b"journal 1 centre rules 1 description bench first -1",
    ):
        assert Head.of(line) is None


def test_the_rules_number_is_that_of_the_profile() -> None:
    text = (TOP / "docs" / "PROFILE.md").read_text(encoding="utf-8")
    assert re.findall(r"The rules of this page have the number (\d+)", text) == [str(RULES)]


def test_the_example_of_the_document_is_a_journal() -> None:
    text = (TOP / "docs" / "JOURNAL.md").read_text(encoding="utf-8")
    example = max(re.findall(r"```\n(journal .*?)```", text, re.DOTALL), key=len).encode()
    assert whole(example, known.of_sign).size == len(example)
