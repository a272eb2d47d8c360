"""How a job ended, in more words: steps by their names, causes, and what a sign found wrong."""

import pathlib

import pytest

from wisangub.endpoint import verdict
from wisangub.endpoint.endings import STEPS, explained, is_in_error, with_step
from wisangub.endpoint.lack import lack
from wisangub.snmp.mib import Mib

TO = "127.0.0.1:1161"
MIB = Mib.read()
PUBLISH = "publish 3 2 4c414e4520434c4f534544 - 0 0 9 65535 255 127.0.0.1"
CHECK = """#!/bin/sh
if [ "$1" = check ]; then
    printf '%s\\n' "$@" > "$0.words"
    cat > "$0.description"
    echo 'fault {code} at {at}'
    echo '{said}' >&2
    exit 1
fi
"""
ENDS = [
    ("last accepted", ""),
    ("last none", ""),
    ("last failed at step 5: the row has status 5", "step 5 (is the message valid)"),
    ("failed at step 5: the row has status 5, error", "step 5 (is the message valid)"),
    ("last failed at step 1: error-status 5", "step 1 (open the row): the row may be another system's"),
    ("failed at step 3: error-status 5, genErr", "step 3 (write the message): the row may be another system's"),
    ("last failed at step 4: error-status 5", "step 4 (ask for validation): the row may be another system's"),
    ("last failed at step 6: error-status 5", "step 6 (compare the checksum)"),
    ("last failed at step 1: error-status 2", "step 1 (open the row)"),
    ("last failed at step 3: error-status 55", "step 3 (write the message)"),
    ("last failed at step 7: the sign refused the activation for cause 3", "step 7 (activate)"),
    ("last failed at step 9: no reply", ""),
    ("withdrawn by ann", ""),
]
IN_ERROR = ["last failed at step 5: the row has status 5", "failed at step 5: the row has status 5, error"]
NOT_IN_ERROR = [
    "last failed at step 2: the row has status 5",
    "last failed at step 5: the row has status 1",
    "last failed at step 5: the row has status 55",
    "last failed at step 5: the row is still being validated",
    "last accepted",
]
VERDICTS: list[tuple[list[int | str], str]] = [
    ([2, 2, 0], ""),
    ([3, 2, 0], "the sign's verdict is 3: the sign has no beacons"),
    ([4, 2, 0], "the sign's verdict is 4: the sign has no pixel service"),
    ([1, 2, 0], "the sign's verdict is 1: other"),
    ([9, 2, 0], "the sign's verdict is 9"),
    ([5, 5, 12], "the sign found fault 5 at octet 12: textTooBig"),
    ([5, 77, 3], "the sign found fault 77 at octet 3"),
    ([5, 5], ""),
    ([5, "05", 12], ""),
]


@pytest.mark.parametrize(("how", "words"), ENDS)
def test_the_step_has_its_name_and_a_cause_beside_it(how: str, words: str) -> None:
    assert explained(how, TO) == words


def test_no_reply_says_what_was_tried_and_what_may_be_the_cause() -> None:
    words = explained("last failed at step 7: no reply", TO)
    assert words.startswith(f"step 7 (activate): the request went out three times to {TO}, and no reply came")
    for cause in ("nothing listens there", "another community", "another address than was asked"):
        assert cause in words


def test_a_row_in_error_is_one_of_the_fifth_step() -> None:
    assert all(map(is_in_error, IN_ERROR)) and not any(map(is_in_error, NOT_IN_ERROR))
    assert explained(IN_ERROR[0], TO, "the sign said so") == "step 5 (is the message valid): the sign said so"
    named = "failed at step 5 (is the message valid): the row has status 5, error"
    assert with_step(IN_ERROR[1]) == named and with_step("accepted") == "accepted"
    assert len(STEPS) == 8


@pytest.mark.parametrize(("values", "words"), VERDICTS)
def test_a_verdict_in_words_where_the_program_says_nothing(values: list[int | str], words: str) -> None:
    assert verdict.words(MIB, values, PUBLISH, "/bin/false", None) == words
    assert verdict.words(MIB, values, "", "/bin/false", None) == words


def checker(folder: pathlib.Path, code: int, at: int, said: str) -> str:
    """A program that finds this fault in every text, and says so."""
    path = folder / "signtool"
    path.write_text(CHECK.format(code=code, at=at, said=said), encoding="utf-8")
    path.chmod(0o755)
    return str(path)


def test_a_fault_is_in_the_words_of_the_program_where_it_finds_the_same(tmp_path: pathlib.Path) -> None:
    program = checker(tmp_path, 5, 10, "text too big at octet 10: wider than the matrix by 1 column")
    found = verdict.words(MIB, [5, 5, 10], PUBLISH, program, b"a sign\n")
    assert found == "the sign found fault 5 at octet 10: wider than the matrix by 1 column"
    assert (tmp_path / "signtool.words").read_text() == "check\n--sign\n--\nLANE CLOSED\n"
    assert (tmp_path / "signtool.description").read_bytes() == b"a sign\n"
    for other in ([5, 5, 9], [5, 6, 10]):
        assert "wider" not in verdict.words(MIB, other, PUBLISH, program, None), "under other defaults of the sign"
    assert (tmp_path / "signtool.words").read_text() == "check\n--\nLANE CLOSED\n"


def test_an_octet_of_the_text_is_found_again_where_it_is_written_otherwise(tmp_path: pathlib.Path) -> None:
    program = checker(tmp_path, 7, 6, "character not defined at octet 6: character 66 is not in font 1")
    assert lack(program, None, b"\xe9B", 7, 1) == "character 66 is not in font 1"
    assert (tmp_path / "signtool.words").read_text() == "check\n--\n[hcE9]B\n"
    program = checker(tmp_path, 3, 0, "unsupported tag at octet 0")
    assert lack(program, None, b"[zz]", 3, 0) == "unsupported tag"
    assert lack(program, None, b"\xe9" * 512, 3, 0) == "", "it is longer than a text may be"
    assert lack(str(tmp_path / "none"), None, b"A", 3, 0) == ""


def test_the_text_is_that_of_the_command() -> None:
    assert verdict.text_of(PUBLISH) == b"LANE CLOSED"
    assert verdict.text_of("publish 3 1 - - 0 0 1 1 1 127.0.0.1") == b""
    for line in ("", "blank 1 2 3 127.0.0.1", "publish", "publish 3 1 4 - 0", "activate 00"):
        assert verdict.text_of(line) is None
