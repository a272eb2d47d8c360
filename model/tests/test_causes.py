"""What the model says of descriptions and scripts that are at fault: rows worked by hand."""

import pytest

from model import causes, text
from trials import cause_rows

BENCH = text.BENCH


@pytest.mark.parametrize("octets, at, words", cause_rows.described())
def test_descriptions_at_fault(octets: bytes, at: int, words: str) -> None:
    assert causes.of_description(octets) == (at, words)


@pytest.mark.parametrize("script, at, words", cause_rows.scripts())
def test_scripts_at_fault(script: bytes, at: int, words: str) -> None:
    assert causes.of_script(script) == (at, words)


def test_nothing_is_said_of_a_sign() -> None:
    assert causes.of_description(BENCH) is None
    assert causes.of_script(b"bench\nsign-tick\n" + b"power-back 5") is None


def test_lines_after_the_first_end_are_no_description() -> None:
    assert causes.before_lines(BENCH + b"stop\n") is None
    assert causes.before_lines(b"size 23 14\nend\nstop\n") == (2, "word 1: the word communities is wanted")
    assert causes.of_description(BENCH + b"stop\n") == (18, "no line may stand after `end`")
