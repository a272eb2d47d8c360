"""What takes more than twice the instructions for twice the work is found, and the program has none of it."""

import shutil

import growth
import pytest
from growth import KINDS, PROGRAM, Growth, Kind

needs_valgrind = pytest.mark.skipif(shutil.which("valgrind") is None, reason="Debian's package valgrind is not here")
needs_program = pytest.mark.skipif(not PROGRAM.is_file(), reason="the program is not built")


def test_what_grows_faster_than_its_input_is_said() -> None:
    growths = [Growth("ticks", 100, 1000, 2090), Growth("rows", 8, 1000, 3900)]
    assert growth.too_fast(growths) == ["rows: 3.90 times the instructions for twice"]
    assert growth.table(growths).splitlines()[2:] == [
        "| ticks | 100 | 1,000 | 2,090 | 2.09 |",
        "| rows | 8 | 1,000 | 3,900 | 3.90 |",
    ]


@pytest.mark.parametrize("kind", KINDS, ids=lambda kind: kind.name)
def test_an_input_is_twice_as_long(kind: Kind) -> None:
    none, once, twice = (sum(map(len, kind.text(often))) for often in (0, kind.often, 2 * kind.often))
    assert 1.9 < (twice - none) / (once - none) < 2.2 and twice < 1 << 20


@needs_valgrind
@needs_program
@pytest.mark.parametrize("kind", KINDS, ids=lambda kind: kind.name)
def test_twice_the_work_takes_at_most_twice_the_instructions(kind: Kind) -> None:
    found = growth.grown(PROGRAM, kind, kind.often if kind.often < 100 else kind.often // 4)
    assert not growth.too_fast([found]), growth.table([found])
    assert found.ratio > 1.5, "it does the work"
