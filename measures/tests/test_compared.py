"""Which measures take more than is recorded."""

from compared import compared
from recorded import Row

SIGN, FEW = "sign with 16, 64 and 16 rows", "sign with 1, 2 and 1 rows"


def _row(topic: str, name: str, instructions: float) -> Row:
    return Row(topic, name, (1.0, 1.0), (instructions, 1.0))


RECORDED = [_row(SIGN, "Get of one", 2000), _row(SIGN, "tick", 67), _row(FEW, "Get of one", 21998)]


def test_no_more_than_half_a_per_cent() -> None:
    measures = [_row(SIGN, "Get of one", 2010.4), _row(SIGN, "tick", 67.4), _row(SIGN, "Get of two", 9.0)]
    assert compared(RECORDED, measures) == (2, [])


def test_more_instructions_are_found() -> None:
    measures = [_row(SIGN, "Get of one", 2011.0), _row(SIGN, "tick", 60.0)]
    line = f"{SIGN}: Get of one: 2,011 instructions, 2,000 recorded, 0.6 per cent more"
    assert compared(RECORDED, measures) == (2, [line])


def test_one_name_in_two_topics() -> None:
    line = f"{FEW}: Get of one: 30,000 instructions, 21,998 recorded, 36.4 per cent more"
    assert compared(RECORDED, [_row(FEW, "Get of one", 30000.0)]) == (1, [line])


def test_recorded_and_not_measured() -> None:
    assert compared(RECORDED, [_row(SIGN, "tick", 67.0)]) == (1, [f"{SIGN}: Get of one: recorded and not measured"])
