"""What is recorded, read and written, and the table of the page."""

import pathlib

import pytest
from recorded import FILE, Row, read, renewed, summary, table, written

PAGE = pathlib.Path(__file__).resolve().parents[1] / "MEASURED.md"
ROWS = [
    Row("sign", "Get of one", (169.0, 115.0), (2000.0, 1098.0)),
    Row("sign", "tick", (4.9, 7.4), (67.0, 84.0)),
    Row("centre", "a publication", (1557.0, 1111.0), (12818.0, 9158.0)),
]


def test_what_is_written_is_read() -> None:
    assert read(written(ROWS)) == ROWS
    text = FILE.read_text(encoding="utf-8")
    assert written(read(text)) == text


def test_another_file_is_refused() -> None:
    with pytest.raises(ValueError, match="the first line is not: topic, measure"):
        read("measure\tns\n")


def test_what_was_measured_again() -> None:
    again = Row("sign", "tick", (5.0, 7.5), (68.0, 84.0))
    assert renewed(ROWS, [again, Row("sign", "Get of two", (1.0, 1.0), (1.0, 1.0))]) == [ROWS[0], again, ROWS[2]]


def test_what_was_not_taken_again_stays() -> None:
    counted = Row("sign", "tick", None, (68.0, 84.0))
    assert renewed(ROWS, [counted])[1] == Row("sign", "tick", (4.9, 7.4), (68.0, 84.0))


def test_a_topic_has_a_table() -> None:
    assert table(ROWS, "sign") == (
        "## sign\n\n"
        "| measure | proved, ns | by hand, ns | ratio | proved, instructions | by hand, instructions | ratio |\n"
        "| --- | --- | --- | --- | --- | --- | --- |\n"
        "| Get of one | 169 | 115 | 1.47 | 2,000 | 1,098 | 1.82 |\n"
        "| tick | 4.9 | 7.4 | 0.66 | 67 | 84 | 0.80 |\n"
    )


def test_a_line_a_topic() -> None:
    assert summary(ROWS).splitlines()[2:] == [
        "| sign | 2 | 0.66 to 1.47 | 0.80 to 1.82 | Get of one: 169, 2,000 |",
        "| centre | 1 | 1.40 | 1.40 | a publication: 1,557, 12,818 |",
    ]


def test_the_page_has_what_is_recorded() -> None:
    assert summary(read(FILE.read_text(encoding="utf-8"))) in PAGE.read_text(encoding="utf-8")
