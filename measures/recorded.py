"""The measures with their figures: the rows of measured.tsv, and the tables that are printed of them."""

from __future__ import annotations

import pathlib
from dataclasses import dataclass

FILE = pathlib.Path(__file__).with_name("measured.tsv")
_HEAD = ("topic", "measure", "proved, ns", "by hand, ns", "proved, instructions", "by hand, instructions")
_FINE = 20  # nanoseconds below which a tenth is said too


@dataclass
class Row:
    """A measure, and what the proved call and that by hand took."""

    topic: str
    name: str
    times: tuple[float, float] | None = None
    instructions: tuple[float, float] | None = None


def read(text: str) -> list[Row]:
    """The rows of a file."""
    head, *lines = text.splitlines()
    if tuple(head.split("\t")) != _HEAD:
        raise ValueError(f"the first line is not: {', '.join(_HEAD)}")
    rows = []
    for line in lines:
        topic, name, *figures = line.split("\t")
        times, by_hand, instructions, more = map(float, figures)
        rows.append(Row(topic, name, (times, by_hand), (instructions, more)))
    return rows


def _nanoseconds(times: tuple[float, float]) -> str:
    return ".1f" if min(times) < _FINE else ".0f"


def written(rows: list[Row]) -> str:
    """The file of these rows, each of which has all its figures."""
    lines = ["\t".join(_HEAD)]
    for row in rows:
        assert row.times and row.instructions
        digits = _nanoseconds(row.times)
        figures = [format(time, digits) for time in row.times] + [f"{count:.0f}" for count in row.instructions]
        lines.append("\t".join([row.topic, row.name, *figures]))
    return "\n".join(lines) + "\n"


def renewed(old: list[Row], new: list[Row]) -> list[Row]:
    """The old rows, those that were measured again with their new figures; what was not taken stays."""
    by_name = {(row.topic, row.name): row for row in new}
    rows = []
    for row in old:
        again = by_name.get((row.topic, row.name), row)
        times, instructions = again.times or row.times, again.instructions or row.instructions
        rows.append(Row(row.topic, row.name, times, instructions))
    return rows


def _cells(figures: tuple[float, float] | None, digits: str) -> list[str]:
    if figures is None:
        return []
    proved, by_hand = figures
    return [format(proved, digits), format(by_hand, digits), f"{proved / by_hand:.2f}"]


def table(rows: list[Row], topic: str) -> str:
    """A topic's table, as Markdown."""
    rows = [row for row in rows if row.topic == topic]
    heads = ["measure"]
    heads += ["proved, ns", "by hand, ns", "ratio"] if rows[0].times else []
    heads += ["proved, instructions", "by hand, instructions", "ratio"] if rows[0].instructions else []
    said = [heads, ["---"] * len(heads)]
    for row in rows:
        digits = f",{_nanoseconds(row.times)}" if row.times else ""
        said.append([row.name, *_cells(row.times, digits), *_cells(row.instructions, ",.0f")])
    return f"## {topic}\n\n" + "\n".join(f"| {' | '.join(line)} |" for line in said) + "\n"


def _span(pairs: list[tuple[float, float]]) -> str:
    ratios = sorted(proved / by_hand for proved, by_hand in pairs)
    return f"{ratios[0]:.2f} to {ratios[-1]:.2f}" if len(ratios) > 1 else f"{ratios[0]:.2f}"


def summary(rows: list[Row]) -> str:
    """A line a topic: its least and its greatest ratios, and its first measure."""
    lines = ["| topic | measures | times | instructions | of them, proved: ns, instructions |", "|---|---|---|---|---|"]
    for topic in dict.fromkeys(row.topic for row in rows):
        of_topic = [row for row in rows if row.topic == topic]
        times = [row.times for row in of_topic if row.times]
        counts = [row.instructions for row in of_topic if row.instructions]
        first = f"{of_topic[0].name}: {times[0][0]:,.0f}, {counts[0][0]:,.0f}"
        lines.append(f"| {topic} | {len(of_topic)} | {_span(times)} | {_span(counts)} | {first} |")
    return "\n".join(lines)
