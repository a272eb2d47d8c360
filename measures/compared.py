"""Which measures take more instructions than measured.tsv records."""

from __future__ import annotations

from recorded import Row

# By what part of it a measure may take more than is recorded.
MOST_MORE = 0.005


def compared(recorded: list[Row], measured: list[Row]) -> tuple[int, list[str]]:
    """How many measures were compared, and what is wrong: those that take more, and rows that nothing measures."""
    kept = {(row.topic, row.name): round(row.instructions[0]) for row in recorded if row.instructions}
    met, found = set(), []
    for row in measured:
        place = (row.topic, row.name)
        if place not in kept or not row.instructions:
            continue
        met.add(place)
        now, before = round(row.instructions[0]), kept[place]
        if now - before > MOST_MORE * before:
            more = 100 * (now - before) / before
            found.append(
                f"{row.topic}: {row.name}: {now:,} instructions, {before:,} recorded, {more:.1f} per cent more"
            )
    topics = {row.topic for row in measured}
    found += [
        f"{topic}: {name}: recorded and not measured"
        for topic, name in kept
        if topic in topics and (topic, name) not in met
    ]
    return len(met), found
