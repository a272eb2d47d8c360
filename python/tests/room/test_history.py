"""The history: whatever is asked for, it has those commands, the newest first, by whichever statement."""

import random
from dataclasses import replace

import pytest

from wisangub.room.store import database, queries
from wisangub.room.store.connection import Database, Value
from wisangub.room.store.queries import CommandView, Wanted

SIGNS, COMMANDS = 12, 240
PEOPLE = ("ann", "ben", "cas")
OUTCOMES = ("accepted", "accepted", "refused 5", None)


def filled(held: Database) -> None:
    """Commands of a second each, of all kinds."""
    chance, rows = random.Random(5), list[tuple[Value, ...]]()
    with held.transaction():
        names: list[tuple[Value, ...]] = [(f"sign {at}", f"127.0.0.1:{1160 + at}") for at in range(SIGNS)]
        held.run_all("INSERT INTO signs (name, place, address, poll) VALUES (?, '', ?, 10)", names)
        for second in range(COMMANDS):
            outcome = chance.choice(OUTCOMES)
            ended = None if outcome is None else second + 1
            rows.append((chance.randint(1, SIGNS), chance.choice(PEOPLE), second, "blank 1", ended, outcome))
        sql = "INSERT INTO commands (sign, who, asked_at, line, ended, outcome) VALUES (?, ?, ?, ?, ?, ?)"
        held.run_all(sql, rows)


def is_wanted(one: CommandView, wanted: Wanted) -> bool:
    """By hand."""
    outcome = {"accepted": one.how == "accepted", "open": one.how is None, "failed": one.how not in ("accepted", None)}
    return (
        (wanted.sign is None or one.sign == wanted.sign)
        and (wanted.signs is None or one.sign in wanted.signs)
        and (not wanted.who or one.who == wanted.who)
        and outcome.get(wanted.outcome, True)
        and (wanted.before is None or one.id < wanted.before)
        and (wanted.since is None or one.at >= wanted.since)
        and (wanted.until is None or one.at < wanted.until)
    )


@pytest.mark.parametrize("few", [50, 3])
def test_the_history_has_what_is_asked_for(where: str, few: int, monkeypatch: pytest.MonkeyPatch) -> None:
    """Of a few signs each one's own index is looked at, and of more of them that of all."""
    monkeypatch.setattr(queries, "_FEW", few)
    held = database.opened(where)
    filled(held)
    every, chance = queries.commands(held, Wanted(most=COMMANDS)), random.Random(9)
    assert [one.id for one in every] == list(range(COMMANDS, 0, -1))
    seen: list[frozenset[int] | None] = [None, frozenset(), frozenset((3,)), frozenset((1, 5, 77)), frozenset(range(9))]
    for _ in range(300):
        wanted = Wanted(
            chance.choice((None, None, 3, 5)),
            chance.choice(("", *PEOPLE, "nobody")),
            chance.choice(("", "accepted", "open", "failed")),
            chance.choice((None, 150)),
            chance.choice((7, 500)),
            chance.choice(seen),
            chance.choice((None, 40.0)),
            chance.choice((None, 200.5)),
        )
        found = [one for one in every if is_wanted(one, wanted)]
        assert queries.commands(held, wanted) == found[: wanted.most], wanted
        assert not set(queries.commands(held, replace(wanted, signs=frozenset()))), "of no sign nothing"
    held.close()
