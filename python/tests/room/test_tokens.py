"""Tokens of other systems in the database: who holds them, when they end, and what the audit says."""

import pytest

from wisangub.refusal import Refusal
from wisangub.room.store import database, history, tokens, users
from wisangub.room.store.database import Database
from wisangub.room.store.tokens import Holder
from wisangub.room.store.users import Role

from .people import person

ADDRESS = "192.0.2.7"


def said(held: Database) -> list[str]:
    """The audit, the newest line first."""
    return [f"{who}: {what}" for _, _, who, what in history.audit(held, None)]


def test_a_token_is_its_users(where: str) -> None:
    held = database.opened(where)
    person(held, "ann")
    word = tokens.add(held, "traffic  computer", "ann", False, 30, "ann")
    reader = tokens.add(held, "map", "ann", True, 1, "bob at the machine")
    assert tokens.find(held, word, ADDRESS) == Holder(1, "traffic computer", "ann", Role.OPERATOR)
    found = tokens.find(held, reader, ADDRESS)
    assert found is not None and found.role is Role.READER, "it reads alone"
    assert tokens.find(held, word + "x", ADDRESS) is None and tokens.find(held, "", ADDRESS) is None
    assert word.startswith("wct_") and word not in str(held.run("SELECT * FROM tokens"))
    assert [one.name for one in tokens.listed(held, "ann")] == ["map", "traffic computer"]
    assert all(one.used is not None for one in tokens.listed(held)) and tokens.listed(held, "bob") == []
    assert said(held)[:2] == [
        "bob at the machine: token “map” of user ann is made, that reads alone, for 1 day",
        "ann: token “traffic computer” of user ann is made, that reads and asks, for 30 days",
    ]
    held.close()


def test_what_is_no_token_is_refused(where: str) -> None:
    held = database.opened(where)
    person(held, "ann")
    tokens.add(held, "one", "ann", False, 1, "ann")
    for name, user, days, why in (
        ("", "ann", 1, "characters"),
        ("one", "ann", 1, "already"),
        ("two", "ann", 0, "1 to 3650 days"),
        ("two", "ann", 3651, "1 to 3650 days"),
        ("two", "nobody", 1, "no user nobody"),
    ):
        with pytest.raises(Refusal, match=why):
            tokens.add(held, name, user, False, days, "ann")
    assert len(tokens.listed(held)) == 1
    held.close()


def test_a_token_ends(where: str) -> None:
    held = database.opened(where)
    for name in ("ann", "bob"):
        person(held, name)
    person(held, "chief", Role.ADMINISTRATOR)

    def made(name: str, user: str = "ann") -> str:
        return tokens.add(held, name, user, False, 1, user)

    by_hand, by_time, other = made("by hand"), made("by time"), made("other", "bob")
    assert not tokens.end(held, 1, "bob", "bob"), "it is another one's" and not tokens.end(held, 99, "ann")
    assert tokens.end(held, 1, "ann", "ann") and not tokens.end(held, 1, "ann", "ann")
    held.run("UPDATE tokens SET until = {clock} - 1 WHERE id = 2")
    before = len(said(held))
    for _ in range(3):
        assert tokens.find(held, by_hand, ADDRESS) is None and tokens.find(held, by_time, ADDRESS) is None
    assert said(held)[: len(said(held)) - before] == [
        f"ann: token “{name}” is refused, since it has ended, from {ADDRESS}" for name in ("by time", "by hand")
    ], "once of each"
    assert tokens.find(held, other, ADDRESS)
    users.disable(held, "bob", True, "chief")
    users.disable(held, "bob", False, "chief")
    assert tokens.find(held, other, ADDRESS) is None and tokens.listed(held) == [], "another state ends it"
    for change in (
        lambda: users.change_role(held, "ann", Role.READER, "chief"),
        lambda: users.change_password(held, "ann", "another long password", "ann"),
    ):
        word = made("again")
        assert tokens.find(held, word, ADDRESS)
        change()
        assert tokens.find(held, word, ADDRESS) is None
    held.close()


def test_a_token_of_a_time_to_come_has_ended(where: str) -> None:
    held = database.opened(where)
    person(held, "ann")
    word = tokens.add(held, "one", "ann", False, 1, "ann")
    held.run("UPDATE tokens SET made_at = made_at + 3600, until = until + 3600")
    assert tokens.find(held, word, ADDRESS) is None
    held.close()
