"""A sign that is away while a plan begins or ends: what the plan asked for is asked for again once it answers."""

import pathlib
from dataclasses import replace

import pytest

from . import needs

needs.modules("aiohttp", "jinja2")

from wisangub.room.store import history, plan_returns, plans
from wisangub.room.store.commands import GIVEN_UP
from wisangub.room.store.readings import Said
from wisangub.room.store.sqlite import Sqlite

from .people import person
from .test_alarms import look as look_for_alarms
from .test_clock import jump
from .test_database import BLANK, SIGN
from .test_plans import look
from .test_plans_together import asked, bench, done, kept, off, text

SILENT = "failed at step 2: no reply"
NOT_COME = f"{GIVEN_UP}: its turn did not come within 600 seconds"


class Away:
    """A sign of a plan that is on, or of some, and what it says."""

    def __init__(self, where: str) -> None:
        self.store, self.held, self.sign = bench(where)
        self.number = 0

    def plan(self, name: str, line: str, who: str = "me") -> int:
        return kept(self.held, name, self.sign, line, who)

    def ends(self, outcome: str = SILENT) -> None:
        """What waits comes to this, a while ago."""
        self.held.run(
            "UPDATE commands SET line_number = id, outcome = ?, ended = {clock} - 1 WHERE outcome IS NULL", outcome
        )

    def says(self, fault: str | None = None) -> None:
        """The sign is read, and alarms are looked for."""
        self.number -= 1
        self.store.readings.keep([Said(self.sign, self.number, 5, None if fault else '{"mode": 8}', fault)])
        look_for_alarms(self.store)

    def asked(self) -> list[str]:
        """What was asked for, after a look for plans."""
        look(self.store)
        return asked(self.held)


@pytest.mark.parametrize("outcome", (SILENT, "failed at step 7: no reply", NOT_COME))
def test_a_plan_s_text_is_put_up_once_its_sign_answers(where: str, outcome: str) -> None:
    at = Away(where)
    plans.begin(at.held, at.plan("works", text("WORKS")), "me")
    at.says("no reply")
    at.ends(outcome)
    assert at.asked() == [text("WORKS")], "it is away"
    at.says()
    assert at.asked() == 2 * [text("WORKS")] == at.asked(), "once"
    at.ends("accepted")
    assert at.asked() == 2 * [text("WORKS")]
    said = [what for _, _, who, what in history.audit(at.held, None) if who == "me"]
    assert "plan works goes on at one, which answers again" in said
    assert at.held.run("SELECT count(*) FROM batches") == [(1,)], "it belongs to what the plan asked for"
    plans.end(at.held, 1, "me")
    assert at.asked()[2:] == [off()], "and is taken off as it ends"


def test_nothing_is_asked_of_a_sign_that_was_not_read_since(where: str) -> None:
    at = Away(where)
    plans.begin(at.held, at.plan("works", text("WORKS")), "me")
    at.says()
    at.held.run("UPDATE commands SET line_number = id, outcome = ?, ended = {clock} + 5", SILENT)
    jump(at.held, 10.0)
    assert at.asked() == [text("WORKS")]
    at.says()
    assert at.asked() == 2 * [text("WORKS")]


def test_a_sign_that_answers_and_takes_no_command_is_asked_twice_and_after_each_silence(where: str) -> None:
    at = Away(where)
    plans.begin(at.held, at.plan("works", text("WORKS")), "me")
    at.ends()
    at.says()
    assert at.asked() == 2 * [text("WORKS")]
    for _ in range(2):
        at.ends()
        at.says()
        assert at.asked() == 2 * [text("WORKS")]
    for count in (3, 4):
        at.says("no reply")
        at.says()
        assert at.asked() == count * [text("WORKS")]
        at.ends()
        at.says()
        assert at.asked() == count * [text("WORKS")]


@pytest.mark.parametrize(
    "outcome", ("failed at step 7: the sign refused the activation for cause 5, x", "withdrawn by me")
)
def test_what_a_sign_refused_or_somebody_withdrew_is_not_asked_for_again(where: str, outcome: str) -> None:
    at = Away(where)
    plans.begin(at.held, at.plan("works", text("WORKS")), "me")
    at.ends(outcome)
    at.says()
    assert at.asked() == [text("WORKS")]


@pytest.mark.parametrize("outcome", (None, "accepted"))
def test_where_somebody_asked_for_something_else_that_stays(where: str, outcome: str | None) -> None:
    at = Away(where)
    plans.begin(at.held, at.plan("works", text("WORKS")), "me")
    at.ends()
    command = at.store.commands.ask(at.sign, "me", BLANK)
    if outcome is not None:
        at.store.commands.end(command, outcome)
    at.says()
    assert at.asked() == [text("WORKS"), BLANK]


def test_after_its_end_a_plan_s_text_is_not_put_up(where: str) -> None:
    at = Away(where)
    number = at.plan("works", text("WORKS"))
    plans.begin(at.held, number, "me")
    at.ends()
    plans.end(at.held, number, "me")
    at.says()
    assert at.asked() == [text("WORKS")], "nothing of it was ever shown"


@pytest.mark.parametrize("outcome", (SILENT, NOT_COME))
def test_what_a_plan_put_up_is_taken_off_once_its_sign_answers(where: str, outcome: str) -> None:
    at = Away(where)
    number = at.plan("works", text("WORKS"))
    plans.begin(at.held, number, "me")
    done(at.held)
    plans.end(at.held, number, "me")
    at.says("no reply")
    at.ends(outcome)
    assert at.asked() == [text("WORKS"), off()]
    at.says()
    assert at.asked() == [text("WORKS"), off(), off()]
    done(at.held)
    assert at.asked() == [text("WORKS"), off(), off()]
    assert "plan works ends: one answers again" in [what for *_, what in history.audit(at.held, None)]


def test_of_plans_that_are_on_the_one_that_is_to_be_shown_is_put_up(where: str) -> None:
    at = Away(where)
    for name, priority in (("A", 90), ("B", 150), ("C", 100)):
        plans.begin(at.held, at.plan(name, text(name, priority)), "me")
    at.ends(NOT_COME)
    at.says()
    began = [text("A", 90), text("B", 150), text("C", 100)]
    assert at.asked() == [*began, text("B", 150)]
    at.ends("accepted")
    assert at.asked() == [*began, text("B", 150)]
    plans.end(at.held, 2, "me")
    assert at.asked()[4:] == [off(150), text("C", 100)], "what never had its turn is put up where the other ends"


def test_what_was_hidden_comes_after_the_blank_of_what_hid_it(where: str) -> None:
    """The sign would refuse the less urgent text while the other one stands."""
    at = Away(where)
    for name, priority in (("weeks", 100), ("night", 150)):
        plans.begin(at.held, at.plan(name, text(name, priority)), "me")
        done(at.held)
    plans.end(at.held, 2, "me")
    at.ends()
    at.says()
    assert at.asked()[4:] == [off(150), text("weeks", 100)]


def test_who_may_no_more_has_nothing_put_up_and_that_is_said_once(where: str) -> None:
    """Until he may again."""
    at = Away(where)
    person(at.held, "gone")
    plans.begin(at.held, at.plan("works", text("WORKS"), "gone"), "gone")
    at.ends()
    at.held.run("UPDATE users SET disabled = 1 WHERE name = 'gone'")
    at.says()
    for _ in range(3):
        assert at.asked() == [text("WORKS")]
    said = [what for *_, what in history.audit(at.held, None)]
    assert said.count("plan works leaves out one: gone may not command it") == 1
    at.held.run("UPDATE users SET disabled = 0 WHERE name = 'gone'")
    assert at.asked() == 2 * [text("WORKS")]


def test_commands_of_years_that_had_no_reply_cost_little(tmp_path: pathlib.Path) -> None:
    at = Away(str(tmp_path / "database"))
    plans.begin(at.held, at.plan("works", text("WORKS")), "me")
    done(at.held)
    rows = [(at.sign, BLANK, outcome) for _ in range(5000) for outcome in (SILENT, "accepted")]
    sql = (
        "INSERT INTO commands (sign, who, asked_at, line, line_number, outcome, ended) VALUES (?, 'me', 1, ?, 1, ?, 2)"
    )
    with at.held.transaction():
        at.held.run_all(sql, rows)
    at.says()
    assert isinstance(at.held, Sqlite)
    did: list[int] = []
    at.held.connection.set_progress_handler(lambda: did.append(1), 1000)  # instructions of SQLite
    look(at.store)
    assert len(did) < 500, len(did)


def test_many_signs_that_are_back_at_once_have_their_turns(where: str, monkeypatch: pytest.MonkeyPatch) -> None:
    """Some in each transaction, which keeps all others out; those of which nothing may be asked hold nobody up."""
    monkeypatch.setattr(plan_returns, "_AT_ONCE", 4)
    at = Away(where)
    person(at.held, "gone")
    signs = list(at.store.signs.enter([replace(SIGN, name=f"{number}", port=2000 + number) for number in range(15)]))
    for name, who, some in (("first", "gone", signs[:5]), ("second", "me", signs[5:])):
        plan = plans.keep(at.held, name, [(sign, text(name)) for sign in some], who)
        plans.begin(at.held, plan, who)
    at.ends()
    at.held.run("UPDATE users SET disabled = 1 WHERE name = 'gone'")
    at.store.readings.keep([Said(sign, -1, 5, '{"mode": 8}') for sign in signs])
    counts = [len(at.asked()) - len(signs) for _ in range(6)]
    assert counts == [0, 3, 7, 10, 10, 10], counts
    rows = at.held.run("SELECT sign FROM commands WHERE outcome IS NULL ORDER BY sign")
    assert [row[0] for row in rows] == sorted(signs[5:])
