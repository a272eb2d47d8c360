"""Several plans at one sign: which text is shown, by what rule, and what stays where one of them ends."""

import datetime
import pathlib
from dataclasses import replace

import pytest

from . import needs

needs.modules("aiohttp", "jinja2")

from wisangub.room.store import database, history, plans, queries
from wisangub.room.store.database import Database
from wisangub.room.store.rights import Level
from wisangub.room.store.sqlite import Sqlite
from wisangub.room.store.store import Store
from wisangub.room.times import Times

from .people import person
from .test_database import BLANK, SIGN, two_stores
from .test_plans import lines, look
from .test_rights import narrowed
from .visits import Bench, Visitors, run


def text(word: str, priority: int = 100) -> str:
    """What has a sign show a word, of this priority while it is shown and as it is put up."""
    return f"publish 3 1 {word.encode().hex()} - 0 0 {priority} 65535 {priority} 192.0.2.1"


def off(priority: int = 100) -> str:
    return f"blank 1 65535 {priority} 192.0.2.1"


def kept(held: Database, name: str, sign: int, line: str, who: str = "me") -> int:
    """A plan of one sign."""
    return plans.keep(held, name, [(sign, line)], who)


def asked(held: Database) -> list[str]:
    """The lines of all that was asked for."""
    return [str(line) for _, _, line in lines(held)]


def done(held: Database, outcome: str = "accepted") -> None:
    """What waits came to this."""
    held.run("UPDATE commands SET line_number = id, outcome = ? WHERE outcome IS NULL", outcome)


def since(held: Database, hours: int) -> Times:
    """From so many hours ago on, for long."""
    first = datetime.datetime.fromtimestamp(queries.now(held), datetime.timezone.utc) - datetime.timedelta(hours=hours)
    return Times.of(f"{first:%Y-%m-%d}", "2099-01-01", "", f"{first:%H:%M}", "00:00", "UTC")


def bench(where: str) -> tuple[Store, Database, int]:
    store, _, sign = two_stores(where)
    person(store.database, "me")
    return store, store.database, sign


def test_of_plans_that_begin_at_one_time_the_one_made_last_is_shown(where: str) -> None:
    """Whatever their names are, which each database sorts in its own way."""
    store, held, sign = bench(where)
    for name in ("b", "C", "a", "B"):
        plans.add_schedule(held, kept(held, name, sign, text(name)), since(held, 1), "me")
    look(store)
    assert asked(held) == [text(name) for name in ("b", "C", "a", "B")]


def test_what_was_to_begin_first_begins_first(where: str) -> None:
    """Also where no worker looked meanwhile, and the later one was made first."""
    store, held, sign = bench(where)
    for name, hours in (("night", 2), ("weeks", 50)):
        plans.add_schedule(held, kept(held, name, sign, text(name)), since(held, hours), "me")
    look(store)
    assert asked(held) == [text("weeks"), text("night")]


@pytest.mark.parametrize("over", (100, 150))
def test_what_a_plan_hid_is_put_up_again(where: str, over: int) -> None:
    _, held, sign = bench(where)
    weeks, night = kept(held, "weeks", sign, text("WORKS")), kept(held, "night", sign, text("CLOSED", over))
    wanted = []
    plans.begin(held, weeks, "me")
    done(held)
    for _ in range(2):
        plans.begin(held, night, "me")
        done(held)
        plans.end(held, night, "me")
        done(held)
        wanted += [text("CLOSED", over), off(over), text("WORKS")]
        assert asked(held) == [text("WORKS"), *wanted], "the sign takes the less urgent one once it is blank"
    plans.end(held, weeks, "me")
    assert asked(held)[-1] == off() and len(asked(held)) == 2 + len(wanted), "it is taken off as it ends, once"
    assert held.run("SELECT count(*) FROM batches") == [(1 + 4 + 1,)], "it belongs to what the plan asked for first"
    said = [what for _, _, who, what in history.audit(held, None) if who == "me"]
    assert said.count("plan weeks goes on at one, as plan night has ended") == 2


def test_of_those_that_were_hidden_the_most_urgent_is_put_up(where: str) -> None:
    """Also one that the sign refused while another one was shown; of equal ones the newest."""
    _, held, sign = bench(where)
    numbers = [kept(held, name, sign, text(name, priority)) for name, priority in zip("DABC", (200, 90, 100, 100))]
    for at, number in enumerate(numbers):
        plans.begin(held, number, "me")
        done(held, "failed at step 7: no activation" if at else "accepted")
    plans.end(held, numbers[0], "me")
    assert asked(held)[4:] == [off(200), text("C", 100)]
    done(held)
    plans.end(held, numbers[3], "me")
    assert asked(held)[6:] == [off(), text("B", 100)]


def test_one_that_ends_beneath_another_changes_nothing(where: str) -> None:
    _, held, sign = bench(where)
    first, second = kept(held, "first", sign, text("A")), kept(held, "second", sign, text("B"))
    for number in (first, second):
        plans.begin(held, number, "me")
        done(held)
    plans.end(held, first, "me")
    assert asked(held) == [text("A"), text("B")]
    plans.end(held, second, "me")
    assert asked(held)[2:] == [off()], "what has ended is not put up again"


@pytest.mark.parametrize("outcome", ("accepted", None))
def test_what_somebody_took_off_is_not_put_up_again(where: str, outcome: str | None) -> None:
    store, held, sign = bench(where)
    first, second = kept(held, "first", sign, text("A")), kept(held, "second", sign, text("B"))
    plans.begin(held, first, "me")
    done(held)
    command = store.commands.ask(sign, "you", BLANK)
    if outcome is not None:
        store.commands.end(command, outcome)
    plans.begin(held, second, "me")
    held.run("UPDATE commands SET line_number = id, outcome = 'accepted' WHERE id > ?", command)
    plans.end(held, second, "me")
    assert asked(held) == [text("A"), BLANK, text("B"), off()]


def test_a_sign_that_was_taken_out_and_a_text_that_was_withdrawn(where: str) -> None:
    store, held, sign = bench(where)
    first, second = kept(held, "first", sign, text("A")), kept(held, "second", sign, text("B"))
    third = kept(held, "third", sign, text("C"))
    plans.begin(held, first, "me")
    done(held)
    plans.take_out(held, first, sign, "me")
    plans.begin(held, third, "me")
    ((waiting,),) = held.run("SELECT max(id) FROM commands")
    assert store.commands.withdraw(int(waiting or 0), "me")
    plans.begin(held, second, "me")
    done(held)
    plans.end(held, second, "me")
    assert asked(held) == [text("A"), text("C"), text("B"), off()]


def test_who_may_no_more_puts_nothing_up_again(where: str) -> None:
    _, held, sign = bench(where)
    person(held, "gone")
    first, second = kept(held, "first", sign, text("A"), "gone"), kept(held, "second", sign, text("B"))
    for number, who in ((first, "gone"), (second, "me")):
        plans.begin(held, number, who)
        done(held)
    held.run("UPDATE users SET disabled = 1 WHERE name = 'gone'")
    plans.end(held, second, "me")
    assert asked(held) == [text("A"), text("B"), off()]
    assert "plan first leaves out one: gone may not command it" in [what for *_, what in history.audit(held, None)]


def test_what_waits_and_is_less_urgent_leaves_no_text_up(where: str) -> None:
    """The sign refuses it while the plan's text is shown, and nobody else would take that off."""
    store, held, sign = bench(where)
    number = kept(held, "plan", sign, text("A", 150))
    plans.begin(held, number, "me")
    done(held)
    store.commands.ask(sign, "you", text("B"))
    plans.end(held, number, "me")
    assert asked(held) == [text("A", 150), text("B"), off(150)]


def test_plans_of_many_signs_end_soon(tmp_path: pathlib.Path) -> None:
    """A transaction of its own keeps all others out: what is hidden is looked for once, and not at each sign."""
    store = Store(database.opened(str(tmp_path / "database")))
    held = store.database
    assert isinstance(held, Sqlite)
    person(held, "me")
    signs = list(store.signs.enter([replace(SIGN, name=f"{at}", port=2000 + at) for at in range(200)]))
    for name in "ABCDE":
        number = plans.keep(held, name, [(sign, text(name)) for sign in signs], "me")
        plans.begin(held, number, "me")
        done(held)
    did: list[int] = []
    held.connection.set_progress_handler(lambda: did.append(1), 1000)  # instructions of SQLite
    plans.end(held, number, "me")
    assert asked(held)[1000:] == [*[off()] * 200, *[text("D")] * 200]
    assert len(did) < 500, len(did)


def test_the_page_of_a_plan_says_which_others_have_its_signs(tmp_path: pathlib.Path, where: str) -> None:
    async def act(bench: Bench, visitor: Visitors) -> None:
        held = bench.store.database
        number = kept(held, "Fog", bench.one, text("FOG"), "operator")
        page, one = f"/plans/{number}", await bench.logged_in(visitor, "operator")
        assert "other plans" not in (await one.get(page))[1]
        plans.keep(held, "Ice", [(bench.one, text("ICE")), (bench.gantry, text("ICE"))], "operator")
        assert "Also in other plans: “Ice”. Of those that are on" in (await one.get(page))[1]
        narrowed(bench, "reader", Level.SEE, bench.one)
        reader = await bench.logged_in(visitor, "reader")
        assert "Also in other plans: one that you may not see. Of" in (await reader.get(page))[1]

    run(tmp_path, where, act)
