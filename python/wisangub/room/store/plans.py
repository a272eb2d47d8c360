"""Plans: texts that are put on many signs and taken off again, by hand or by schedules; workers look for what is due.

What is due is done in one transaction: the run of the plan, under a key that is there once, and its commands. So it is
done once, however many workers look, and wherever one of them is killed; workers carry the commands out as all others.
"""

import secrets
import time
from typing import Iterator

from wisangub.refusal import Refusal
from wisangub.room.output import LOG
from wisangub.room.times import DAYS, Span, Times, machine_zone

from . import plan_runs, queries, rights, rules
from .audit import note
from .connection import Database, Row
from .plan_returns import Returns
from .plan_runs import RUNS, Plan, Run, Schedule, asked_by, name_of, run_of
from .steady import PATIENCE, SLACK, Steady
from .values import time_of, whole

EVERY = 5.0  # seconds from one look for what is due to the next, of all workers together
_ON_ALREADY = "it was on already"
_SCHEDULES = "SELECT id, code, plan, author, first_day, last_day, days, begins, ends, zone FROM schedules"
# of each plan the run that stands, or else the newest
_LAST = (
    "SELECT COALESCE((SELECT id FROM plan_runs WHERE plan = plans.id AND ended IS NULL),"
    " (SELECT max(id) FROM plan_runs WHERE plan = plans.id)) FROM plans"
)


def _schedule(row: Row) -> Schedule:
    return Schedule(whole(row[0]), str(row[1]), whole(row[2]), str(row[3]), Times.kept(*map(str, row[4:])))


def listed(database: Database) -> list[Plan]:
    """All, by their names."""
    names = {whole(row): str(name) for row, name in database.run("SELECT id, name FROM plans ORDER BY name")}
    lines: dict[int, list[tuple[int, str]]] = {}
    for plan, sign, line in database.run("SELECT plan, sign, line FROM plan_texts ORDER BY sign"):
        lines.setdefault(whole(plan), []).append((whole(sign), str(line)))
    schedules: dict[int, list[Schedule]] = {}
    for one in map(_schedule, database.run(f"{_SCHEDULES} ORDER BY first_day, id")):
        schedules.setdefault(one.plan, []).append(one)
    last = {run.plan: run for run in map(run_of, database.run(f"{RUNS} WHERE id IN ({_LAST})"))}
    return [
        Plan(row, name, tuple(lines.get(row, ())), tuple(schedules.get(row, ())), last.get(row))
        for row, name in names.items()
    ]


def found(database: Database, number: int) -> Plan | None:
    return next((plan for plan in listed(database) if plan.id == number), None)


def _let(database: Database, number: int, who: str) -> Plan:
    """The plan, for who may command each of its signs."""
    plan = found(database, number)
    if plan is None:
        raise Refusal("there is no such plan any more")
    if not all(map(rights.of_user(database, who).may_command, plan.signs)):
        raise Refusal(f"{who} may not command every sign of this plan")
    return plan


def keep(database: Database, name: str, lines: list[tuple[int, str]], who: str) -> int:
    """Puts lines of signs into the plan of a name, which is made where there is none: its number. A sign's line takes
    the place of the one that the plan had for it."""
    held = rules.name_of(name, "a plan's name")
    with database.transaction(is_alone=True):
        rights.check(database, who, lines)
        rows = database.run("SELECT id FROM plans WHERE name = ?", held)
        if rows:
            _let(database, whole(rows[0][0]), who)
        else:
            rows = database.run("INSERT INTO plans (name) VALUES (?) RETURNING id", held)
        plan = whole(rows[0][0])
        for sign, line in lines:
            database.run(
                "INSERT INTO plan_texts (plan, sign, line) VALUES (?, ?, ?)"
                " ON CONFLICT (plan, sign) DO UPDATE SET line = excluded.line",
                plan,
                sign,
                line,
            )
            note(database, who, f"plan {held}, {name_of(database, sign)}: {line}")
        return plan


def take_out(database: Database, number: int, sign: int, who: str) -> None:
    """Takes a sign out of a plan; what it shows stays."""
    with database.transaction(is_alone=True):
        plan = _let(database, number, who)
        if database.run("DELETE FROM plan_texts WHERE plan = ? AND sign = ? RETURNING sign", number, sign):
            note(database, who, f"plan {plan.name}: {name_of(database, sign)} is no longer in it")


def remove(database: Database, number: int, who: str) -> None:
    """Takes a plan away that is not on."""
    with database.transaction(is_alone=True):
        plan = _let(database, number, who)
        if plan.is_on:
            raise Refusal("the plan is on: end it first")
        for table, column in (("plan_runs", "plan"), ("schedules", "plan"), ("plan_texts", "plan"), ("plans", "id")):
            database.run(f"DELETE FROM {table} WHERE {column} = ?", number)
        note(database, who, f"plan {plan.name} is removed")


def add_schedule(database: Database, number: int, times: Times, who: str) -> None:
    """The plan is on at these times from now on, in the name of who says it."""
    with database.transaction(is_alone=True):
        plan = _let(database, number, who)
        database.run(
            "INSERT INTO schedules (code, plan, author, first_day, last_day, days, begins, ends, zone)"
            " VALUES (?, ?, ?, ?, ?, ?, ?, ?, ?)",
            secrets.token_hex(8),
            number,
            who,
            times.first_day.isoformat(),
            times.last_day.isoformat(),
            times.word,
            times.begins.isoformat("minutes"),
            times.ends.isoformat("minutes"),
            times.zone,
        )
        note(database, who, f"plan {plan.name}: {told(times)}")


def remove_schedule(database: Database, number: int, schedule: int, who: str) -> None:
    """The plan does not begin by this schedule any more; a run that stands ends at its time."""
    with database.transaction(is_alone=True):
        plan = _let(database, number, who)
        for row in database.run(f"{_SCHEDULES} WHERE id = ? AND plan = ?", schedule, number):
            database.run("DELETE FROM schedules WHERE id = ?", schedule)
            note(database, who, f"plan {plan.name}: no longer {told(_schedule(row).times)}")


def told(times: Times) -> str:
    """Times in words."""
    zone = f" {times.zone}" if times.zone else " by the zone of the worker's machine"
    begins, ends = times.begins.isoformat("minutes"), times.ends.isoformat("minutes")
    if not times.days:
        return f"from {times.first_day} {begins} until {times.last_day} {ends}{zone}, without a break"
    days = "each day" if len(times.days) == len(DAYS) else ", ".join(DAYS[day] for day in sorted(times.days))
    return f"from {times.first_day} until {times.last_day}, {days}, {begins} to {ends}{zone}"


def begin(database: Database, number: int, who: str, shown: str | None = None) -> Run:
    """Begins a plan by hand, as somebody has seen it where that is said; it is on until it is ended by hand."""
    with database.transaction(is_alone=True):
        plan = _let(database, number, who)
        if plan.is_on:
            raise Refusal("the plan is on already")
        if not plan.lines:
            raise Refusal("the plan has no sign yet")
        if shown not in (None, plan.shown):
            raise Refusal("this plan was changed meanwhile: look at it again")
        return plan_runs.begin(database, plan, f"by hand {secrets.token_hex(8)}", who, None)


def end(database: Database, number: int, who: str) -> None:
    """Ends a plan that is on, however it was begun. Signs that were taken out of it since are blanked too, and so he
    has to be one who may command these."""
    with database.transaction(is_alone=True):
        plan = _let(database, number, who)
        if plan.last is None or plan.last.ended is not None:
            raise Refusal("the plan is not on")
        signs = [whole(sign) for _, sign, _ in asked_by(database, plan.last)]
        if not all(map(rights.of_user(database, who).may_command, signs)):
            raise Refusal(f"{who} may not command every sign that this plan has put a text on")
        plan_runs.end(database, plan.name, plan.last, who)


class Plans:
    """Looks for what is due. While the database's clock is doubted nothing is: one that is set ahead for a while ends
    no plan of weeks."""

    def __init__(self, database: Database) -> None:
        self.database = database
        self.steady = Steady(time.time)
        self.returns = Returns(database)
        self._was_doubted = False
        self._said: set[str] = set()

    def look(self) -> None:
        """Ends and begins plans, where none of the workers has looked just before. The clock is looked at each time, so
        that one which was set long ago is believed where a schedule is made."""
        self.steady.look(lambda: queries.now(self.database))
        if not self.database.run("SELECT 1 FROM schedules UNION ALL SELECT 1 FROM plan_runs LIMIT 1"):
            return
        if self.steady.is_doubted and not self._was_doubted:
            words = "the database's clock was set, or is not this machine's: no plan begins or ends by it"
            LOG.warning(f"{words} for {PATIENCE / 60:.0f} minutes, or until it is back")
        self._was_doubted = self.steady.is_doubted
        if self.steady.is_doubted:
            return
        with self.database.transaction(is_alone=True):
            due = "at + ? <= {clock} OR at > {clock}"  # at a time to come: the clock jumped
            rows = self.database.run(f"UPDATE plan_looks SET at = {{clock}} WHERE {due} RETURNING at", EVERY)
            if rows:
                self._do(time_of(rows[0][0]))

    def _do(self, now: float) -> None:
        """What is due at this time: ends come first, so that a text of a greater priority keeps none out."""
        plans = {plan.id: plan for plan in listed(self.database)}
        for row in self.database.run(f"{RUNS} WHERE ended IS NULL AND until <= ? ORDER BY id", now):
            run = run_of(row)
            plan_runs.end(self.database, plans[run.plan].name, run, run.who)
        again = self._over_too_early(plans, now) if self.steady.is_trusted else {}
        for span, number, _, schedule in sorted(self._on(plans, now), key=lambda one: (one[0][0], *one[1:3])):
            self._begin_once(plans[number], schedule, span, again.get(number))
        self.returns.look()

    def _over_too_early(self, plans: dict[int, Plan], now: float) -> dict[int, int]:
        """Lets plans begin again that a clock ended which was ahead, as their time is not over yet: the newest command
        of each. One that somebody ended stays over."""
        found: dict[int, int] = {}
        for plan in plans.values():
            if plan.last is None or plan.is_on or (plan.last.until or 0.0) <= now + SLACK:
                continue
            rows = self.database.run(f"{RUNS} WHERE plan = ? AND until > ?", plan.id, now + SLACK)
            early = [run for run in map(run_of, rows) if run.until is not None and (run.ended or 0.0) >= run.until]
            for run in early:
                asked = [whole(command) for command, _, _ in asked_by(self.database, run)]
                found[plan.id] = max([found.get(plan.id, 0), *asked])
            if early:
                note(self.database, early[-1].who, f"plan {plan.name} was ended by a clock that was ahead")
                self.database.run(
                    "UPDATE plan_runs SET occurrence = occurrence || ' ended too early ' || id"
                    " WHERE plan = ? AND until > ? AND (ended >= until OR said = ?)",
                    plan.id,
                    now + SLACK,
                    _ON_ALREADY,
                )
        return found

    def _on(self, plans: dict[int, Plan], now: float) -> Iterator[tuple[Span, int, int, Schedule]]:
        """The schedules that are on: since when, of which plan, and its number. What was to begin first begins first,
        and of what begins at one time the plan that was made first, so that the last one is shown."""
        for schedule in [one for plan in plans.values() for one in plan.schedules]:
            plan = plans[schedule.plan]
            if not schedule.times.zone:
                self._say(plan, f"a schedule names no zone, and goes by that of this machine: {machine_zone()}")
            try:
                span = schedule.times.on(now)
            except Refusal as refused:  # a zone that this machine has not
                self._say(plan, str(refused))
                continue
            if span is not None:
                yield span, plan.id, schedule.id, schedule

    def _say(self, plan: Plan, words: str) -> None:
        """Says a fault of schedules, once."""
        if words not in self._said:
            LOG.warning(f"plan {plan.name}: {words}")
        self._said.add(words)

    def _begin_once(self, plan: Plan, schedule: Schedule, span: Span, newest: int | None) -> None:
        """Begins a plan for a time of a schedule, once; one that is on goes on, as long as the longer of both. One that
        begins again leaves the signs out of which somebody asked for something since its newest command."""
        occurrence = f"{schedule.code} {span[0]:.0f}"
        if self.database.run("SELECT 1 FROM plan_runs WHERE occurrence = ?", occurrence):
            return
        standing = self.database.run(f"{RUNS} WHERE plan = ? AND ended IS NULL", plan.id)
        if not standing:
            plan_runs.begin(self.database, plan, occurrence, schedule.author, span[1], newest)
            return
        self.database.run(
            "UPDATE plan_runs SET until = ? WHERE plan = ? AND ended IS NULL AND until < ?", span[1], plan.id, span[1]
        )
        self.database.run(
            "INSERT INTO plan_runs (plan, occurrence, who, begun, until, ended, said)"
            " VALUES (?, ?, ?, {clock}, ?, {clock}, ?)",
            plan.id,
            occurrence,
            schedule.author,
            span[1],
            _ON_ALREADY,
        )
