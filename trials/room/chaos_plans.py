"""Plans of chaos: some begin and end by schedules of some seconds each, one by hand; each time is carried out once."""

import datetime
import random
import re
import secrets
from collections import Counter

from wisangub.refusal import Refusal
from wisangub.room.store import plans, queries
from wisangub.room.store.store import Store
from wisangub.room.store.values import whole

from .beside import NAME
from .chaos_checks import Outcome, command_lines

SCHEDULES = 3  # of plans of their own
FIRST, EVERY, LASTS = 8.0, 14.0, 12.0  # seconds until a schedule begins, from one to the next, and that a plan is on
BY_HAND = 0.3  # of the looks at which there is something to do
PRIORITY = 30  # of the first plan's text, by which its commands are known
_ADDRESS = "192.0.2.1"
_AGAIN = re.compile(
    r", (?=as plan |which answers again)"
)  # after another plan that hid a text, and where its sign was away


class Plans:
    """The plans of a run. `store` is handed in anew, as each look has a connection of its own."""

    def __init__(self, rows: list[int], chance: random.Random) -> None:
        self.rows, self.chance = rows, chance
        self.numbers: list[int] = []
        self.asked = 0  # times that a plan was begun by hand
        self.schedules = 0
        self.ends = 0.0  # when the last schedule does

    def line(self, at: int) -> str:
        """What a plan's signs show: of a priority that no other command has."""
        words = f"PLAN {at}".encode().hex()
        return f"publish 3 {1 + at % 3} {words} - 0 0 {PRIORITY + at} 65535 255 {_ADDRESS}"

    def off(self, at: int) -> str:
        """What takes it off."""
        return f"blank 1 65535 {PRIORITY + at} {_ADDRESS}"

    def enter(self, store: Store) -> None:
        """The plans, each of half of the signs, and a schedule of each but the last."""
        now = queries.now(store.database)
        for at in range(SCHEDULES + 1):
            signs = sorted(self.chance.sample(self.rows, max(1, len(self.rows) // 2)))
            lines = [(sign, self.line(at)) for sign in signs]
            self.numbers.append(plans.keep(store.database, f"plan {at}", lines, NAME))
        for at, plan in enumerate(self.numbers[:SCHEDULES]):
            self._put_schedule(store, plan, now + FIRST + EVERY * at, LASTS)

    def _put_schedule(self, store: Store, plan: int, at: float, lasts: float) -> None:
        """A plan is on from then for so many seconds, where a form has minutes."""
        self.schedules, self.ends = self.schedules + 1, at + lasts
        begins, ends = _utc(at), _utc(self.ends)
        store.database.run(
            "INSERT INTO schedules (code, plan, author, first_day, last_day, days, begins, ends, zone)"
            " VALUES (?, ?, ?, ?, ?, '', ?, ?, 'UTC')",
            secrets.token_hex(8),
            plan,
            NAME,
            *(begins.date().isoformat(), ends.date().isoformat()),
            *(one.time().isoformat("seconds") for one in (begins, ends)),
        )

    def step(self, store: Store) -> None:
        """The last plan is begun or ended by hand, now and then."""
        if self.chance.random() < BY_HAND:
            self._turn(store, may_begin=True)

    def is_over(self, store: Store) -> bool:
        """Whether each schedule has had its time, and no plan is on; the one by hand is ended for that. Where none was
        begun, there is one more, twice as long each time, as long as the run may take; that is said."""
        self._turn(store, may_begin=not self.asked)
        now, count = queries.now(store.database), "SELECT count(*) FROM plan_runs WHERE"
        begun = whole(store.database.run(f"{count} occurrence NOT LIKE 'by hand %'")[0][0])
        if now > self.ends and not begun:
            self._put_schedule(store, self.numbers[0], now, LASTS * 2 ** (self.schedules - SCHEDULES + 1))
        standing = whole(store.database.run(f"{count} ended IS NULL")[0][0])
        return now > self.ends and not standing

    def _turn(self, store: Store, may_begin: bool) -> None:
        """The plan by hand is ended where it is on, else begun. What was asked for as the server went away may have
        been done, and is refused then."""
        plan, number = plans.found(store.database, self.numbers[-1]), self.numbers[-1]
        try:
            if plan is not None and plan.is_on:
                plans.end(store.database, number, NAME)
            elif may_begin:
                plans.begin(store.database, number, NAME)
                self.asked += 1
        except Refusal as refused:
            assert str(refused) in ("the plan is on already", "the plan is not on"), refused


def _utc(at: float) -> datetime.datetime:
    return datetime.datetime.fromtimestamp(at, datetime.timezone.utc)


def look_at_plans(found: Outcome, store: Store, held: Plans) -> str:
    """What holds of the plans of a run: the numbers, in words."""
    runs = store.database.run("SELECT plan, occurrence, ended, said FROM plan_runs ORDER BY id")
    occurrences = Counter(str(occurrence) for _, occurrence, _, _ in runs)
    scheduled = [count for word, count in occurrences.items() if not word.startswith("by hand ")]
    found.holds("each time of a schedule was begun once", scheduled == [1] * len(scheduled))  # where a worker ran then
    found.holds("plans were begun by schedules", 1 <= len(scheduled) <= held.schedules)
    found.holds("the plan was begun by hand", len(occurrences) - len(scheduled) >= min(1, held.asked))
    found.holds("every plan has ended", all(ended is not None for _, _, ended, _ in runs))
    found.holds("no sign was left out of a plan", not any(said for _, _, _, said in runs))
    begun = Counter(whole(plan) for plan, _, _, _ in runs)
    notes = Counter(str(what[0]) for what in store.database.run("SELECT what FROM audit WHERE what LIKE 'plan %'"))
    again = Counter(_AGAIN.split(note)[0] for note in notes.elements())
    signs = {plan.id: plan.signs for plan in plans.listed(store.database)}
    names = {whole(row): str(name) for row, name in store.database.run("SELECT id, name FROM signs")}
    for at, plan in enumerate(held.numbers):
        for word in ("begins", "ends"):
            found.holds(f"plan {at} {word} once each time", notes[f"plan plan {at} {word}"] == begun[plan])
        for sign in signs[plan]:
            lines, name = command_lines(store, sign), names[sign]
            times = begun[plan] + again[f"plan plan {at} goes on at {name}"]
            found.holds(f"plan {at} put its text on sign {sign} once each time", lines[held.line(at)] == times)
            times = begun[plan] + notes[f"plan plan {at} ends: {name} answers again"]
            found.holds(f"plan {at} took it off once at most", lines[held.off(at)] <= times)
            rows = store.database.run(
                "SELECT line, outcome FROM commands WHERE sign = ? ORDER BY id DESC LIMIT 1", sign
            )
            stays = [str(line) for line, outcome in rows if outcome == "accepted"] == [held.line(at)]
            found.holds(f"the text of plan {at} does not stay on sign {sign}", not stays)
    more = held.schedules - SCHEDULES
    words = f"{len(runs)} times that plans were on, {len(scheduled)} of them by schedules"
    return words + (f", though all {SCHEDULES} were missed and {more} more wanted" if more else "")
