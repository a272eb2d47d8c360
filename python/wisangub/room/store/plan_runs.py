"""Runs of plans: what each puts on its signs as it begins, and what is taken off as it ends, within a transaction.

Of two plans that are on at one sign the text of the greater priority is shown, since the sign has it so, and of equal
ones that which was begun last. Where it is taken off, the other plan's is put up again.
"""

import hashlib
import secrets
from dataclasses import dataclass
from typing import Container, Sequence

from wisangub.endpoint.endings import failed
from wisangub.refusal import Refusal
from wisangub.room.times import Times

from . import rights, rules
from .audit import note
from .commands import GIVEN_UP, Commands, priorities
from .connection import Database, Row
from .shown_by import text_of
from .values import text_or_none, texts, time_of, time_or_none, whole, whole_or_none

_ACTIVATION = 7  # the step that may have put a text on a sign, whatever came of it
_NOT_MEANT = ("withdrawn", "refused", "bad")  # how a command ends that nobody wants any more, or nobody can carry out
_NOT_SENT = (*_NOT_MEANT, GIVEN_UP)  # how one ends of which no sign heard
OF_PLANS = "plan "  # the first octets of the confirmations of what plans ask for, and of no other
RUNS = "SELECT id, plan, occurrence, who, begun, until, ended, batch, said FROM plan_runs"
# commands of a sign from one on that were not asked for by plans, and came to something or may
_BY_OTHERS = (
    "SELECT line, outcome FROM commands WHERE sign = ? AND id > ? AND (outcome IS NULL OR outcome = 'accepted')"
    " AND NOT EXISTS (SELECT 1 FROM batch_commands JOIN batches ON batches.id = batch_commands.batch"
    f" WHERE batch_commands.command = commands.id AND substr(batches.confirmation, 1, 5) = '{OF_PLANS}') LIMIT 1"
)
# of the plans that are on, what each has asked of signs that are still in it, the oldest first
_STANDING = (
    "SELECT commands.sign, plan_runs.id, plans.name, plan_runs.who, plan_runs.batch, commands.id, commands.line,"
    " commands.outcome FROM plan_runs JOIN plans ON plans.id = plan_runs.plan"
    " JOIN batch_commands ON batch_commands.batch = plan_runs.batch"
    " JOIN commands ON commands.id = batch_commands.command"
    " JOIN plan_texts ON plan_texts.plan = plan_runs.plan AND plan_texts.sign = commands.sign"
    " WHERE plan_runs.ended IS NULL ORDER BY commands.id"
)


@dataclass(frozen=True)
class Schedule:
    """When a plan is on, in whose name."""

    id: int
    code: str
    plan: int
    author: str
    times: Times


@dataclass(frozen=True)
class Run:
    """A time that a plan was begun: it ends at `until`, or by hand; `said` is what was left out, and why."""

    id: int
    plan: int
    occurrence: str
    who: str
    begun: float
    until: float | None
    ended: float | None
    batch: int | None
    said: str


@dataclass(frozen=True)
class Plan:
    """A plan, the line of each of its signs, and its last run."""

    id: int
    name: str
    lines: tuple[tuple[int, str], ...] = ()
    schedules: tuple[Schedule, ...] = ()
    last: Run | None = None

    @property
    def is_on(self) -> bool:
        return self.last is not None and self.last.ended is None

    @property
    def signs(self) -> list[int]:
        return [sign for sign, _ in self.lines]

    @property
    def shown(self) -> str:
        """A digest of what it puts on which signs, by which a page says what it showed."""
        return hashlib.sha256(repr(self.lines).encode()).hexdigest()


@dataclass(frozen=True)
class Hidden:
    """A plan's command at a sign where another plan's text was shown."""

    sign: int
    command: int
    line: str
    plan: str
    who: str
    outcome: str
    batch: int

    @property
    def rank(self) -> tuple[int, int]:
        return priorities(self.line)[0], self.command


def run_of(row: Row) -> Run:
    return Run(
        whole(row[0]),
        whole(row[1]),
        str(row[2]),
        str(row[3]),
        time_of(row[4]),
        time_or_none(row[5]),
        time_or_none(row[6]),
        whole_or_none(row[7]),
        str(row[8]),
    )


def refused(database: Database, who: str, lines: Sequence[tuple[int, str]]) -> dict[int, str]:
    """Why what a plan asks for in somebody's name may not be, of the signs where it may not."""
    forbidden = rules.words(database)
    found = {sign: str(why) for sign, why in rights.refusals(database, who, lines).items()}
    for sign, line in lines:
        try:
            rules.check(text_of(database, sign, line), forbidden)
        except Refusal as why:
            found.setdefault(sign, f"{name_of(database, sign)}: {why}")
    return found


def begin(
    database: Database, plan: Plan, occurrence: str, who: str, until: float | None, newest: int | None = None
) -> Run:
    """Puts the plan's texts on its signs, within a transaction; signs where that is refused are left out, and those of
    which somebody asked for something since the plan's command `newest`, where it had one before."""
    left_out = refused(database, who, plan.lines)
    for sign in plan.signs if newest is not None else ():
        if database.run(_BY_OTHERS, sign, newest):
            left_out.setdefault(sign, f"{name_of(database, sign)}: somebody asked for something else meanwhile")
    lines = [(sign, line) for sign, line in plan.lines if sign not in left_out]
    note(database, who, f"plan {plan.name} begins")
    for words in left_out.values():
        note(database, who, f"plan {plan.name} leaves out {words}")
    batch = None
    if lines:
        batch = Commands(database).put_all(
            lines, who, f"plan {plan.name} begins", f"{OF_PLANS}{occurrence} begins {secrets.token_hex(8)}"
        )
    rows = database.run(
        "INSERT INTO plan_runs (plan, occurrence, who, begun, until, batch, said) VALUES (?, ?, ?, {clock}, ?, ?, ?)"
        " RETURNING id, plan, occurrence, who, begun, until, ended, batch, said",
        plan.id,
        occurrence,
        who,
        until,
        batch,
        "; ".join(left_out.values()),
    )
    return run_of(rows[0])


def end(database: Database, name: str, run: Run, who: str) -> None:
    """Takes the texts of a run off, within a transaction: not where somebody asked for something else since. Where
    another plan is on that they hid, its text is put up again."""
    database.run("UPDATE plan_runs SET ended = {clock} WHERE id = ?", run.id)
    note(database, who, f"plan {name} ends")
    lines: dict[int, str] = {}
    for command, sign, line in asked_by(database, run):
        if _is_to_take_off(database, whole(command), whole(sign), str(line), who):
            words = str(line).split(" ")
            lines[whole(sign)] = f"blank 1 65535 {words[7]} {words[10]}"
    if lines:
        confirmation = f"{OF_PLANS}{run.occurrence} ends {run.id}"
        Commands(database).put_all(list(lines.items()), who, f"plan {name} ends", confirmation)
    for one in hidden(database, lines) if lines else ():
        put_up_again(database, one, f"as plan {name} has ended")


def asked_by(database: Database, run: Run) -> list[Row]:
    """The commands of a run, each with its number, its sign and its line."""
    return database.run(
        "SELECT commands.id, commands.sign, commands.line FROM commands"
        " JOIN batch_commands ON batch_commands.command = commands.id WHERE batch_commands.batch = ?"
        " ORDER BY commands.id",
        run.batch,
    )


def _is_to_take_off(database: Database, command: int, sign: int, line: str, who: str) -> bool:
    """Whether a plan's command may have put its text on the sign, and nothing was asked for since; one that waits for
    its turn is withdrawn. What waits does not count where the plan's text, if it is shown, keeps it off."""
    if Commands(database).end_waiting(command, who):
        return False
    outcome = text_or_none(database.run("SELECT outcome FROM commands WHERE id = ?", command)[0][0])
    step = failed(outcome or "")
    if outcome is not None and (outcome.startswith(_NOT_SENT) or step and step[0] < _ACTIVATION):
        return False
    since = database.run(
        "SELECT line, outcome FROM commands WHERE sign = ? AND id > ? AND (outcome IS NULL OR outcome = 'accepted')",
        sign,
        command,
    )
    while_shown = priorities(line)[1]
    return all(how is None and priorities(str(later))[0] < while_shown for later, how in since)


def hidden(database: Database, signs: Container[int]) -> list[Hidden]:
    """Of each sign what a plan that is on would show: the text of the greatest priority, of equal ones the newest, but
    for those that were withdrawn. All signs are looked at together, since a plan may have a thousand."""
    newest: dict[tuple[int, int], Hidden] = {}
    for sign, run, name, who, batch, command, line, outcome in database.run(_STANDING):
        if whole(sign) in signs:
            words = str(line), str(name), str(who), str(outcome or "")
            newest[whole(sign), whole(run)] = Hidden(whole(sign), whole(command), *words, whole(batch))
    found: dict[int, Hidden] = {}
    for one in newest.values():
        before = found.get(one.sign)
        if not one.outcome.startswith(_NOT_MEANT) and (before is None or one.rank > before.rank):
            found[one.sign] = one
    return list(found.values())


def put_up_again(database: Database, one: Hidden, why: str, is_refusal_noted: bool = True) -> bool:
    """Has a sign show the text of a plan that is on, since another one was taken off or it answers again: not where
    somebody asked for something else since it was put up. It is done in the name of who began that plan, with his
    rights now; whether it was done."""
    if database.run(_BY_OTHERS, one.sign, one.command):
        return False
    line = one.sign, one.line
    for words in refused(database, one.who, [line]).values():
        if is_refusal_noted:
            note(database, one.who, f"plan {one.plan} leaves out {words}")
        return False
    note(database, one.who, f"plan {one.plan} goes on at {name_of(database, one.sign)}, {why}")
    Commands(database).put_more(one.batch, [line], one.who)
    return True


def name_of(database: Database, sign: int) -> str:
    return texts(database.run("SELECT name FROM signs WHERE id = ?", sign))[0]
