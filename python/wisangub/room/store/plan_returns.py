"""Signs that were away while a plan began or ended, and answer again: what the plan asked for is asked for again.

A command of which the turn did not come, or that had no reply, was for a sign that was away. Once the sign is read
again it is asked for anew: the text while the plan is on, the blank after its end, and neither where something was
asked for since that came to something or may. It is asked for a second time, and after that once for each silence
that ends: of a sign that answers and takes no command nothing more is asked.
"""

from dataclasses import dataclass
from typing import Iterable

from . import plan_runs
from .alarms import SILENT
from .audit import note
from .commands import GIVEN_UP, Commands
from .connection import Database
from .values import time_of, whole

_AT_ONCE = 100  # commands that are asked for again in one transaction, which keeps all others out
_STEPS = ", ".join(f"'failed at step {step}: no reply'" for step in range(1, 9))
_AWAY = (
    "SELECT commands.sign, batches.id, commands.id, commands.line, commands.asked_at, batches.who, batches.what,"
    " batches.confirmation FROM commands JOIN batch_commands ON batch_commands.command = commands.id"
    " JOIN batches ON batches.id = batch_commands.batch JOIN hearings ON hearings.sign = commands.sign"
    " JOIN latest_readings ON latest_readings.sign = commands.sign"
    f" WHERE commands.outcome <> 'accepted' AND (commands.outcome IN ({_STEPS})"
    f" OR commands.outcome LIKE '{GIVEN_UP}:%')"
    f" AND substr(batches.confirmation, 1, {len(plan_runs.OF_PLANS)}) = '{plan_runs.OF_PLANS}'"
    # a command that ended at a time to come: the clock jumped
    " AND latest_readings.fault IS NULL AND (hearings.heard > commands.ended OR commands.ended > {clock})"
    " AND NOT EXISTS (SELECT 1 FROM commands AS later WHERE later.sign = commands.sign AND later.id > commands.id"
    " AND (later.outcome IS NULL OR later.outcome = 'accepted')) ORDER BY commands.id"
)


@dataclass(frozen=True)
class _Missed:
    """A plan's command that its sign did not get; `what` is what was asked for, as `plan NAME ends`."""

    sign: int
    batch: int
    command: int
    line: str
    asked: float
    who: str
    what: str
    is_end: bool
    is_first: bool


class Returns:
    """Looks for signs that answer again."""

    def __init__(self, database: Database) -> None:
        self.database = database
        self._said: set[int] = set()  # commands of which it stands in the audit that they may not be asked for again

    def look(self) -> None:
        """Asks for what is due again, within a transaction: blanks and texts in the order in which they were asked
        for, of texts those that have to be shown. Where many signs are back at once some have their turn later."""
        due = [one for one in self._missed() if one.is_first or self._is_back(one)]
        hidden = plan_runs.hidden(self.database, {one.sign for one in due}) if due else []
        shown = {one.command: one for one in hidden}
        wanted = [one for one in due if one.is_end or one.command in shown]
        for one in sorted(wanted, key=lambda one: one.command in self._said)[:_AT_ONCE]:
            if one.is_end:
                name = plan_runs.name_of(self.database, one.sign)
                note(self.database, one.who, f"{one.what}: {name} answers again")
                Commands(self.database).put_more(one.batch, [(one.sign, one.line)], one.who)
                continue
            is_new = one.command not in self._said
            if not plan_runs.put_up_again(self.database, shown[one.command], "which answers again", is_new):
                self._said.add(one.command)

    def _missed(self) -> Iterable[_Missed]:
        """Of each sign and what was asked for together the newest command."""
        found: dict[tuple[int, int], _Missed] = {}
        for sign, batch, command, line, asked, who, what, confirmation in self.database.run(_AWAY):
            key = whole(sign), whole(batch)
            numbers = *key, whole(command), str(line), time_of(asked)
            is_end = not str(what).endswith(" begins")
            found[key] = _Missed(*numbers, str(who), str(what), is_end, key not in found)
        return found.values()

    def _is_back(self, one: _Missed) -> bool:
        """Whether a silence of its sign has ended since it was asked for."""
        sql = "SELECT 1 FROM alarms WHERE sign = ? AND kind = ? AND ended >= ? LIMIT 1"
        return bool(self.database.run(sql, one.sign, SILENT, one.asked))
