"""What the database says of the room as a whole, for health and metrics: a few numbers, each by an index."""

from dataclasses import dataclass

from .connection import Database
from .values import time_of, whole


@dataclass(frozen=True)
class Gauges:
    """`worker_age`: seconds since one of the workers looked for alarms, none where none ever did; `oldest`: seconds
    that the oldest command has not ended for; `asked`: commands that were ever asked for."""

    worker_age: float | None
    open: int
    waiting: int
    oldest: float
    asked: int
    alarms: dict[str, int]


def worker_age(database: Database) -> float | None:
    """Seconds since a worker looked; none where none ever did."""
    rows = database.run("SELECT {clock} - max(at), max(at) FROM alarm_looks")
    age, at = rows[0]
    return None if not at else time_of(age)


def gauges(database: Database) -> Gauges:
    """All of them."""
    counted = database.run(
        "SELECT count(*), count(*) - count(line_number), COALESCE({clock} - min(asked_at), 0)"
        " FROM commands WHERE outcome IS NULL"
    )[0]
    alarms = database.run("SELECT kind, count(*) FROM alarms WHERE ended IS NULL GROUP BY kind")
    return Gauges(
        worker_age(database),
        whole(counted[0]),
        whole(counted[1]),
        max(0.0, time_of(counted[2])),
        whole(database.run("SELECT COALESCE(max(id), 0) FROM commands")[0][0]),
        {str(kind): whole(count) for kind, count in alarms},
    )
