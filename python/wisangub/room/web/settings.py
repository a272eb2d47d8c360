"""What a service is told when it starts."""

import zoneinfo
from dataclasses import dataclass

from wisangub.process.places import SIGNTOOL
from wisangub.refusal import Refusal
from wisangub.room.store.logins import IDLE
from wisangub.room.times import machine_zone

from .limits import Patience


@dataclass(frozen=True)
class Settings:
    """`is_behind_tls`: a proxy on this machine ends TLS, so cookies are Secure and the client's address is the one that
    the proxy tells. `zone`: the one that times are shown in, and go by in schedules; else the machine's. `look`:
    seconds between two looks into the database for what has changed. `idle`: seconds after which a log-in ends by which
    nothing is asked for. `access_log`: the file that gets a line for each request. `archives`: the folder of archives
    that pages show. `patience`: how long, and for how many, connections are waited for."""

    database: str
    program: str = str(SIGNTOOL)
    is_behind_tls: bool = False
    zone: zoneinfo.ZoneInfo | None = None
    look: float = 0.5
    threads: int = 4
    idle: float = IDLE
    access_log: str | None = None
    archives: str | None = None
    patience: Patience = Patience()


def zone_of(name: str | None) -> zoneinfo.ZoneInfo:
    """The zone of a name such as Europe/Berlin; of none the machine's."""
    try:
        return zoneinfo.ZoneInfo(machine_zone() if name is None else name)
    except (zoneinfo.ZoneInfoNotFoundError, ValueError, OSError) as fault:
        raise Refusal(f"{name!r} is no time zone of this machine: Europe/Berlin is one") from fault
