"""Waits for a database that cannot be had now: its server starts, or another program keeps it."""

from typing import Callable, TypeVar

from wisangub.endpoint.sockets import Waiting
from wisangub.refusal import Refusal
from wisangub.room.output import LOG
from wisangub.room.store.database import Away, Failed, NotYet, Taken

_AGAIN = 1.0  # seconds from one try to the next
_Answer = TypeVar("_Answer")


def waited(waiting: Waiting, begin: Callable[[], _Answer]) -> _Answer | None:
    """What begins over a database, as soon as that can be had; None where it was stopped before. A database that is not
    in order is not waited for."""
    said = ""
    while not waiting.is_stopped:
        try:
            begun = begin()
        except (Away, NotYet) as away:
            if str(away) != said:
                said = str(away)
                LOG.warning(f"{said}: it is waited for")
            waiting.until([], _AGAIN)
        except (Failed, Taken) as fault:
            raise Refusal(f"the database: {fault}", 1) from fault
        else:
            if said:
                LOG.info("the database answers")
            return begun
    return None
