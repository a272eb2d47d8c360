"""What a worker reads: what signs show, their tables, what they say of themselves, and what they found wrong with a
message; brightness, alarms, plans, and the coming months of the database.

In a thread of its own, over a connection of its own, so that lines do not wait for it. A worker without one has it do
its work between two rounds.
"""

import select
import threading
import time
from typing import Callable

from wisangub.room.fleet import Sign
from wisangub.room.output import LOG
from wisangub.room.store import months, plans
from wisangub.room.store.alarms import EVERY
from wisangub.room.store.database import Failed, Taken
from wisangub.room.store.store import Store
from wisangub.snmp.mib import Mib

from .brightness import Brightness
from .devices import Devices
from .gets import Gets
from .readings import Readings
from .tables import Tables
from .verdicts import Verdicts

_MOST_SAID = 100  # faults that are known to be said
_LONG = 15.0  # seconds that it fails before that is said: the worker itself says at once that a database is away


class Reader:
    """Gets, and what comes of them. `signs` are those that do not stand still; the worker changes them meanwhile."""

    def __init__(self, store: Store, signs: dict[int, Sign], program: str, mib: Mib, look: float, most: int) -> None:
        self.store, self.signs, self.every = store, signs, look
        self.gets = Gets()
        self.readings = Readings(store, signs, self.gets, most)
        self.tables = Tables(store, signs, self.gets)
        self.devices = Devices(store, signs, self.gets)
        self.brightness = Brightness(store, signs, self.gets)
        self.verdicts = Verdicts(store, signs, self.gets, mib, program)
        self.next_look, self.next_alarms, self.next_plans = 0.0, time.monotonic() + EVERY, 0.0
        self.next_months = time.monotonic() + months.EVERY  # who opened the database has made those of now
        self.failing: float | None = None  # since when
        self.said: set[str] = set()  # of faults of the program
        self.is_stopped = threading.Event()
        self.thread: threading.Thread | None = None

    def start(self) -> None:
        """From here on it works in a thread."""
        self.thread = threading.Thread(target=self.run, name="readings", daemon=True)
        self.thread.start()

    def run(self) -> None:
        """Until it is stopped."""
        while not self.is_stopped.is_set():
            try:
                self.round(max(0.0, self.next_look - time.monotonic()))
                self.failing = None
            except (Failed, Taken) as fault:
                self._tell(fault)
                self.is_stopped.wait(self.every)
            except Exception as fault:  # of one sign, or of one plan: all else is done all the same
                self._say(fault)
                self.is_stopped.wait(self.every)

    def _say(self, fault: Exception) -> None:
        """Says a fault of the program, once."""
        words = f"{type(fault).__name__}: {str(fault)[:200]!r}"
        if words not in self.said:
            LOG.error(f"readings: {words}")
        self.said = {*(self.said if len(self.said) < _MOST_SAID else ()), words}

    def _tell(self, fault: Exception) -> None:
        """Says a fault that stays, once."""
        now = time.monotonic()
        if self.failing is None:
            self.failing = now
        elif now - self.failing > _LONG:
            LOG.warning(f"readings: the database: {fault}")
            self.failing = float("inf")

    def round(self, wait: float = 0.0) -> None:
        """Takes what is heard within so many seconds, and looks whether something is due."""
        for file in self._heard(wait):
            if file in self.gets.waiting:
                self.gets.heard(file)
        if time.monotonic() >= self.next_look:
            self.next_look = time.monotonic() + self.every
            self.look()

    def _heard(self, wait: float) -> list[int]:
        """The sockets at which something waits."""
        ready = select.poll()
        for file in self.gets.waiting:
            ready.register(file, select.POLLIN)
        return [file for file, _ in ready.poll(1000 * wait)]

    def look(self) -> None:
        """Keeps what was said, and asks for what is due; alarms, plans and months have their times."""
        for act in (
            *(self.readings.keep, self.tables.keep, self.devices.keep, self.brightness.keep, self.verdicts.keep),
            *(self.readings.begin, self.tables.begin, self.devices.begin, self.brightness.begin, self.verdicts.begin),
            self.gets.again,
        ):
            self._do(act)
        now = time.monotonic()
        if now >= self.next_alarms:
            self.next_alarms = now + EVERY
            self._do(self.store.alarms.look)
        if now >= self.next_plans:
            self.next_plans = now + plans.EVERY
            self._do(self.store.plans.look)
        if now >= self.next_months:
            self.next_months = now + months.EVERY
            self._do(lambda: months.make(self.store.database))

    def _do(self, act: Callable[[], object]) -> None:
        """In a thread a fault of the program, as over what one sign says, keeps nothing else from being done: plans
        end, and alarms are told."""
        try:
            act()
        except (Failed, Taken):
            raise
        except Exception as fault:
            if self.thread is None:
                raise
            self._say(fault)

    def stop(self) -> None:
        """Ends the thread, and lets all Gets go."""
        self.is_stopped.set()
        if self.thread is not None:
            self.thread.join()
            self.store.database.close()
        self.gets.close()
