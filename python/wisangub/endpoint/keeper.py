"""What a sign's front end records, and when: datagrams before they are handed over, seconds and polls after."""

from wisangub.output import LOG

from .clock import Moment, down
from .files import NotKept
from .journal import Journal

_MINUTE = 60  # seconds from one record of the clock to the next


class Keeper:
    """A journal, the seconds that are not recorded yet, and whether the silence is over since the last of them.
    `lost` are those that a disk did not take so far."""

    def __init__(self, journal: Journal) -> None:
        self.journal = journal
        self.seconds = self.since_clock = self.lost = 0
        self.is_heard = False

    def start(
        self, now: Moment, overruled: str | None, is_patient: bool = False, has_power: bool = True
    ) -> list[bytes]:
        """Records a start, with what the time without a process was: the lines that are to be handed over. They are
        written at once, and a start without its clock after it counts for nothing. A patient one goes on without, and
        they are written first of all where the disk takes records again."""
        lines = [] if self.journal.last is None else down(self.journal.last, now, overruled, has_power)
        try:
            self.journal.keep([now.start(), *lines, now.clock()])
        except NotKept:
            if not is_patient:
                raise
            self.journal.owed.add([now.start(), *lines, now.clock()])
        return lines

    def tick(self, seconds: int, up: float) -> None:
        """Seconds passed up to a moment, and were handed over."""
        self.seconds, self.since_clock = self.seconds + seconds, self.since_clock + seconds
        self.lost = self.lost + seconds if self.journal.refused else 0
        self.is_heard = False
        if self.since_clock >= _MINUTE:
            self.clock(Moment.at(up))

    def clock(self, now: Moment) -> None:
        """The record of the clock, which need not be on the disk at once. Where the disk takes none, it says each
        minute what the next start will not know."""
        self.count()
        self.since_clock = 0
        if self.journal.is_paid():
            self.journal.owe(now.clock())
        if self.journal.refused:
            self._log_lost()

    def _log_lost(self) -> None:
        """What is lost if the front end ends now."""
        LOG.info(f"{self.journal.refused}: {self.lost} seconds are not recorded, and will be lost at the next start")

    def count(self) -> None:
        """The seconds so far go with the next record, in one line where they are in a row."""
        if self.seconds:
            self.journal.owed.ticks(self.seconds)
        self.seconds = 0

    def is_paid(self) -> bool:
        """Whether the records have all that was handed over."""
        self.count()
        return self.journal.is_paid()

    def keep(self, lines: list[bytes]) -> bool:
        """Whether these lines are on the disk, and so may be handed over."""
        self.count()
        try:
            self.journal.keep(lines)
        except NotKept:
            return False
        return True

    def heard(self, by_kept: bool) -> None:
        """A datagram was answered. One that changed nothing else leaves a record, the first between two seconds; a line
        that was kept tells by itself that the silence is over."""
        if not self.is_heard and not by_kept:
            self.count()
            self.journal.owe(b"heard")
        self.is_heard = True

    def end(self, up: float) -> bool:
        """The last seconds, on the disk, up to a moment: whether all is."""
        self.count()
        try:
            self.journal.keep([Moment.at(up).clock()])
        except NotKept:
            self._log_lost()
            return False
        return True
