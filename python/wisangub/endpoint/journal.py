"""A journal: the lines that a co-process was handed, kept over its end."""

import mmap
import os
from typing import Callable, Iterator

from wisangub.output import LOG
from wisangub.refusal import Refusal, reason

from . import older, reading, states
from .clock import Moment
from .files import (
    NEW,
    WRITTEN,
    NotKept,
    Place,
    cut,
    folder_of,
    kept_aside,
    opened,
    opened_to_read,
    own,
    put_aside,
    refusal,
    replaced,
    stands,
    synced_folder,
    written_anew,
)
from .owed import MOST_EXACT, Owed
from .reading import Found
from .records import FORM, Head, records
from .states import Sets


class Journal:
    """The open file, locked; `append` writes to its end. Lines that may wait for the next record are `owed`. Where the
    disk cannot be written at a start, what is left to do with the file is done before the first record that it takes:
    it is not ready until then."""

    def __init__(self, place: Place, head: Head) -> None:
        self.place, self.path, self.head = place, place.path, head._replace(form=FORM)
        self.file, self.is_written = -1, False  # whether it is open to be written
        self.size, self.number, self.since = 0, 1, 1  # octets, the next record's number, the first that is not synced
        self.base = 0  # octets that were written with a state
        self.sets: Sets = {}  # what managers set of objects before that state, and since
        self.found: Found | None = None
        self.last: Moment | None = None  # of the last record
        self.owed = Owed()
        self.is_new = self.is_ready = False
        self.refused = ""  # why the disk refused last, until it takes a record again

    @staticmethod
    def opened(path: str, head: Head, accepts: bool = False, is_patient: bool = False) -> "Journal":
        """The journal of a file that is there, or of a new one; a torn end is put aside, and with `accepts` what is
        damaged. A patient one waits where the disk is full, or can only be read."""
        journal = Journal(Place.of(path), head)
        try:
            journal.open(is_patient)
            journal.read(accepts)
            try:
                journal.prepare()
            except NotKept as refused:
                if not is_patient:
                    raise
                journal._log_refused(str(refused))
        except Refusal:
            journal.close()
            raise
        return journal

    @staticmethod
    def fresh(place: Place, head: Head) -> "Journal":
        """A new journal in the place of an old one, which is put aside under a name with the date."""

        def begun(file: int) -> None:
            """The new file has the journal's first records."""
            new = Journal(Place(place.real + NEW, place.real + NEW), head)
            new.file = file
            new.begin()

        journal = Journal(place, head)
        journal.file, aside = put_aside(place, begun)
        journal.is_written = True
        LOG.info(f"{journal.path}: put aside as {aside}")
        journal.read(False)
        journal.prepare()
        journal.is_new = True
        return journal

    def open(self, is_patient: bool) -> None:
        """Opens the file, to be read alone where that is all that the disk takes."""
        try:
            self.file, self.is_written = opened(self.place), True
        except NotKept as refused:
            if not is_patient:
                raise
            self.file = opened_to_read(self.place)
            self._log_refused(str(refused))

    def text(self) -> mmap.mmap | bytes:
        """The file's octets."""
        size = os.fstat(self.file).st_size if self.file >= 0 else 0
        return mmap.mmap(self.file, size, access=mmap.ACCESS_READ) if size else b""

    def read(self, accepts: bool) -> None:
        """What the file has."""
        found = reading.read(self.path, self.text(), self.head, accepts)
        self.found = found
        if found is not None:
            self.head = found.head._replace(form=FORM)
            self.size, self.number, self.since, self.last = found.size, found.number, found.since, found.last
            self.base, self.sets = found.base, dict(found.sets)

    def state(self) -> list[bytes]:
        """The lines of the state that the file began with as it was read; none where it began with none."""
        return [*self.found.state] if self.found else []

    def lines(self) -> Iterator[list[bytes]]:
        """The lines that were handed over, many at a time. Refuses a file that is not open any more, or that another
        hand made shorter: no lines would come to an end there."""
        if self.found is None:
            return iter(())
        text = self.text()
        if len(text) < self.size:
            why = "it is not open" if self.file < 0 else "another hand made it shorter"
            raise Refusal(f"{self.path}: {why}: its lines are not read", 1)
        return self.found._replace(size=self.size).lines(text)

    def prepare(self) -> None:
        """What is to be done with the file before the next record."""
        if not self.is_written:
            self.open_again()
        if self.found and not stands(self.file, self.place, self.found.length):
            raise Refusal(f"{self.path}: another hand moved or changed it meanwhile", 1)
        own(self.file, self.path)
        if self.found is None:
            self.begin()
        elif self.found.head.form != FORM:
            self.write_anew(self.found)
        elif self.size < self.found.length:
            self.cut_off(self.size, self.found.length)
            self.found = self.found._replace(length=self.size)
        # whoever made the file, or renamed it, may have been killed before this
        synced_folder(self.place.real, self.path)
        self.is_ready = True

    def open_again(self) -> None:
        """Opens a file to be written that was opened to be read, or was not there."""
        try:
            os.close(os.open(self.place.real, WRITTEN | os.O_CLOEXEC | os.O_NOCTTY, 0o600))
        except OSError as fault:
            raise refusal(fault, self.path) from fault
        before = os.fstat(self.file) if self.file >= 0 else None
        self.close()
        self.file = opened(self.place)
        now = os.fstat(self.file)
        if before is not None and (not os.path.samestat(before, now) or before.st_size != now.st_size):
            raise Refusal(f"{self.path}: another hand moved or changed it meanwhile", 1)
        if before is None and now.st_size:
            raise Refusal(f"{self.path}: another hand made it meanwhile", 1)
        self.is_written = True

    def begin(self) -> None:
        """The first record of a file without one."""
        length = os.fstat(self.file).st_size
        if length:
            self.cut_off(0, length)
        own(self.file, self.path)
        self.size, self.number, self.since = 0, 1, 1
        self.write([self.head.line()], synced=True)
        self.found = Found(self.head, self.size, self.size, self.number, self.since, None)
        self.is_new = True

    def cut_off(self, size: int, length: int) -> None:
        """Puts what stands behind the kept records into a file of its own, and then cuts it away."""
        name = kept_aside(self.file, size, length, self.place)
        LOG.info(f"{self.path}: {length - size} octets from octet {size} on are cut away, and kept as {name}")
        cut(self.file, size, self.path)
        self.since = self.number

    def write_anew(self, found: Found) -> None:
        """A journal of form 1 becomes one of form 2."""
        text = self.text()
        made: list[int] = []
        file, aside = written_anew(self.place, lambda file: made.append(self.copy(text, found.size, file)))
        self.close()
        self.file, self.is_written = file, True
        self.size, self.number, self.since = os.fstat(file).st_size, made[0], made[0]
        self.found = found._replace(head=self.head, size=self.size, length=self.size, number=self.number)
        more = found.length - found.size
        also = f", alone with {more} octets that were not finished" if more else ""
        LOG.info(f"{self.path}: written anew in form {FORM}; as it was it is kept as {aside}{also}")

    def copy(self, text: mmap.mmap | bytes, size: int, file: int) -> int:
        """Writes the records of a journal of form 1 in form 2, each of which is on the disk when the file has its name:
        the number after the last one's."""
        number = 1
        for lines in older.every_line(text, size):
            if number == 1:
                lines[0] = self.head.line()
            written(file, records(lines, number))
            number += len(lines)
        os.fsync(file)
        return number

    def exchange(self, state: list[bytes], keep: Callable[[], object]) -> None:
        """Another file is in force from here on, which begins with the state in which the records left the end; the old
        one is kept before. Where the disk refuses it stays as it is: NotKept."""
        if not self.is_ready:
            self.prepare()
        if not stands(self.file, self.place, self.size):
            raise Refusal(f"{self.path}: another hand moved or changed it", 1)
        head, behind = self.shortened(state)
        lines = [head.line(), *behind]
        octets = records(lines)

        def begun(file: int) -> None:
            """The new file is on the disk."""
            written(file, octets)
            os.fsync(file)

        try:
            folder = folder_of(self.place.real, self.path)
        except Refusal as fault:
            raise NotKept(str(fault), 1) from fault
        try:
            self.take(replaced(self.place, begun, keep), len(octets), len(lines) + 1)
            self.head = head
            _sync(folder, f"the folder of {self.path}", os.fsync)
        finally:
            os.close(folder)

    def shortened(self, state: list[bytes]) -> tuple[Head, list[bytes]]:
        """The first record of a file that begins with this state, and the lines behind it. A centre's begins with the
        number of its next request, so that nothing that is left of it says a lower one."""
        if self.head.end == "centre":
            first = states.next_number(state)
            if first is None:
                raise NotKept("the state of the centre has no line `next`", 1)
            return self.head._replace(first=first), state
        _, last = reading.started(self.text(), self.size)
        if last is None:
            raise NotKept(f"{self.path}: no record of it tells the time", 1)
        return self.head, states.written(state, self.sets, last)

    def take(self, file: int, size: int, number: int) -> None:
        """Goes on in this file, of so many octets, which are on the disk; the next record has this number."""
        self.close()
        self.file, self.is_written = file, True
        self.size, self.base, self.number, self.since = size, size, number, number

    def keep(self, lines: list[bytes]) -> None:
        """These lines are on the disk after it, and what was owed before them; raises NotKept where they are not."""
        while self.owed.polls or len(self.owed.first) > MOST_EXACT:
            self.pay()
        self.append(self.owed.first + lines, synced=True)
        self.owed.first.clear()

    def owe(self, line: bytes) -> None:
        """A line that goes with the next record; it is written now if the disk takes it."""
        self.owed.add([line])
        self.is_paid()

    def is_paid(self) -> bool:
        """Whether all that was owed is written."""
        try:
            while self.owed:
                self.pay()
        except NotKept:
            return False
        return True

    def pay(self) -> None:
        """Writes a part of what is owed. Where the disk refuses it is owed on."""
        some = self.owed.some()
        self.append(some, synced=False)
        self.owed.drop(len(some))

    def append(self, lines: list[bytes], synced: bool) -> None:
        """Writes records, once the file is ready for them."""
        try:
            if not self.is_ready:
                self.prepare()
            self.write(lines, synced)
        except NotKept as refused:
            self._log_refused(str(refused))
            raise
        self._log_refused("")

    def write(self, lines: list[bytes], synced: bool) -> None:
        """Writes records. After a write that failed the file is cut back; what is on the disk is not known where that,
        or the sync, fails."""
        octets = records(lines, self.number, self.since)
        try:
            written(self.file, octets)
        except OSError as fault:
            cut(self.file, self.size, self.path)
            raise NotKept(f"{self.path}: {reason(fault)}", 1) from fault
        if synced:
            _sync(self.file, self.path, os.fdatasync)
        self.size, self.number = self.size + len(octets), self.number + len(lines)
        self.since = self.number if synced else self.since
        if not stands(self.file, self.place, self.size):
            raise Refusal(f"{self.path}: another hand moved or changed it: what was recorded last is not kept", 1)

    def close(self) -> None:
        """Lets the file go."""
        if self.file >= 0:
            os.close(self.file)
        self.file, self.is_written = -1, False

    def _log_refused(self, refused: str) -> None:
        """Says why the disk refuses, once, and when it takes records again."""
        if refused != self.refused:
            LOG.info(
                f"{refused}: what is not recorded is not answered" if refused else f"{self.path}: it is written again"
            )
        self.refused = refused


def written(file: int, octets: bytes) -> None:
    """Writes all of these octets."""
    done = 0
    while done < len(octets):
        done += os.write(file, octets[done:])


def _sync(file: int, path: str, sync: Callable[[int], None]) -> None:
    """What was written is on the disk; a failure ends the front end, since what is there is not known."""
    try:
        sync(file)
    except OSError as fault:
        raise Refusal(f"{path}: {reason(fault)}: what is on the disk is not known", 1) from fault
