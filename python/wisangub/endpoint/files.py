"""Files of a front end's own: one front end a file, mode 0600, and names that outlive a crash."""

import contextlib
import errno
import fcntl
import os
import stat
import time
from typing import Callable, NamedTuple

from wisangub.refusal import Refusal, reason

MODE = 0o600
NEW = ".new"  # the end of the name of a file that is to take another one's place
_OLDER = ".form1"  # of a journal of form 1 that was written anew
_CUT = ".cut-"  # comes before the date of what was cut from a journal
WRITTEN = os.O_RDWR | os.O_CREAT | os.O_APPEND
_FULL = (errno.ENOSPC, errno.EDQUOT, errno.EROFS)  # of a disk that is full, or can only be read
_CHUNK = 1 << 20


class NotKept(Refusal):
    """The disk refuses, and the file is as it was: what should have been recorded counts as lost."""


class Place(NamedTuple):
    """Where a journal is: `path` as it was given, which is said of it. Where that is a symbolic link, `real` is the
    file that it led to as the journal was opened: all that is written is that file, or stands beside it."""

    path: str
    real: str

    @staticmethod
    def of(path: str) -> "Place":
        place = Place(path, os.path.realpath(path) if os.path.islink(path) else path)
        if any(name.endswith(NEW) for name in place):
            raise Refusal(f"{path} is no name of a journal: what ends in {NEW} is written beside one, and replaced")
        return place


def refusal(fault: OSError, words: str = "", status: int = 2) -> Refusal:
    """What a fault of the disk is: where that is full, or can only be read, it may be otherwise later."""
    told = f"{words}: {fault.strerror}" if words else reason(fault)
    return NotKept(told, status) if fault.errno in _FULL else Refusal(told, status)


def opened(place: Place, how: int = WRITTEN) -> int:
    """The file of this name, made where there is none, locked."""
    while True:
        try:
            file = os.open(place.real, how | os.O_CLOEXEC | os.O_NOCTTY, MODE)
        except OSError as fault:
            raise refusal(fault, place.path) from fault
        _lock(file, place.path)
        if _is_named(file, place.real):
            return file
        os.close(file)


def opened_to_read(place: Place) -> int:
    """The file of this name, locked; -1 where there is none. It is of a disk that cannot be written now."""
    return opened(place, os.O_RDONLY) if os.path.exists(place.real) else -1


def _lock(file: int, path: str) -> None:
    """Takes the file for this front end alone."""
    if not stat.S_ISREG(os.fstat(file).st_mode):
        raise Refusal(f"{path} is no plain file")
    try:
        fcntl.flock(file, fcntl.LOCK_EX | fcntl.LOCK_NB)
    except BlockingIOError:
        raise Refusal(f"{path}: another front end holds this journal") from None
    except OSError as fault:
        raise Refusal(f"{path}: {reason(fault)}") from fault


def own(file: int, path: str) -> None:
    """A file that is known to be a front end's is its owner's alone."""
    try:
        if os.fstat(file).st_mode & 0o077:
            os.fchmod(file, MODE)
    except OSError as fault:
        raise Refusal(f"{path}: {reason(fault)}") from fault


def _is_named(file: int, path: str) -> bool:
    """Whether the name still stands for the open file: another front end may have put it aside."""
    try:
        return os.path.samestat(os.fstat(file), os.stat(path))
    except FileNotFoundError:
        return False


def stands(file: int, place: Place, size: int) -> bool:
    """Whether the name still stands for the open file, and so a link that led to it, and the file has what was written
    and no more."""
    try:
        named = os.stat(place.real)
        is_same = place.path == place.real or os.path.samestat(named, os.stat(place.path))
        return is_same and named.st_size == size and os.path.samestat(named, os.fstat(file))
    except OSError:
        return False


def cut(file: int, size: int, path: str) -> None:
    """Shortens the file to its whole records; a failure ends the front end."""
    try:
        os.ftruncate(file, size)
        os.fsync(file)
    except OSError as fault:
        raise Refusal(f"{path}: {reason(fault)}: what is on the disk is not known", 1) from fault


def folder_of(path: str, said: str = "") -> int:
    """The folder of a file, open to be synced; `said` is what the file is called, where that is something else."""
    try:
        return os.open(os.path.dirname(os.path.realpath(path)), os.O_RDONLY | os.O_DIRECTORY | os.O_CLOEXEC)
    except OSError as fault:
        raise refusal(fault, f"the folder of {said or path}", 1) from fault


def synced_folder(path: str, said: str = "") -> None:
    """The names in the file's folder are on the disk."""
    folder = folder_of(path, said)
    try:
        os.fsync(folder)
    except OSError as fault:
        raise refusal(fault, f"the folder of {said or path}", 1) from fault
    finally:
        os.close(folder)


def dated() -> str:
    """This moment, in a file's name."""
    return time.strftime("%Y-%m-%dT%H%M%S")


def _free(name: str) -> str:
    """This name, or one with a number after it, that no file has."""
    at = 1
    while os.path.lexists(name if at == 1 else f"{name}-{at}"):
        at += 1
    return name if at == 1 else f"{name}-{at}"


def copied(file: int, begin: int, end: int, to: int) -> None:
    """Copies octets of a file to another one, and waits until they are on the disk."""
    while begin < end:
        octets = os.pread(file, min(_CHUNK, end - begin), begin)
        begin += os.write(to, octets)
    os.fsync(to)


def kept_aside(file: int, begin: int, end: int, place: Place) -> str:
    """A new file beside this one that has some of its octets, on the disk: its name."""
    name = ""
    try:
        name = _free(f"{place.real}{_CUT}{dated()}")
        made = os.open(name, os.O_WRONLY | os.O_CREAT | os.O_EXCL | os.O_CLOEXEC, MODE)
        try:
            copied(file, begin, end, made)
        except OSError:
            os.unlink(name)
            raise
        finally:
            os.close(made)
    except OSError as fault:
        raise NotKept(f"{place.path}: what is cut away cannot be put aside: {fault.strerror}", 1) from fault
    synced_folder(place.real, place.path)
    return name


def octets_aside(place: Place) -> int:
    """How many octets were cut from the file of this name, as far as they lie beside it."""
    folder, name = os.path.split(os.path.abspath(place.real))
    with os.scandir(folder) as entries:
        return sum(entry.stat().st_size for entry in entries if entry.name.startswith(name + _CUT))


def put_aside(place: Place, begin: Callable[[int], None]) -> tuple[int, str]:
    """A new file, begun, in the place of the one of this name, which is kept under another. At each moment there is a
    file of this name, so that a centre's numbers are never begun again."""
    aside = _free(f"{place.real}.{dated()}")
    return replaced(place, begin, lambda: _kept_as(place, aside)), aside


def written_anew(place: Place, begin: Callable[[int], None]) -> tuple[int, str]:
    """The same for a journal of form 1, which is kept as it was; where that has such a name already it has no other."""
    aside = place.real + _OLDER
    is_kept = os.path.lexists(aside) and os.path.samestat(os.lstat(aside), os.stat(place.real))
    aside = aside if is_kept else _free(aside)
    return replaced(place, begin, lambda: _kept_as(place, aside)), aside


def _kept_as(place: Place, aside: str) -> None:
    if not os.path.lexists(aside):
        os.link(place.real, aside)


def replaced(place: Place, begin: Callable[[int], None], keep: Callable[[], object]) -> int:
    """A new file, begun, in the place of the old one, which is kept before and stays where the disk refuses. The folder
    is not synced yet."""
    made, file = place.real + NEW, -1
    try:
        if os.path.lexists(made):
            os.unlink(made)
        file = opened(Place(made, made))
        begin(file)
        keep()
        os.rename(made, place.real)
    except (OSError, Refusal) as fault:
        if file >= 0:
            os.close(file)
            with contextlib.suppress(OSError):
                os.unlink(made)
        raise NotKept(str(fault) if isinstance(fault, Refusal) else reason(fault), 2) from fault
    return file
