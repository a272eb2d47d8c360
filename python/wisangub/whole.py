"""A file that is whole at every moment: what is written anew stands beside it before it takes its name."""

import contextlib
import errno
import fcntl
import os
import pathlib
import shutil
import stat
from typing import BinaryIO

_NEW, _ANOTHER = ".new", "another run writes it"
_HELD = (errno.EWOULDBLOCK, errno.EACCES)  # by another; any other fault is of a file system without locks


class WholeFile:
    """A text, or octets, written anew now and then. Who is killed, or loses power, leaves all of the last one that was
    written. What is no file, such as a pipe, has one after the other. Nobody else has the file meanwhile: its lock goes
    with what is written. Raises OSError where none can be written."""

    def __init__(self, path: pathlib.Path) -> None:
        self._path = path.resolve()  # where the name is a link, that stays one
        self._beside = self._path.with_name(self._path.name + _NEW)
        self._pipe: BinaryIO | None = None
        self._held: BinaryIO | None = None
        if path.exists() and not path.is_file():
            self._pipe = path.open("wb")
            return
        self._hold()
        try:
            self._begun().close()
            self._beside.unlink()
        except OSError:
            self.close()
            raise

    @property
    def is_pipe(self) -> bool:
        """Whether it is no file, and has one text after the other."""
        return self._pipe is not None

    def _hold(self) -> None:
        """The file of this name, where there is one, is locked. Raises OSError where another has it."""
        if self._held is None and self._path.exists():
            self._held = _locked(self._path.open("r+b"), self._path)

    def _begun(self) -> BinaryIO:
        """What is to take the place of the file, with nothing in it, locked. Raises OSError where another has it."""
        file = _locked(self._beside.open("ab"), self._path)
        if not os.path.samestat(os.fstat(file.fileno()), self._beside.stat()):  # it took its place meanwhile
            file.close()
            raise OSError(errno.EWOULDBLOCK, _ANOTHER, str(self._path))
        return _emptied(file)

    def write(self, held: str | bytes) -> None:
        """This text, as UTF-8, or these octets, in the place of those before; of a name that is no UTF-8 the escapes.
        Raises OSError where they cannot be; then those stand."""
        octets = held.encode("utf-8", "backslashreplace") if isinstance(held, str) else held
        if self._pipe is not None:
            self._pipe.write(octets)
            self._pipe.flush()
            return
        file = self._begun()
        try:
            self._hold()
            file.write(octets)
            file.flush()
            os.fsync(file.fileno())
            if self._path.exists():
                shutil.copymode(self._path, self._beside)
            os.replace(self._beside, self._path)
        except OSError:
            self._beside.unlink(missing_ok=True)
            with contextlib.suppress(OSError):
                file.close()
            raise
        self._release()
        self._held = file
        self._sync_folder()

    def _sync_folder(self) -> None:
        """The name is on the disk too, where the file system has that."""
        with contextlib.suppress(OSError):
            folder = os.open(self._path.parent, os.O_RDONLY | os.O_DIRECTORY | os.O_CLOEXEC)
            try:
                os.fsync(folder)
            finally:
                os.close(folder)

    def _release(self) -> None:
        if self._held is not None:
            self._held.close()
            self._held = None

    def close(self) -> None:
        """No text comes any more."""
        self._release()
        if self._pipe is not None:
            self._pipe.close()


def alone(path: pathlib.Path) -> BinaryIO:
    """A file to be written from its beginning, which nobody else has meanwhile. Raises OSError where another has it, or
    it cannot be written; then it is as it was."""

    def opened(name: str, _flags: int) -> int:
        return os.open(name, os.O_WRONLY | os.O_CREAT | os.O_CLOEXEC, 0o666)

    return _emptied(_locked(open(path, "wb", opener=opened), path))


def _emptied(file: BinaryIO) -> BinaryIO:
    """A file without what was in it; what is no file is as it is."""
    if stat.S_ISREG(os.fstat(file.fileno()).st_mode):
        file.truncate(0)
    return file


def _locked(file: BinaryIO, name: pathlib.Path) -> BinaryIO:
    """A file that nobody else has until it is closed. Raises OSError where another has it."""
    try:
        fcntl.flock(file, fcntl.LOCK_EX | fcntl.LOCK_NB)
    except OSError as fault:
        if fault.errno in _HELD:
            file.close()
            raise OSError(fault.errno, _ANOTHER, str(name)) from None
    return file
