"""One test of a sign at a time on this machine, since two would change what the other has just set: who tests a sign
holds a file of its address in the user's folder of running programs, until the process ends, however it ends."""

import contextlib
import errno
import fcntl
import os
import pathlib
import stat
import tempfile
import urllib.parse
from typing import BinaryIO

from wisangub.output import LOG
from wisangub.refusal import Refusal, reason

_BY_ANOTHER = (errno.EWOULDBLOCK, errno.EACCES)
_MOST_PID = 20  # octets of a process's number
Address = tuple[str | int, ...]  # of either family, as a socket has it


class Held:
    """A sign that is held: nobody else of this user tests it until this is closed, or the process is gone. Raises
    Refusal where another holds it, and OSError where no file can be had."""

    def __init__(self, address: Address) -> None:
        self.named = _named(address)
        self._path = _folder() / f"wisangub-conform-{urllib.parse.quote(self.named, safe=':[]%')}"
        self._file = self._taken()
        self._file.truncate(0)
        self._file.write(f"{os.getpid()}\n".encode())

    def _taken(self) -> BinaryIO:
        """The file, locked; one that was taken away meanwhile is none."""
        while True:
            flags = os.O_RDWR | os.O_CREAT | os.O_NOFOLLOW
            file = os.fdopen(os.open(self._path, flags, 0o600), "r+b", buffering=0)
            try:
                fcntl.flock(file, fcntl.LOCK_EX | fcntl.LOCK_NB)
                if os.path.samestat(os.fstat(file.fileno()), self._path.stat()):
                    return file
            except FileNotFoundError:
                pass
            except OSError as fault:
                by = file.read(_MOST_PID).decode("ascii", "replace").strip()
                file.close()
                if fault.errno not in _BY_ANOTHER:
                    raise
                who = f"process {by}" if by.isdigit() else "another process"
                words = f"a test of the sign at {self.named} runs already: {who}; two would disturb each other"
                raise Refusal(words) from None
            file.close()

    def close(self) -> None:
        """The sign is free again."""
        with contextlib.suppress(OSError):
            self._path.unlink()
        self._file.close()


def _named(address: Address) -> str:
    """HOST:PORT, an IPv6 host in brackets, with its interface's number where it is of one alone."""
    first, port, *more = address
    host = str(first).partition("%")[0]
    interface = f"%{more[1]}" if len(more) > 1 and more[1] else ""
    return f"[{host}{interface}]:{port}" if ":" in host else f"{host}:{port}"


def hold(address: Address) -> Held | None:
    """Holds the sign at this address. Raises Refusal where another test has it. Where no file can be had it is said
    that this is not known, and the test begins."""
    try:
        return Held(address)
    except OSError as fault:
        LOG.info(f"whether another test of this sign runs on this machine is not known: {reason(fault)}")
        return None


def _places(user: int) -> tuple[str, ...]:
    """Where a user's folder of running programs is, if there is one."""
    return os.environ.get("XDG_RUNTIME_DIR", ""), f"/run/user/{user}"


def _folder() -> pathlib.Path:
    """The user's folder of running programs, or else one of his own among temporary files. Raises OSError where that
    is another's."""
    user = os.getuid()
    for folder in _places(user):
        if folder and os.path.isdir(folder) and os.stat(folder).st_uid == user and os.access(folder, os.W_OK):
            return pathlib.Path(folder)
    own = pathlib.Path(tempfile.gettempdir(), f"wisangub-{user}")
    own.mkdir(0o700, exist_ok=True)
    found = own.lstat()
    if not stat.S_ISDIR(found.st_mode) or found.st_uid != user or found.st_mode & 0o022:
        raise OSError(errno.EPERM, "it is another's", str(own))
    return own
