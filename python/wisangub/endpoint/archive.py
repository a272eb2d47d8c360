"""A folder that keeps what is cut off a journal: at each shortening the file as it was, under its name, the date and a
number."""

import errno
import os
import re

from wisangub.refusal import Refusal

from .files import MODE, NEW, copied, dated, synced_folder

_ELSEWHERE = (errno.EXDEV, errno.EPERM, errno.EOPNOTSUPP, errno.EMLINK)  # a file has no second name there


class Archive:
    """The folder, which is there."""

    def __init__(self, folder: str) -> None:
        if not os.path.isdir(folder):
            raise Refusal(f"--archive {folder} is no folder")
        self.folder = folder

    def keep(self, path: str) -> str:
        """This file is in the folder too, on the disk: its name there. One that has a name there already, since an
        earlier shortening went no further, has no other."""
        known, number = self.found(path)
        if known is None:
            known = os.path.join(self.folder, f"{os.path.basename(path)}.{dated()}-{number + 1}")
            try:
                os.link(path, known)
            except OSError as fault:
                if fault.errno not in _ELSEWHERE:
                    raise
                _copy(path, known)
        synced_folder(known)
        return known

    def found(self, path: str) -> tuple[str | None, int]:
        """The name that this file has in the folder already, and the greatest number of one that came before it."""
        shape = re.compile(re.escape(os.path.basename(path)) + r"\.[0-9T-]+-([0-9]{1,18})")
        file, known, greatest = os.stat(path), None, 0
        with os.scandir(self.folder) as entries:
            for entry in entries:
                if found := shape.fullmatch(entry.name):
                    greatest = max(greatest, int(found[1]))
                    if entry.inode() == file.st_ino and os.path.samestat(entry.stat(), file):
                        known = entry.path
        return known, greatest


def _copy(path: str, name: str) -> None:
    """A copy of a file under a name that it has when it is whole; what is not leaves no room taken."""
    file, made = os.open(path, os.O_RDONLY | os.O_CLOEXEC), -1
    try:
        made = os.open(name + NEW, os.O_WRONLY | os.O_CREAT | os.O_EXCL | os.O_CLOEXEC, MODE)
        copied(file, 0, os.fstat(file).st_size, made)
        os.rename(name + NEW, name)
    except OSError:
        if made >= 0:
            os.unlink(name + NEW)
        raise
    finally:
        for one in (file, made):
            if one >= 0:
                os.close(one)
