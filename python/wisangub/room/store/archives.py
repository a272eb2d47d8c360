"""Files of archives: lines of JSON, compressed (gzip), the last of which has the digest of all before it.

The first line says of which database an archive is, when it was made, what is older than which time, and the names of
the signs. Each line after it is a row: of the audit, of a command, of a reading or of a journal, in this order. The
last line counts them, and has the SHA-256 of what stands before it, as it is uncompressed.
"""

import contextlib
import gzip
import hashlib
import json
import os
import pathlib
import zlib
from collections import Counter
from dataclasses import dataclass, field
from typing import IO, Any, Iterator

from wisangub.endpoint.files import MODE, synced_folder
from wisangub.refusal import Refusal, reason

FORM = 1
AUDIT, COMMAND, READING, LINE = KINDS = ("audit", "command", "reading", "line")
Entry = dict[str, Any]
_LEVEL = 6
_MOST_TIME = 2.0**35  # seconds from 1970: in every calendar, whatever the zone
_PART = ".part"  # the end of the name of a file that is not whole yet


@dataclass(frozen=True)
class Head:
    """The first line."""

    database: str
    made: float
    older_than: float
    signs: dict[int, str]

    def entry(self) -> Entry:
        signs = {str(sign): name for sign, name in self.signs.items()}
        return {
            "archive": FORM,
            "database": self.database,
            "made": self.made,
            "older_than": self.older_than,
            "signs": signs,
        }

    @staticmethod
    def of(entry: Entry, path: pathlib.Path) -> "Head":
        """The head that a line says; refused where it says none, or one of another form."""
        try:
            if entry["archive"] != FORM:
                raise Refusal(f"{path} is an archive of form {entry['archive']}, and this program reads form {FORM}")
            signs = {int(sign): str(name) for sign, name in entry["signs"].items()}
            made, older_than = float(entry["made"]), float(entry["older_than"])
            if not (abs(made) < _MOST_TIME and abs(older_than) < _MOST_TIME):
                raise Refusal(f"{path} is no archive: a time of its first line is in no calendar")
            return Head(str(entry["database"]), made, older_than, signs)
        except (KeyError, TypeError, ValueError, AttributeError, OverflowError) as fault:
            raise Refusal(f"{path} is no archive") from fault


@dataclass
class Sum:
    """What was written or read so far: how many rows of each kind, and their digest."""

    rows: Counter[str] = field(default_factory=Counter)
    digest: Any = field(default_factory=hashlib.sha256)

    def see(self, line: bytes, kind: str = "") -> None:
        self.digest.update(line)
        if kind:
            self.rows[kind] += 1

    @property
    def counts(self) -> dict[str, int]:
        return {kind: self.rows[kind] for kind in KINDS}

    def entry(self) -> Entry:
        """The last line."""
        return {"end": FORM, "rows": self.counts, "sha256": self.digest.hexdigest()}

    def told(self) -> str:
        """In words."""
        return ", ".join(f"{count} of {kind}" for kind, count in self.counts.items())


def _line(entry: Entry) -> bytes:
    return json.dumps(entry, ensure_ascii=False, separators=(",", ":")).encode() + b"\n"


class Writer:
    """An archive that is being written, under another name until it is whole."""

    def __init__(self, file: IO[bytes], head: Head) -> None:
        self.sum, self._file = Sum(), file
        self._put(_line(head.entry()), "")

    def _put(self, line: bytes, kind: str) -> None:
        self._file.write(line)
        self.sum.see(line, kind)

    def put(self, kind: str, row: Entry) -> None:
        """A row."""
        self._put(_line({"kind": kind, **row}), kind)

    def end(self) -> None:
        self._file.write(_line(self.sum.entry()))


@contextlib.contextmanager
def written(path: pathlib.Path, head: Head) -> Iterator[Writer]:
    """A new archive: on the disk, under its name, once the block has ended well; else there is none."""
    part = path.with_name(path.name + _PART)
    for one in (path, part):
        if one.exists():
            raise Refusal(f"{one} is there already")
    try:
        file = os.fdopen(os.open(part, os.O_WRONLY | os.O_CREAT | os.O_EXCL | os.O_CLOEXEC, MODE), "wb")
        try:
            with file, gzip.GzipFile("", "wb", _LEVEL, file) as packed:
                writer = Writer(packed, head)  # type: ignore[arg-type]  # it is a file that is written
                yield writer
                writer.end()
            _synced(part)
            list_checked(part)
            part.rename(path)
            synced_folder(str(path))
        except BaseException:
            part.unlink(missing_ok=True)
            raise
    except OSError as fault:
        raise Refusal(reason(fault)) from fault


def _synced(path: pathlib.Path) -> None:
    with open(path, "rb") as file:
        os.fsync(file.fileno())


@contextlib.contextmanager
def _faults_told(path: pathlib.Path) -> Iterator[None]:
    """What is wrong with a file in words."""
    try:
        yield
    except (EOFError, zlib.error, gzip.BadGzipFile, ValueError, RecursionError) as fault:
        raise Refusal(f"{path} is damaged, or no archive: {fault}") from fault
    except OSError as fault:
        raise Refusal(reason(fault)) from fault


def head_of(path: pathlib.Path) -> Head:
    """The head of an archive."""
    with _faults_told(path), gzip.open(path, "rb") as file:
        return Head.of(json.loads(file.readline()), path)


def rows(path: pathlib.Path, kinds: tuple[str, ...] = KINDS, after: int = 0) -> Iterator[Entry]:
    """The rows of these kinds, in the order of the file, but for so many first ones; what comes after the last of them
    is not read, and the digest is not looked at."""
    last = max(map(KINDS.index, kinds))
    beginnings = {kind: f'{{"kind":"{kind}",'.encode() for kind in KINDS}
    wanted, later = (
        tuple(beginnings[kind] for kind in kinds),
        tuple(beginnings[kind] for kind in KINDS[last + 1 :]),
    )
    with _faults_told(path), gzip.open(path, "rb") as file:
        Head.of(json.loads(file.readline()), path)
        for line in file:
            if line.startswith(wanted):
                if after > 0:
                    after -= 1
                else:
                    yield json.loads(line)
            elif later and line.startswith(later):
                return


def list_checked(path: pathlib.Path) -> Sum:
    """What an archive holds, where it is whole and its digest is that of its rows; else refused."""
    found, last = Sum(), b""
    with _faults_told(path), gzip.open(path, "rb") as file:
        Head.of(json.loads(file.readline()), path)
    with _faults_told(path), gzip.open(path, "rb") as file:
        for line in file:
            if last:
                found.see(last, _kind_of(last))
            last = line
        if json.loads(last) != found.entry():
            raise Refusal(
                f"{path} is damaged: its last line does not count what stands before it, or has another digest"
            )
    return found


def _kind_of(line: bytes) -> str:
    """The kind of a row, by its beginning; none for the first line."""
    if not line.startswith(b'{"kind":"'):
        return ""
    return line[9 : line.index(b'"', 9)].decode()
