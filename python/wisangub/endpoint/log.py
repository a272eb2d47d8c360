"""A line an event: with the time, the peer, and what was said in words."""

import datetime
import errno
import json
import os
import select
import stat

from wisangub.output import LOG
from wisangub.refusal import Refusal, reason
from wisangub.snmp.datagrams import fields_of
from wisangub.snmp.mib import Mib
from wisangub.standing import look_at_reader

from .files import MODE
from .sockets import Address, named

_OPENED = os.O_WRONLY | os.O_CREAT | os.O_APPEND | os.O_CLOEXEC | os.O_NOCTTY | os.O_NONBLOCK
LEAST_LEFT = 4_000_000  # octets of its disk that a log leaves to a journal: whoever sends datagrams writes lines of it


def _is_on_disk(file: int) -> bool:
    """Whether it is a file that takes room of a disk."""
    try:
        return stat.S_ISREG(os.fstat(file).st_mode)
    except OSError:
        return False


def _file_of(path: str) -> int:
    """The file that is written to at its end; `-` is standard output. A pipe is not waited for until somebody reads
    it."""
    if path == "-":
        return 1
    try:
        file = os.open(path, _OPENED, MODE)
        if _is_on_disk(file):
            os.fchmod(file, MODE)
    except OSError as fault:
        why = f"{path}: nobody reads it" if fault.errno == errno.ENXIO else reason(fault)
        raise Refusal(why) from fault
    return file


def _look_at_disk(file: int) -> None:
    """Raises OSError where the disk of this file has no room for a log."""
    found = os.fstatvfs(file)
    if found.f_bavail * found.f_frsize < LEAST_LEFT:
        raise OSError(errno.ENOSPC, f"its disk has less than {LEAST_LEFT // 1_000_000} MB left")


class Log:
    """Where events are told, as text or as JSON. A log that cannot be written, whose reader takes nothing, or whose
    disk is nearly full, leaves events out, and says so once."""

    def __init__(self, path: str, is_json: bool) -> None:
        self.path, self.file, self.is_json, self.mib = path, _file_of(path), is_json, Mib.read()
        self.is_on_disk, self.left_out = _is_on_disk(self.file), 0
        self.is_torn = self.is_given_up = False

    def datagram(self, event: str, peer: Address, octets: bytes) -> None:
        """A datagram that came or went."""
        self.event(event, peer, fields_of(self.mib, octets))

    def event(self, event: str, peer: Address | None = None, fields: dict[str, object] | None = None) -> None:
        """An event of any kind, in one line."""
        time = datetime.datetime.now(datetime.timezone.utc).isoformat(timespec="milliseconds").replace("+00:00", "Z")
        told: dict[str, object] = {"time": time, "peer": named(peer) if peer else "", "event": event, **(fields or {})}
        self.write(json.dumps(told) if self.is_json else _line_of(told))

    def write(self, line: str) -> None:
        """A line, in one write, after a newline where the last one was written in part; what is no file of a disk has a
        long one in parts, each of which a pipe takes at once."""
        if self.is_given_up:
            return
        octets = b"\n" * self.is_torn + line.encode("utf-8", "backslashreplace") + b"\n"
        written = 0
        try:
            if self.is_on_disk:
                _look_at_disk(self.file)
                written = os.write(self.file, octets)
            while not self.is_on_disk and written < len(octets):
                look_at_reader(self.file)
                written += os.write(self.file, octets[written : written + select.PIPE_BUF])
        except OSError as fault:
            self.is_torn |= written > 0
            if not self.left_out:
                LOG.info(f"the log {self.path} is not written: {fault.strerror}")
            self.left_out += 1
            self.is_given_up = self.path == "-" and isinstance(fault, BrokenPipeError)
            return
        self.is_torn = written < len(octets)
        if self.left_out and not self.is_torn:
            LOG.info(f"the log {self.path} is written again, without {self.left_out} events")
            self.left_out = 0


def _line_of(told: dict[str, object]) -> str:
    """An event as a line: values alone where they come first, then each with its name."""
    words = [str(told["time"]), str(told["peer"]) or "-", str(told["event"])]
    for name, value in told.items():
        if name == "bindings" and isinstance(value, list):
            words += [f"{one['name']}={one['value']}" if one["value"] else one["name"] for one in value]
        elif name == "kind":
            words.append(str(value))
        elif name not in ("time", "peer", "event"):
            words.append(f"{name} {shown(str(value))}")
    return " ".join(words)


def shown(word: str) -> str:
    """A word of a log's line: what is not printable in its escapes."""
    return "".join(c if c.isprintable() else f"\\x{ord(c):02x}" for c in word)
