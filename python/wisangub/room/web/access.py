"""The access log: an object of JSON a line, for each request that was answered."""

import datetime
import errno
import json
import os
import threading
from typing import Any

from aiohttp import web
from aiohttp.abc import AbstractAccessLogger

from wisangub.endpoint.files import MODE
from wisangub.refusal import Refusal, reason
from wisangub.room.output import LOG

from .security import address_of

_OPENED = os.O_WRONLY | os.O_CREAT | os.O_APPEND | os.O_CLOEXEC | os.O_NONBLOCK  # of a pipe whose reader is gone, too


class AccessLog:
    """A file that lines are appended to. It is opened for each of them anew, so that it may be moved away at any time.
    Where a line cannot be written, or in part alone, the log says so once, and requests are answered all the same."""

    def __init__(self, path: str, is_behind_tls: bool) -> None:
        self.path, self.is_behind_tls = path, is_behind_tls
        self._turn, self._is_faulty = threading.Lock(), False
        self._torn: os.stat_result | None = None  # the file whose last line was written in part
        try:
            self._append("")
        except OSError as fault:
            raise Refusal(reason(fault)) from fault

    def write(self, request: web.BaseRequest, response: web.StreamResponse, seconds: float) -> None:
        """A line for a request."""
        line = json.dumps(self._entry(request, response, seconds)) + "\n"
        try:
            self._append(line)
            self._is_faulty = False
        except OSError as fault:
            if not self._is_faulty:
                LOG.warning(f"the access log: {reason(fault)}")
            self._is_faulty = True

    def _append(self, line: str) -> None:
        """A line, after a newline where the last one was written in part."""
        with self._turn:
            file = os.open(self.path, _OPENED, MODE)
            try:
                held = os.fstat(file)
                is_torn = self._torn is not None and os.path.samestat(self._torn, held)
                octets = b"\n" * is_torn + line.encode()
                written = os.write(file, octets)
            finally:
                os.close(file)
            if written:
                self._torn = None if octets[:written].endswith(b"\n") else held
            if written < len(octets):
                raise OSError(errno.ENOSPC, os.strerror(errno.ENOSPC), self.path)

    def _entry(self, request: web.BaseRequest, response: web.StreamResponse, seconds: float) -> dict[str, Any]:
        """What is said of a request: nothing of its body, its cookies or its query, in which texts stand."""
        visitor = request.get("visitor")
        return {
            "at": datetime.datetime.now(datetime.timezone.utc).isoformat(timespec="milliseconds"),
            "address": address_of(request, self.is_behind_tls),
            "user": visitor.name if visitor else None,
            "method": request.method,
            "path": request.path,
            "status": response.status,
            "octets": response.body_length,
            "milliseconds": round(1000 * seconds, 1),
        }


def logger_of(log: AccessLog) -> type[AbstractAccessLogger]:
    """What aiohttp makes its logger of."""

    class Logger(AbstractAccessLogger):
        """Hands each request over."""

        def log(self, request: web.BaseRequest, response: web.StreamResponse, time: float) -> None:
            log.write(request, response, time)

    return Logger
