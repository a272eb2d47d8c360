"""The pages in a thread of their own, so that signals are another one's."""

import asyncio
import logging
import threading
from dataclasses import dataclass
from typing import Any

from aiohttp import web

from wisangub.refusal import Refusal, reason
from wisangub.room.output import LOG
from wisangub.room.web.access import AccessLog, logger_of
from wisangub.room.web.app import application
from wisangub.room.web.service import Service
from wisangub.room.web.settings import Settings

from .fleet import Sign

_PATIENCE = 60.0  # seconds until the pages stand, or have ended
_LAST = 2.0  # seconds for what is under way as they end
_ACCESS = logging.Logger("access")  # which aiohttp asks for, and nothing is handed to
_QUIET = logging.Logger("requests", logging.CRITICAL + 1)  # what a request says that is none is nobody's to read


@dataclass
class Pages:
    """A loop in a thread, from start to stop."""

    settings: Settings
    signs: list[Sign]
    host: str
    port: int

    def start(self) -> None:
        """Returns when the pages can be asked for; refused where they cannot."""
        self.service = Service(self.settings, self.signs)
        self.access: dict[str, Any] = {"access_log": None}
        if (path := self.settings.access_log) is not None:
            log = AccessLog(path, self.settings.is_behind_tls)
            self.access = {"access_log": _ACCESS, "access_log_class": logger_of(log)}
        self.loop = asyncio.new_event_loop()
        self.fault: Exception | None = None
        self.is_up = threading.Event()
        self.thread = threading.Thread(target=self.serve, name="pages", daemon=True)
        self.thread.start()
        self.is_up.wait(_PATIENCE)
        if self.fault is not None or not self.is_up.is_set():
            fault: Exception | None = self.fault
            words = reason(fault) if isinstance(fault, OSError) else str(fault or "no pages in time")
            raise Refusal(f"{self.host}:{self.port}: {words}")

    def serve(self) -> None:
        """The thread."""
        asyncio.set_event_loop(self.loop)
        self.loop.set_exception_handler(_said)
        self.runner = web.AppRunner(application(self.service), logger=_QUIET, **self.access)
        try:
            server = self.loop.run_until_complete(self.begun())
        except Exception as fault:  # also of a port or a name that is none: start waits for this thread
            self.fault = fault
        self.is_up.set()
        if self.fault is None:
            self.loop.run_forever()
            server.close()
        self.loop.run_until_complete(self.ended())
        self.loop.close()

    async def begun(self) -> asyncio.base_events.Server:
        """What listens, and hands each connection over within its limits."""
        await self.runner.setup()
        handler = self.runner.server
        assert handler is not None
        server = await self.loop.create_server(self.service.limits.factory(handler), self.host, self.port, backlog=128)
        self.port = int(server.sockets[0].getsockname()[1])
        return server

    async def ended(self) -> None:
        """What still answers ends."""
        await self.runner.shutdown()
        if self.runner.server is not None:
            await self.runner.server.shutdown(_LAST)
        await self.runner.cleanup()
        left = asyncio.all_tasks() - {asyncio.current_task()}
        for task in left:
            task.cancel()
        await asyncio.gather(*left, return_exceptions=True)
        await self.loop.shutdown_default_executor()

    def stop(self) -> None:
        """Ends what is under way, and waits for it."""
        self.loop.call_soon_threadsafe(self.loop.stop)
        self.thread.join(_PATIENCE)
        if self.thread.is_alive():
            LOG.warning("the pages did not end in time")
        self.service.close()

    @property
    def address(self) -> str:
        """Where a browser finds them."""
        host = f"[{self.host}]" if ":" in self.host else self.host
        return f"http://{host}:{self.port}/"


def _said(_: asyncio.AbstractEventLoop, context: dict[str, Any]) -> None:
    """A fault of the loop, in one line."""
    LOG.error(f"the pages: {context.get('message', '')}: {context.get('exception', '')!r}")
