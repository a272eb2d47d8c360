"""Threads for the pages, each with a connection of its own to the database."""

import asyncio
import contextlib
import threading
import time
from concurrent.futures import ThreadPoolExecutor
from typing import Callable, TypeVar

from wisangub.refusal import Refusal
from wisangub.room.store import database
from wisangub.room.store.database import Away, Database, Failed, NotYet

_Answer = TypeVar("_Answer")
_KNOWN = 3.0  # seconds after which it is looked at again whether a newer program has carried the database over


class Connections:
    """What is asked runs in one of some threads. A connection that failed is replaced by the next question."""

    def __init__(self, where: str, threads: int) -> None:
        self.where = where
        self.pool = ThreadPoolExecutor(threads, thread_name_prefix="page")
        self.local = threading.local()
        self.opened: list[Database] = []

    def held(self) -> Database:
        """This thread's connection."""
        found: Database | None = getattr(self.local, "held", None)
        if found is None:
            try:
                found = database.opened(self.where, may_create=False)
            except NotYet as refused:
                raise Away(str(refused)) from refused
            except Refusal as refused:
                raise Failed(str(refused)) from refused
            self.local.held, self.local.checked = found, time.monotonic()
            self.opened.append(found)
        if time.monotonic() - self.local.checked > _KNOWN:
            try:
                database.check_known(found)
            except Refusal as refused:
                raise Failed(str(refused)) from refused
            self.local.checked = time.monotonic()
        return found

    def let_go(self) -> None:
        """Forgets this thread's connection."""
        found: Database | None = getattr(self.local, "held", None)
        self.local.held = None
        if found is not None:
            self.opened.remove(found)
            with contextlib.suppress(Exception):
                found.close()

    def answered(self, ask: Callable[[Database], _Answer]) -> _Answer:
        try:
            return ask(self.held())
        except Failed:
            self.let_go()
            raise

    async def run(self, ask: Callable[[Database], _Answer]) -> _Answer:
        """What the question is answered in a thread."""
        return await asyncio.get_running_loop().run_in_executor(self.pool, self.answered, ask)

    async def work(self, do: Callable[[], _Answer]) -> _Answer:
        """Other work that would keep the pages waiting, in a thread."""
        return await asyncio.get_running_loop().run_in_executor(self.pool, do)

    def close(self) -> None:
        """Waits for what is under way."""
        self.pool.shutdown()
        for held in self.opened:
            with contextlib.suppress(Exception):
                held.close()
