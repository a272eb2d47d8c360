"""The page of a sign's front end, for as long as the front end is there. What serves it is imported only where it is
asked for, since that takes a third of a start."""

from __future__ import annotations

import argparse
import contextlib
import socket
from collections.abc import Iterator
from typing import TYPE_CHECKING

from wisangub.endpoint.journal import Journal
from wisangub.endpoint.setting import begun
from wisangub.endpoint.watching import Watcher
from wisangub.process import description
from wisangub.process.coprocess import CoProcess

if TYPE_CHECKING:
    from .readings import Reading


def copy_of(asked: argparse.Namespace, text: bytes | None, journal: Journal | None) -> CoProcess | None:
    """Another process where a journal left the sign, to be asked what may not be asked of the sign: a Get would end
    its silence. None where there is no page, and where the sign is new, and so has no silence."""
    return begun(asked, "sign", text, journal) if asked.page is not None and journal is not None else None


@contextlib.contextmanager
def page_of(asked: argparse.Namespace) -> Iterator[socket.socket | None]:
    """Where browsers find the page; None where none is asked for. A port that another one has is refused before a start
    is recorded: else a start that is tried again and again would fill the journal."""
    if asked.page is None:
        yield None
        return
    from .server import listening

    with listening(asked.page) as made:
        yield made


@contextlib.contextmanager
def watched(
    asked: argparse.Namespace,
    text: bytes | None,
    sign: CoProcess,
    copy: CoProcess | None,
    lines: list[bytes],
    page: socket.socket | None,
) -> Iterator[tuple[Watcher, str]]:
    """Who watches the front end, and where a browser finds the page: nobody and nowhere, where none is asked for.
    `lines` told the sign what the time without a process was."""
    if page is None:
        yield Watcher(), ""
        return
    from .board import Board
    from .lamps import Lamps
    from .server import HOST, Server

    who = description.communities_of(text)
    reading = read_of(copy, who[0], lines) if copy else None
    is_heard = copy is None or any(line.startswith(b"power-back") for line in lines)
    board = Board(sign, who, reading, is_heard)
    with Server(page, board, Lamps(asked.signtool, text), asked.sign or "the bench sign") as server:
        yield board, f"http://{HOST}:{server.port}/"


def read_of(copy: CoProcess, reader: bytes, lines: list[bytes]) -> Reading | None:
    """What the other process says, which then ends."""
    from .readings import Asker

    if lines:
        copy.hand(lines)
    found = Asker(copy, reader).read()
    copy.end()
    return found
