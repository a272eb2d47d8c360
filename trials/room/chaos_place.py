"""The database of a run of chaos or of a measure, and the server of its own behind it where it is PostgreSQL's."""

import contextlib
import pathlib
import signal
import time
from dataclasses import dataclass
from typing import Iterator

from . import cluster

KINDS = ("sqlite", "postgresql")


@dataclass
class Place:
    """A database, and the server behind it where it is PostgreSQL's."""

    where: str
    server: cluster.Cluster | None = None
    restarts: int = 0

    def restart(self) -> None:
        """The server crashes, and stands again."""
        if self.server is not None:
            self.server.stop(signal.SIGQUIT)
            time.sleep(1)
            self.server.start()
            self.restarts += 1


@contextlib.contextmanager
def placed(kind: str, folder: pathlib.Path, **settings: str) -> Iterator[Place]:
    """The database, as long as the run; a server of PostgreSQL has these settings."""
    if kind == KINDS[0]:
        yield Place(str(folder / "database"))
        return
    with cluster.cluster(**settings) as server:
        yield Place(server.database(), server)
