"""Databases for tests: a file of SQLite, and a server of PostgreSQL that the tests start; skipped where none is."""

import functools
import importlib.util
import pathlib
from typing import Callable, Iterator

import pytest

from trials.room.cluster import Server, cluster, shared
from wisangub.refusal import Refusal
from wisangub.room.store import database

KINDS = ("sqlite", "postgresql")


@pytest.fixture(scope="session")
def server() -> Iterator[Server]:
    """The server, as long as the tests run: one for all lanes, where somebody started it for them."""
    if importlib.util.find_spec("psycopg") is None:
        pytest.skip("this Python does not see psycopg: apt-get install python3-psycopg")
    begun = False
    try:
        with shared() or cluster() as made:
            begun = True
            yield made
    except Refusal as refused:
        if begun:
            raise
        pytest.skip(str(refused))


@pytest.fixture(scope="session")
def tables(server: Server) -> Callable[[], str]:
    """The name of a database with today's tables and nothing in them, to which nobody is connected. It is made once:
    where that fails, by the next test that asks."""

    @functools.cache
    def made() -> str:
        where = server.database()
        database.opened(where).close()
        return where.rpartition("/")[2]

    return made


@pytest.fixture(params=KINDS)
def where(request: pytest.FixtureRequest, tmp_path: pathlib.Path) -> str:
    """A new database, of each kind. PostgreSQL's is a copy of one with today's tables."""
    if request.param == "sqlite":
        return str(tmp_path / "database")
    made: Server = request.getfixturevalue("server")
    return made.database(request.getfixturevalue("tables")())


@pytest.fixture(params=KINDS)
def nowhere(request: pytest.FixtureRequest, tmp_path: pathlib.Path) -> str:
    """Where a database can be and has no tables yet, of each kind."""
    if request.param == "sqlite":
        return str(tmp_path / "database")
    made: Server = request.getfixturevalue("server")
    return made.database()


@pytest.fixture
def empty(request: pytest.FixtureRequest, tmp_path: pathlib.Path) -> str:
    """Where another database of the same kind as the test's own can be, and is not yet."""
    own = request.getfixturevalue("nowhere" if "nowhere" in request.fixturenames else "where")
    if not database.is_url(own):
        return str(tmp_path / "restored")
    made: Server = request.getfixturevalue("server")
    return made.database()
