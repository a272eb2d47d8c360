"""What a measure says of what PostgreSQL counts."""

from trials.room import cluster
from trials.room.statements import LIBRARY, Counts, counted
from wisangub.refusal import Refusal
from wisangub.room.store import database

from . import needs

needs.modules("psycopg")

import pytest


def test_counts_are_of_a_thing_or_of_a_day() -> None:
    found = Counts(1000, 60, 3_000_000, 9) - Counts(400, 40, 1_000_000, 4)
    assert found == Counts(600, 20, 2_000_000, 5)
    words = "600 statements, 20 transactions, 5 syncs and 2.0 MB of the server's log in 100 s"
    assert found.told(10, "thing", 100) == f"{words}: 60.0 statements, 2.00 transactions and 200.0 kB a thing"
    assert found.told(0, "", 100) == f"{words}: 1.73 GB a day, 6.0 a second"


def test_a_server_counts() -> None:
    try:
        with cluster.cluster(shared_preload_libraries=LIBRARY) as server:
            held = database.opened(server.database())
            before = counted(held)
            for number in range(5):
                held.run("INSERT INTO forbidden_words (word) VALUES (?)", f"word {number}")
            found = counted(held) - before
            held.close()
    except Refusal as refused:
        pytest.skip(str(refused))
    assert found.statements >= 5 and found.log > 100
