"""What archives took out of a database during chaos comes back, so that all of it is looked at."""

import pathlib

from wisangub.room.store import archives, retention
from wisangub.room.store.store import Store
from wisangub.room.store.values import places


def put_back(store: Store, paths: list[pathlib.Path]) -> int:
    """The rows of the archives that were made, each in its place: how many were gone. One that is there still, since
    an archive was interrupted, is let be."""
    gone = 0
    store.database.run("UPDATE signs SET archived = 0")
    for path in paths:
        if not path.exists():  # the database's server was away
            continue
        archives.list_checked(path)
        for row in archives.rows(path):
            names = [name for name in retention.NAMES[row["kind"]] if name != "batch"]
            table = retention.TABLES[row["kind"]]
            gone += len(
                store.database.run(
                    f"INSERT INTO {table} ({', '.join(names)}) VALUES ({places(names)})"
                    f" ON CONFLICT DO NOTHING RETURNING {names[0]}",
                    *(row[name] for name in names),
                )
            )
    return gone
