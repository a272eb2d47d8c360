"""The table of keys, each made at random once."""

import contextlib
import secrets

from .connection import Database, Taken

_COOKIES = "cookies"  # of the signatures of the pages' cookies


def key_of(database: Database, name: str = _COOKIES) -> bytes:
    """The key of this name, of 32 octets: the same for all processes of the database."""
    ask = "SELECT value FROM keys WHERE name = ?"
    if not (rows := database.run(ask, name)):
        with contextlib.suppress(Taken):
            database.run("INSERT INTO keys (name, value) VALUES (?, ?)", name, secrets.token_hex(32))
        rows = database.run(ask, name)
    return bytes.fromhex(str(rows[0][0]))
