"""Users of a database who never log in, for tests that ask it alone."""

from wisangub.room.store.database import Database
from wisangub.room.store.rights import Level
from wisangub.room.store.users import Role


def person(database: Database, name: str, role: Role = Role.OPERATOR, level: Level = Level.PUBLISH) -> None:
    """A user who may this on all signs. Nothing stands in the audit."""
    database.run("INSERT INTO users (name, role, secret) VALUES (?, ?, '-')", name, role.word)
    if level:
        database.run(
            "INSERT INTO rights (name, of_group, level) SELECT CAST(? AS TEXT), id, CAST(? AS BIGINT) FROM sign_groups"
            " WHERE kind = 'all'",
            name,
            int(level),
        )
