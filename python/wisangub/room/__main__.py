"""The command wisangub-control and its subcommands."""

import sys

from wisangub import commands

PARTS = {
    "worker": "wisangub.room.worker.program",
    "command": "wisangub.room.command",
    "users": "wisangub.room.users",
    "tokens": "wisangub.room.tokens",
    "signs": "wisangub.room.signs",
    "backup": "wisangub.room.store.backup",
    "archive": "wisangub.room.archive",
    "demo": "wisangub.room.demo",
}


def run() -> int:
    return commands.run("wisangub.room.serve", PARTS)


if __name__ == "__main__":
    sys.exit(run())
