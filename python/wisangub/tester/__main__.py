"""The command wisangub-conform and its subcommands."""

import sys

from wisangub import commands

from .trouble import status_of

PARTS = {
    "centre": "wisangub.tester.centre.program",
    "describe": "wisangub.tester.describe.program",
    "several": "wisangub.tester.several.program",
    "soak": "wisangub.tester.soak.program",
    "vectors": "wisangub.tester.vectors.program",
}


def run() -> int:
    """The exit status of wisangub-conform, or of the subcommand that its first word names."""
    return commands.run("wisangub.tester.cli", PARTS, status_of)


if __name__ == "__main__":
    sys.exit(run())
