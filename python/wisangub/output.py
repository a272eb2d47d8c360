"""What a command says: its answers on standard output, and a log on standard error."""

import os


class _Log:
    """Lines on standard error, by the logger `wisangub`."""

    def info(self, words: str) -> None:
        """Something that a user ought to know."""
        from .standard_error import LOGGER

        LOGGER.info(words)

    def error(self, words: str) -> None:
        """Why a command ends."""
        from .standard_error import LOGGER

        LOGGER.error(words)


LOG = _Log()


def print_line(words: str) -> None:
    """A line on standard output, in one write; where nobody reads it any more a command goes on."""
    try:
        print(words.encode("utf-8", "backslashreplace").decode() + "\n", end="", flush=True)
    except UnicodeEncodeError:
        print_line(words.encode("ascii", "backslashreplace").decode())
    except (OSError, ValueError):
        os.dup2(os.open(os.devnull, os.O_WRONLY), 1)
