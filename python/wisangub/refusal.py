"""What a user is told in place of a traceback."""

import os
import sys
from typing import Callable

from wisangub.output import LOG


class Refusal(Exception):
    """Why a front end does not go on, in words. Status 2: what it was given is not in order; 1: something failed."""

    def __init__(self, words: str, status: int = 2) -> None:
        super().__init__(words)
        self.status = status


def reason(fault: OSError) -> str:
    """The system's words for a fault, with the file's name where it has one."""
    words = fault.strerror or str(fault)
    return f"{fault.filename}: {words}" if fault.filename else words


def _keep_standard_files() -> None:
    """The files 0, 1 and 2 are open, so that nothing that a front end opens has their numbers."""
    while (file := os.open(os.devnull, os.O_RDWR)) < 3:
        pass
    os.close(file)


def _flushed() -> None:
    """What was printed is written, or nobody reads it."""
    try:
        if sys.stdout is not None:
            sys.stdout.flush()
    except (OSError, ValueError):
        os.dup2(os.open(os.devnull, os.O_WRONLY), 1)


def status_of(front_end: Callable[[], int]) -> int:
    """The exit status of a front end, its refusals in words on standard error."""
    _keep_standard_files()
    try:
        return front_end()
    except Refusal as refused:
        LOG.error(str(refused))
        return refused.status
    except OSError as fault:
        LOG.error(reason(fault))
        return 1
    except MemoryError:
        LOG.error("out of memory")
        return 1
    except KeyboardInterrupt:
        return 1
    finally:
        _flushed()
