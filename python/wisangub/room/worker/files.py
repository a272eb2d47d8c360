"""How many signs a worker can drive at a time: each takes files, of which a process may have so many."""

import contextlib
import resource

_OF_A_SIGN = 3  # two pipes and a socket
_BESIDE = 300  # of readings, the database and the program


def most_driven(wanted: int) -> int:
    """As many as are wanted, or as there may be files for: the process's limit is raised as far as the system lets
    it."""
    needed = _BESIDE + _OF_A_SIGN * wanted
    limit, most = (one if one != resource.RLIM_INFINITY else needed for one in _limits())
    if limit < needed and limit < most:
        with contextlib.suppress(OSError, ValueError):
            resource.setrlimit(resource.RLIMIT_NOFILE, (min(needed, most), _limits()[1]))
            limit = min(needed, most)
    return max(1, min(wanted, (limit - _BESIDE) // _OF_A_SIGN))


def _limits() -> tuple[int, int]:
    """The files that the process may have, and that it may ask for."""
    return resource.getrlimit(resource.RLIMIT_NOFILE)
