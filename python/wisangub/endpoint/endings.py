"""How a job ended, in more words than the centre has: its step by name, and what may be the cause."""

import re

STEPS = (  # of a publication: docs/PROFILE.md, "Commands"
    "open the row",
    "is the row open",
    "write the message",
    "ask for validation",
    "is the message valid",
    "compare the checksum",
    "activate",
    "ask why it was refused",
)
_VALID, _WRITTEN = 5, 4  # the step that asks whether the row is valid, and the last one that writes to it
_FAILED = re.compile(r"^(?:last )?failed at step ([1-8]): (.*)$", re.DOTALL)
_IN_ERROR = re.compile(r"the row has status 5\b")
_GENERAL = re.compile(r"error-status 5\b")
_NO_REPLY = (
    "the request went out three times to {to}, and no reply came: it may be that nothing listens there, that the sign"
    " has another community, or that it answers from another address than was asked"
)
_ANOTHER = "the row may be another system's"


def failed(how: str) -> tuple[int, str] | None:
    """The step at which a job failed, and why."""
    found = _FAILED.match(how)
    return (int(found[1]), found[2]) if found else None


def is_in_error(how: str) -> bool:
    """Whether it ended since the sign found the row in error: then it can be asked why."""
    found = failed(how)
    return found is not None and found[0] == _VALID and _IN_ERROR.match(found[1]) is not None


def cause(how: str, to: str) -> str:
    """What may be the cause, where the words of the end say too little."""
    found = failed(how)
    if found is None:
        return ""
    if found[1] == "no reply":
        return _NO_REPLY.format(to=to)
    return _ANOTHER if found[0] <= _WRITTEN and _GENERAL.match(found[1]) else ""


def explained(how: str, to: str, said: str = "") -> str:
    """The step by its name, and what the sign said or what may be the cause; nothing of a job that did not fail."""
    found = failed(how)
    if found is None:
        return ""
    more = said or cause(how, to)
    return f"step {found[0]} ({STEPS[found[0] - 1]})" + (f": {more}" if more else "")


def with_step(how: str) -> str:
    """The end of a job, with the name of its step beside the number."""
    found = failed(how)
    return f"failed at step {found[0]} ({STEPS[found[0] - 1]}): {found[1]}" if found else how
