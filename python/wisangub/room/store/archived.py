"""Whether an archive has taken something out of the database, as its line of the audit says."""

import re
from dataclasses import dataclass, replace

from . import words
from .database import Database
from .history import AuditWanted, Entry, audited
from .search import search

_TAKEN_OUT = re.compile(r"what (.+) has is taken out: \d+ of audit, ")
_WORDS = "is taken out"


@dataclass(frozen=True)
class Archived:
    """An archive's file, and when what it has was taken out."""

    file: str
    at: float


def _number_of(entry: Entry) -> int:
    return entry[0]


def _is_one(entry: Entry) -> bool:
    return _TAKEN_OUT.match(entry[3]) is not None


def last(database: Database, since: float | None = None) -> Archived | None:
    """The last archive that took something out, where that may be of a time from `since` on."""
    wanted = AuditWanted(since=since)
    found, _ = search(
        lambda before, most: audited(database, replace(wanted, before=before, most=most)),
        _number_of,
        _is_one,
        None,
        1,
        lambda before: words.audit_slices(database, wanted, _WORDS, before),
    )
    for _, at, _, what in found:
        said = _TAKEN_OUT.match(what)
        assert said is not None
        return Archived(said[1], at)
    return None
