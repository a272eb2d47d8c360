"""Lines of several signs, each carried through its session, with two transactions for all.

The order is what the premises stand on (docs/CONTROL.md, "How a sign's lines are kept"): a line is inserted under its
number, and that is on the disk; it is handed over; what is new in the ledger is in the database; its datagram goes out.
"""

from typing import Callable

from wisangub.refusal import Refusal
from wisangub.room.store.lines import Line, News
from wisangub.room.store.store import Store

from .session import Session

Offer = tuple[Session, Line]
_Drop = Callable[[Session, Exception | None], None]


def carry(store: Store, worker: str, offers: list[Offer], drop: _Drop) -> None:
    """Carries the lines; a session that lost its line's number, or whose co-process failed, is dropped. Where the
    database fails, what was done is not known, and the exception leaves all of these sessions to be dropped."""
    steps = [step for session, _ in offers if (step := session.step()) is not None]
    kept = store.lines.insert([line for _, line in offers], worker, steps)
    for session, _ in [offer for offer in offers if offer[1].sign not in kept]:
        drop(session, None)
    handed = [offer for offer in offers if offer[1].sign in kept and _is_handed(*offer, drop)]
    answered = [(session, news) for session, line in handed if (news := _news_of(session, line, drop)) is not None]
    some = [news for _, news in answered if news.is_some]
    if some:
        store.lines.keep(some)
    for session, _ in answered:
        session.send()


def _is_handed(session: Session, line: Line, drop: _Drop) -> bool:
    """Hands the line over; all co-processes work at the same time."""
    try:
        session.hand(line)
        return True
    except (Refusal, OSError) as fault:
        drop(session, fault)
        return False


def _news_of(session: Session, line: Line, drop: _Drop) -> News | None:
    """What came of the line."""
    try:
        return session.answered(line)
    except (Refusal, OSError, ValueError) as fault:
        drop(session, fault)
        return None
