"""When the sign's ticks are learnt, over a way that loses replies, and what does not come again."""

import random
from typing import Callable

from model import text
from model.objects import Objects
from model.sign import Sign
from trials.wrong_signs import bench
from wisangub.snmp import wire
from wisangub.snmp.names import Memory, RowStatus, scalar
from wisangub.tester.chapters import ALL
from wisangub.tester.chapters.block import Block
from wisangub.tester.findings.results import ChapterResult
from wisangub.tester.report import terminal, words
from wisangub.tester.requests.messages import spelled
from wisangub.tester.requests.objects import Column, Row, integer
from wisangub.tester.requests.steps import Step, Wait, get, put
from wisangub.tester.session import Session
from wisangub.tester.sign.clock import SimulatedClock
from wisangub.tester.sign.simulated import SimulatedLink
from wisangub.tester.state.validation_ticks import LONGEST

ROW, TIME = Row(Memory.CHANGEABLE, 1), scalar("defaultPageOnTime")
LOOK = get(ROW.cell(Column.STATUS))
Loses = Callable[[bytes], bool]


class Choosy(SimulatedLink):
    """A simulated link that loses the replies to some requests, or brings them late."""

    def __init__(self, clock: SimulatedClock, loses: Loses, late: float | None = None) -> None:
        super().__init__(Sign(text.bench()), clock, random.Random(3))
        self.loses, self.late, self.lost = loses, late, 0

    def send(self, octets: bytes) -> None:
        waiting = len(self.waiting)
        super().send(octets)
        if self.loses(octets) and len(self.waiting) > waiting:
            held = max(self.waiting, key=lambda entry: entry[1])
            self.waiting.remove(held)
            self.lost += 1
            if self.late is not None:
                self.put(held[0] + self.late, held[2])


def over(loses: Loses, late: float | None = None) -> tuple[Session, Choosy]:
    session = bench.session(text.BENCH)
    assert isinstance(session.pair.port.link, SimulatedLink) and isinstance(session.pair.clock, SimulatedClock)
    session.pair.port.link.close()
    link = Choosy(session.pair.clock, loses, late)
    session.pair.port.link = link
    return session, link


def is_asked(octets: bytes, status: int) -> bool:
    """Whether a row is asked for this status."""
    message = spelled(octets)
    return message is not None and message.kind == wire.SET and ROW.status(status) in message.bindings


def is_look(octets: bytes) -> bool:
    """Whether it is a look at the row."""
    message = spelled(octets)
    return message is not None and (message.kind, message.bindings) == (wire.GET, list(LOOK.bindings))


def is_near(session: Session, link: Choosy) -> bool:
    """Whether the next tick is known to the margin that is kept."""
    ticks = session.pair.ticks
    away = (ticks.upcoming() - link.next_tick + 0.5) % 1.0 - 0.5
    return ticks.is_learnt() and abs(away) < ticks.margin


def test_a_lost_reply_is_no_sign_that_rows_settle_at_once() -> None:
    left = [1]
    session, link = over(lambda octets: is_asked(octets, 7) and left.pop() == 1 if left else False)
    assert session.preflight.begin() and link.lost == 1 and is_near(session, link)
    for ask in (
        put(ROW.status(RowStatus.MODIFY_REQ)),
        put(ROW.status(RowStatus.VALIDATE_REQ)),
        get(ROW.cell(Column.STATUS)),
    ):
        exchange = session.pair.do(ask)
        assert exchange is not None and exchange.mismatch is None
    session.pair.clock.sleep_until(session.pair.clock.now() + 1.2)
    exchange = session.pair.do(get(ROW.cell(Column.STATUS)))
    assert exchange is not None and exchange.mismatch is None


def test_ticks_are_learnt_where_looks_are_lost_or_late() -> None:
    for late in (None, 0.06, 0.3):
        chance = random.Random(7)
        session, link = over(lambda octets: spelled(octets) is not None and chance.random() < 0.2, late)
        assert session.preflight.begin() and link.lost > 10 and is_near(session, link), late


def test_a_late_look_is_no_bracket_of_a_tick() -> None:
    """Each look at a row is late: no tick is learnt, and what hangs on seconds is not told."""
    session, link = over(is_look, 0.06)
    begun = session.pair.clock.now()
    assert session.preflight.begin() and link.lost > 10 and not session.pair.ticks.is_learnt()
    assert session.reset.is_unlearnt() and session.pair.clock.now() - begun < 20 * LONGEST
    assert session.pair.port.passed_over == 0


def test_ticks_that_were_missed_by_chance_are_looked_for_once_more() -> None:
    is_bad = [True]
    session, _ = over(lambda octets: is_bad[0] and is_look(octets), 0.06)
    assert session.preflight.begin()
    while session.reset.validation.is_to_be_learnt():
        session.reset.reach(observe=True)
    assert session.reset.is_unlearnt()
    is_bad[0], session.pair.port.passed_over = False, 1
    session.chapter(next(chapter for chapter in ALL if chapter.name == "priorities"))
    assert not session.reset.is_unlearnt() and session.results.chapters[0].missing == 0


class Slipping(Objects):
    """Those of a sign that answers one read of its pages' time wrongly."""

    left = 1

    def value(self, name: wire.Name) -> wire.Tagged | None:
        if name == TIME and self.state.defaults[7] == 9 and self.left:
            self.left -= 1
            return integer(10)
        return super().value(name)


def test_what_does_not_come_again_is_counted_and_is_no_difference() -> None:
    sign = Sign(text.bench())
    sign.objects = slipping = Slipping(sign.state)
    session = bench.session(text.BENCH, sign)
    assert session.preflight.begin()
    session.pair.clock.sleep_until(session.pair.ticks.upcoming() + 0.5)
    result = ChapterResult(ALL[0])
    session.results.chapters.append(result)
    steps = [put((TIME, integer(9))), get(TIME)]
    assert session.block(result, Block("a slip", "set", steps, True), None) is None
    assert slipping.left == 0 and session.results.is_clean() and len(result.once) == 1
    about = words.About("127.0.0.1:1", "bench.sign", "model", None, 1, 0, False, "today")
    told = "\n".join(terminal.ending(session.results, about, []))
    assert (
        "differs: no difference that comes again; 1 wrong replies now and then" in told
        and "defaultPageOnTime.0" in told
    )


def test_lost_replies_leave_few_sequences_untold() -> None:
    for seed in (2, 6):
        results = bench.run(bench.session(text.BENCH, seed=seed, faulty=0.05, requests=900), ["random"])
        held = results.chapters[0]
        assert results.is_clean() and held.untold * 5 <= held.blocks, (seed, held.untold, held.blocks)


class Held(Choosy):
    """A link on which a row is asked to validate just before a tick, and the sign takes it after that."""

    left = 1

    def send(self, octets: bytes) -> None:
        if self.left and is_asked(octets, 7) and self.clock.now() > self.next_tick - 0.2:
            self.left -= 1
            self.clock.sleep_until(self.next_tick + 0.01)
        super().send(octets)


def test_a_validation_that_the_sign_took_after_a_tick_is_no_difference() -> None:
    session = bench.session(text.BENCH)
    assert isinstance(session.pair.port.link, SimulatedLink) and isinstance(session.pair.clock, SimulatedClock)
    session.pair.port.link.close()
    link = Held(session.pair.clock, lambda _: False)
    session.pair.port.link = link
    assert session.preflight.begin()
    result = ChapterResult(ALL[0])
    session.results.chapters.append(result)
    steps: list[Step] = [
        put(ROW.status(RowStatus.MODIFY_REQ)),
        put(ROW.status(RowStatus.VALIDATE_REQ)),
        get(scalar("dmsNumChangeableMsg")),
        Wait(1),
    ]
    steps.append(get(scalar("dmsNumChangeableMsg"), ROW.cell(Column.STATUS)))
    session.reset.reach_or_end()
    session.pair.clock.sleep_until(session.pair.ticks.upcoming() - 0.1)
    session.block(result, Block("a validation at a tick", "settled", steps), [])
    assert link.left == 0 and session.results.is_clean() and not result.once and not result.untold
