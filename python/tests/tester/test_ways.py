"""Time and loss: what is asked again, which reply is whose, what an unanswered SET did, and when a request waits."""

from dataclasses import dataclass, field, replace
from typing import Sequence

from model import text
from model.sign import Sign
from trials.wrong_signs import bench
from trials.wrong_signs.load import sign_of
from trials.wrong_signs.table import MUTANTS
from wisangub.snmp import wire
from wisangub.snmp.names import Memory, RowStatus, scalar
from wisangub.tester.chapters import ALL, Block, Chapter
from wisangub.tester.findings.results import ChapterResult, Verdict
from wisangub.tester.requests.objects import Column, Row, integer, octets
from wisangub.tester.requests.steps import Ask, Step, get, get_next, put
from wisangub.tester.runs.runner import Run, Runner
from wisangub.tester.session import Session
from wisangub.tester.sign.clock import SimulatedClock
from wisangub.tester.sign.pair import Inconclusive
from wisangub.tester.sign.port import Port
from wisangub.tester.sign.simulated import SimulatedLink

HEIGHT, TIME = scalar("vmsSignHeightPixels"), scalar("defaultPageOnTime")
ROW = Row(Memory.CHANGEABLE, 1)
WRITER = (b"public", b"admin")


@dataclass
class Silent:
    """A link on which nothing comes but what is laid there."""

    clock: SimulatedClock
    replies: list[bytes] = field(default_factory=list)
    sent: list[bytes] = field(default_factory=list)

    def send(self, sent: bytes) -> None:
        self.sent.append(sent)

    def receive(self, until: float) -> bytes | None:
        if self.replies:
            return self.replies.pop(0)
        self.clock.sleep_until(until)
        return None

    def close(self) -> None:
        ...


@dataclass
class Losing:
    """A simulated link that loses the next request, or the reply to it."""

    link: SimulatedLink
    is_request_lost: bool = False
    is_reply_lost: bool = False
    sent: list[bytes] = field(default_factory=list)

    def send(self, sent: bytes) -> None:
        self.sent.append(sent)
        if self.is_request_lost:
            self.is_request_lost = False
            return
        waiting = len(self.link.waiting)
        self.link.send(sent)
        if self.is_reply_lost:
            self.is_reply_lost = False
            del self.link.waiting[waiting:]

    def receive(self, until: float) -> bytes | None:
        return self.link.receive(until)

    def close(self) -> None:
        self.link.close()


def begun() -> tuple[Session, Losing]:
    session = bench.session(text.BENCH, Sign(text.bench()))
    assert isinstance(session.pair.port.link, SimulatedLink)
    losing = Losing(session.pair.port.link)
    session.pair.port.link = losing
    assert session.preflight.begin() and not session.results.before
    return session, losing


def test_only_reads_are_asked_again() -> None:
    clock = SimulatedClock()
    link = Silent(clock)
    port = Port(link, clock)
    asked = get(HEIGHT).octets(port.new_number(), WRITER)
    assert port.ask(asked, port.number).reply is None and link.sent == [asked] * 3 and clock.now() == 3
    session, losing = begun()
    losing.is_reply_lost = True
    losing.sent.clear()
    exchange = session.pair.do(put((TIME, integer(9))))
    assert exchange is not None and exchange.is_lost and losing.sent.count(exchange.octets) == 1
    others = [wire.read(octets) for octets in losing.sent if octets != exchange.octets]
    kinds = {message.kind for message in others}
    assert kinds == {wire.GET}  # of what it may have changed


def test_a_late_reply_is_passed_over_by_number_and_octets() -> None:
    clock = SimulatedClock()
    link = Silent(clock)
    port = Port(link, clock)

    def reply(number: int, name: tuple[int, ...], value: int) -> bytes:
        return wire.written(wire.Message(wire.RESPONSE, b"admin", number, 0, 0, [(name, integer(value))]))

    first, second = get(HEIGHT).octets(7, WRITER), get(TIME).octets(7, WRITER)
    assert port.ask_once(first, 7).reply is None
    link.replies = [reply(7, HEIGHT, 14), reply(7, TIME, 30), reply(7, TIME, 30)]
    assert port.ask_once(second, 7).reply == reply(7, TIME, 30) and port.passed_over == 1
    third = get(HEIGHT).octets(port.new_number(), WRITER)
    link.replies += [reply(port.number, HEIGHT, 15)]
    assert port.ask_once(third, port.number).reply == reply(port.number, HEIGHT, 15) and port.passed_over == 2


def test_what_an_unanswered_set_did_is_read() -> None:
    sets = [
        put((TIME, integer(9))),
        put(ROW.status(RowStatus.MODIFY_REQ)),
        put(ROW.text(b"A"), ROW.priority(7)),
        put((scalar("dmsActivateMessage"), octets(bytes(12)))),
    ]
    for is_request_lost in (True, False):
        session, losing = begun()
        for ask in sets:
            losing.is_request_lost, losing.is_reply_lost = is_request_lost, not is_request_lost
            exchange = session.pair.do(ask)
            assert exchange is not None and exchange.is_lost, ask
            same = session.pair.do(
                get(TIME, ROW.cell(Column.TEXT), ROW.cell(Column.STATUS), scalar("dmsActivateMsgError"))
            )
            assert same is not None and same.mismatch is None, ask
            held = session.reset.read([TIME])[TIME]
            assert held == integer(30 if is_request_lost else 9)


def test_a_request_waits_where_a_tick_is_near() -> None:
    session, _ = begun()
    pair = session.pair
    due = pair.ticks.upcoming()
    pair.clock.sleep_until(due - 0.01)
    exchange = pair.do(get(HEIGHT))
    assert exchange is not None and exchange.mismatch is None and due < pair.clock.now() < due + 0.1
    assert pair.log.count(None) >= 1


def test_a_row_settles_at_both_in_the_same_tick() -> None:
    session, _ = begun()
    for ask in (
        put(ROW.status(RowStatus.MODIFY_REQ)),
        put(ROW.status(RowStatus.VALIDATE_REQ)),
        get(ROW.cell(Column.STATUS)),
    ):
        exchange = session.pair.do(ask)
        assert exchange is not None and exchange.mismatch is None
    session.pair.clock.sleep_until(session.pair.ticks.upcoming() + 0.001)
    exchange = session.pair.do(get(ROW.cell(Column.STATUS)))
    reply = wire.spelled(exchange.theirs or b"") if exchange is not None else None
    assert reply is not None and reply.bindings[0][1] == integer(4)


def test_a_lossy_way_shows_no_difference_where_no_answer_comes() -> None:
    for seed in (11, 12):
        session = bench.session(text.BENCH, seed=seed, faulty=0.3, requests=150)
        results = bench.run(session, ["random"])
        assert results.is_clean(), [difference.title for difference in results.differences()]


def test_requests_that_are_lost_late_and_doubled_show_no_difference() -> None:
    session = bench.session(text.BENCH, seed=3, faulty=0.05, requests=100, both_ways=True)
    session.results.lossy = 30.0
    results = bench.run(session, ["set", "random"])
    assert results.verdict() is Verdict.CONFORMS, (results.unjudged(), [held.title for held in results.once()])
    assert session.pair.port.way.late and session.pair.port.way.doubled


def test_where_one_in_five_is_lost_late_or_doubled_a_difference_has_to_be_sure() -> None:
    session = bench.session(text.BENCH, seed=1, faulty=0.2, requests=0, both_ways=True)
    session.results.lossy = 40.0
    results = bench.run(session, ["durations"])
    assert results.verdict() is Verdict.CONFORMS, (results.unjudged(), [held.title for held in results.differences()])
    assert session.pair.port.way.slowest < 6 and session.pair.clock.now() < 600


def test_a_wrong_sign_is_found_where_requests_are_lost() -> None:
    wrong = sign_of([mutant for mutant in MUTANTS if mutant.name == "no_minutes_are_refused"], text.BENCH)
    session = bench.session(text.BENCH, wrong, seed=2, faulty=0.1, requests=0, both_ways=True, most_differences=1)
    results = bench.run(session, ["durations"])
    assert [held.rule.chapter for held in results.differences()] == ["durations"] and not results.stopped


def test_a_late_request_to_any_row_is_seen_on_the_way_back() -> None:
    session, losing = begun()
    session.pair.port.passed_over = 1
    for ask in (put(ROW.status(RowStatus.MODIFY_REQ)), put(ROW.priority(9))):
        losing.link.send(ask.octets(session.pair.port.new_number(), WRITER))  # neither ours nor the pair knows of it
    losing.link.waiting.clear()
    assert not session.pair.touched
    session.pair.is_dirty = True
    assert session.reset.reach() == []
    status = session.reset.read([ROW.cell(Column.STATUS)])
    assert status == {ROW.cell(Column.STATUS): integer(1)}


@dataclass
class Haunted(Losing):
    """Up to a moment a request that was sent long ago comes once more before each."""

    late: bytes = b""
    until: float = 0.0

    def send(self, sent: bytes) -> None:
        if self.link.clock.now() < self.until:
            waiting = len(self.link.waiting)
            self.link.send(self.late)
            del self.link.waiting[waiting:]
        super().send(sent)


def test_late_requests_that_undo_the_way_back_are_no_difference() -> None:
    session, losing = begun()
    late = put(ROW.status(RowStatus.MODIFY_REQ)).octets(session.pair.port.new_number(), WRITER)
    haunted = Haunted(losing.link, late=late, until=session.pair.clock.now() + 0.9)
    session.pair.port.link, session.pair.port.passed_over = haunted, 1
    session.pair.is_dirty = True
    unreached = session.reset.bring(False)
    assert [held.name for held in unreached][:1] == [ROW.cell(Column.STATUS)]
    assert session.pair.clock.now() < haunted.until and session.reset.reach() == []


def answered(session: Session, *asks: Ask) -> None:
    """Requests whose replies come, on a way that lost some before: what is like them is known to be answered."""
    session.pair.port.passed_over = 1
    run = session.runner.steps(asks)
    assert run is None and session.pair.answered


def test_a_set_that_is_known_to_be_lost_is_sent_again() -> None:
    session, losing = begun()
    answered(session, put((TIME, integer(8))))
    losing.is_request_lost = True
    exchange = session.pair.do(put((TIME, integer(9))))
    assert exchange is not None and exchange.mismatch is None and exchange.theirs is not None
    assert losing.sent.count(exchange.octets) == 2 and session.reset.read([TIME])[TIME] == integer(9)


def test_a_set_that_is_seen_to_be_taken_is_not_waited_for() -> None:
    session, losing = begun()
    answered(session, put((TIME, integer(8))))
    at, losing.is_reply_lost = session.pair.clock.now(), True
    exchange = session.pair.do(put((TIME, integer(9))))
    assert exchange is not None and exchange.is_lost and losing.sent.count(exchange.octets) == 1
    assert session.pair.clock.now() - at < 0.2
    same = session.pair.do(get(TIME))
    assert same is not None and same.mismatch is None
    losing.is_reply_lost = True  # of a kind that none was answered of its reply is waited for
    exchange = session.pair.do(put(ROW.status(RowStatus.MODIFY_REQ)))
    assert exchange is not None and exchange.is_lost and session.pair.clock.now() - at > 1


def test_a_set_that_is_refused_is_asked_again_as_a_read_is() -> None:
    session, losing = begun()
    answered(session, put((TIME, integer(8))))
    losing.is_request_lost = True
    at = session.pair.clock.now()
    exchange = session.pair.do(put((TIME, integer(256))))
    assert exchange is not None and exchange.theirs is not None and exchange.mismatch is None
    assert losing.sent.count(exchange.octets) == 2 and session.pair.clock.now() - at < 0.2


def of_minutes(session: Session, priority: int) -> Ask:
    """An activation of blank message 200, whose priority that is, for half an hour."""
    return put((scalar("dmsActivateMessage"), octets(session.context.blank_code(200, priority, 30))))


def test_a_command_of_minutes_whose_reply_is_lost_is_sent_again() -> None:
    session, losing = begun()
    session.pair.port.passed_over, losing.is_reply_lost = 1, True
    exchange = session.pair.do(of_minutes(session, 255))
    assert exchange is not None and exchange.theirs is not None and exchange.mismatch is None
    assert losing.sent.count(exchange.octets) == 2  # the seconds of both count from the second one
    for seconds in (0, 1, 59):
        session.pair.clock.sleep_until(session.pair.clock.now() + seconds)
        same = session.pair.do(get(scalar("dmsMessageTimeRemaining"), scalar("dmsMsgTableSource")))
        assert same is not None and same.mismatch is None


def test_a_command_that_would_be_refused_once_more_ends_the_sequence() -> None:
    session, losing = begun()
    session.pair.port.passed_over, losing.is_reply_lost = 1, True
    try:
        session.pair.do(of_minutes(session, 9))
    except Inconclusive as why:
        assert "answered otherwise" in str(why)
    else:
        raise AssertionError("it is sent again")


def test_a_set_that_came_twice_comes_twice_to_ours_too() -> None:
    session, losing = begun()
    answered(session, put((TIME, integer(8))), put((TIME, integer(9))))
    twice = put((TIME, integer(8))).octets(session.pair.port.number - 1, WRITER)
    assert twice in losing.sent
    losing.link.send(twice)  # ours does not know of it
    session.pair.clock.sleep_until(session.pair.clock.now() + 0.01)
    assert session.runner.steps([get(TIME)]) is None and session.reset.read([TIME])[TIME] == integer(8)


def test_a_set_of_before_the_known_state_that_came_late_ends_the_sequence() -> None:
    session, losing = begun()
    answered(session, put((TIME, integer(8))))
    late = put((TIME, integer(8))).octets(session.pair.port.number, WRITER)
    session.pair.is_dirty = True
    assert session.reset.reach() == []
    losing.link.send(late)
    session.pair.clock.sleep_until(session.pair.clock.now() + 0.01)
    try:
        session.runner.steps([get(HEIGHT)])
    except Inconclusive as why:
        assert "late or twice" in str(why)
    else:
        raise AssertionError("the sequence goes on")


def test_a_request_counts_once_for_each_time_that_it_was_sent() -> None:
    clock = SimulatedClock()
    link = Silent(clock)
    port = Port(link, clock)
    octets_of = get(HEIGHT).octets(7, WRITER)
    reply = wire.written(wire.Message(wire.RESPONSE, b"admin", 7, 0, 0, [(HEIGHT, integer(14))]))
    assert port.ask_once(octets_of, 7, wait=0.1).reply is None and port.way.percent() == 100
    link.replies = [reply]
    assert port.ask_once(octets_of, 7, is_again=True).reply == reply and port.way.percent() == 50
    link.replies = [reply]
    port.listen(0)
    assert port.way.percent() == 0 and not port.way.late  # the first had its reply within the second that is waited
    link.replies = [reply, reply]
    port.listen(0)
    assert port.way.percent() == 100 and port.way.doubled == 2
    link.replies = [reply]
    port.listen(0)
    assert port.way.percent() == 100 and port.way.doubled == 3


def test_a_look_is_none_of_the_requests_of_which_a_share_may_be_lost_or_doubled() -> None:
    clock = SimulatedClock()
    link = Silent(clock)
    port = Port(link, clock)
    number = port.new_number()
    asked = get(HEIGHT).octets(number, WRITER)
    reply = wire.written(wire.Message(wire.RESPONSE, b"admin", number, 0, 0, [(HEIGHT, integer(14))]))
    for is_look in (True, False):
        link.replies = [reply]
        heard = port.look(asked, number) if is_look else port.ask(asked, number)
        assert heard.reply == reply
        link.replies = [reply]
        port.listen(0)
        assert port.way.asked == port.way.twice == (0 if is_look else 1)
    assert port.way.doubled == 2


def test_a_read_is_sent_again_and_again_where_nothing_has_come_for_a_second() -> None:
    for is_lossy in (False, True):
        clock = SimulatedClock()
        link = Silent(clock)
        port = Port(link, clock)
        asked = get(HEIGHT).octets(port.new_number(), WRITER)
        port.way.send(port.number, asked)
        clock.sleep_until(0.3)
        port.way.answered(port.number)  # replies take 0.3 s
        port.passed_over, begun_at = int(is_lossy), clock.now()
        assert port.ask(asked, port.number).reply is None
        took, times = clock.now() - begun_at, len(link.sent)
        assert (round(took), times) == ((8, 1 + 7 * 4) if is_lossy else (3, 3))


class Stalled(Silent):
    """A link on which who waits is woken three seconds too late."""

    def receive(self, until: float) -> bytes | None:
        return super().receive(until + 3 if not self.replies else until)


def test_while_the_tester_stands_still_the_sign_is_not_silent() -> None:
    for make, longest in ((Silent, 3.0), (Stalled, 3.0)):
        clock = SimulatedClock()
        link = make(clock)
        port = Port(link, clock)
        assert port.ask(get(HEIGHT).octets(port.new_number(), WRITER), port.number).reply is None
        assert (clock.now(), round(port.way.longest, 3)) == (12.0 if make is Stalled else 3.0, longest)
        assert port.way.silence() == longest


def test_a_set_that_is_seen_to_be_taken_begins_no_silence() -> None:
    session, losing = begun()
    answered(session, put((TIME, integer(8))))
    losing.is_reply_lost = True
    exchange = session.pair.do(put((TIME, integer(9))))
    assert exchange is not None and exchange.is_lost and session.pair.port.way.silence() == 0
    session.pair.clock.sleep_until(session.pair.clock.now() + 9)  # in which nothing is asked
    same = session.pair.do(get(TIME))
    assert same is not None and same.mismatch is None and session.pair.port.way.longest < 1


def test_a_late_reply_to_a_look_ends_a_silence() -> None:
    clock = SimulatedClock()
    link = Silent(clock)
    port = Port(link, clock)
    number = port.new_number()
    asked = get(HEIGHT).octets(number, WRITER)
    assert port.look(asked, number).reply is None and port.way.silence() == clock.now() > 0
    clock.sleep_until(0.3)
    link.replies = [wire.written(wire.Message(wire.RESPONSE, b"admin", number, 0, 0, [(HEIGHT, integer(14))]))]
    port.listen(0.2)
    assert port.way.silence() == 0 and port.way.longest == 0.3 and not port.passed_over
    port.listen(0)
    assert port.way.percent() == 0


class Brief(Runner):
    """Can tell no sequence of more than one step."""

    def anew(self, steps: Sequence[Step], after_a_tick: bool = True, is_alike: bool = False) -> Run | None:
        if len(steps) > 1:
            raise Inconclusive("it is long")
        return super().anew(steps, after_a_tick, is_alike)


def test_what_cannot_be_told_behind_what_was_done_before_is_begun_alone() -> None:
    session, _ = begun()
    session.runner = Brief(session.pair, session.reset)
    result, block = ChapterResult(ALL[0]), Block("a height", "get", [get(HEIGHT)])
    assert session.again(result, block, [get(TIME), get(HEIGHT)]) is None
    assert [held.steps for held in result.left] == [block.steps] and result.told == 0
    assert session.block(result, result.left.pop(), None) and not result.left and result.told == 1


class Unlucky(Runner):
    """Can tell none of the first six sequences."""

    def anew(self, steps: Sequence[Step], after_a_tick: bool = True, is_alike: bool = False) -> Run | None:
        self.runs += 1
        if self.runs <= 6:
            raise Inconclusive("a request came late")
        return super().anew(steps, after_a_tick, is_alike)


def test_what_could_not_be_judged_is_begun_again_more_often_on_a_way_that_loses_some() -> None:
    chapter = Chapter("get", "Get", lambda _: iter([Block("a height", "get", [get(HEIGHT)])]))
    for is_lossy in (False, True):
        session, _ = begun()
        session.runner = Unlucky(session.pair, session.reset)
        session.pair.port.passed_over = int(is_lossy)
        session.chapter(chapter)
        assert session.results.chapters[0].missing == int(not is_lossy)


@dataclass
class Echoing(Losing):
    """A link on which the first reply of two equal requests comes once more in the place of the second, one time."""

    echo: bytes = b""
    replies: dict[bytes, bytes] = field(default_factory=dict)

    def send(self, sent: bytes) -> None:
        super().send(sent)
        if sent == self.echo and sent in self.replies:
            self.link.waiting.clear()
            self.link.put(self.link.clock.now(), self.replies[sent])
            self.echo = b""

    def receive(self, until: float) -> bytes | None:
        reply = super().receive(until)
        if reply is not None:
            self.replies.setdefault(self.sent[-1], reply)
        return reply


def test_a_late_reply_to_an_equal_request_is_no_wrong_reply() -> None:
    for group in (None, 1):
        session, losing = begun()
        session.pair.begin()
        steps: list[Step] = [replace(ask, group=group) for ask in (get(TIME), put((TIME, integer(9))), get(TIME))]
        echo = get(TIME).octets(session.pair.port.number + 1, WRITER)
        session.pair.port.link = echoing = Echoing(losing.link, echo=echo)
        session.pair.port.passed_over = 1
        result, block = ChapterResult(ALL[0]), Block("one number", "repeated", steps)
        session.block(result, block, [])
        assert not result.once and not result.differences and len(result.left) == (group is not None)
        assert bool(echoing.echo) is (group is None)


def test_asks_of_a_sequence_keep_their_numbers() -> None:
    ask = Ask(wire.GET, ((HEIGHT, (wire.NULL, b"")),), group=3)
    session, _ = begun()
    numbers = [session.pair.number_of(ask) for _ in range(2)]
    session.pair.begin()
    assert numbers[0] == numbers[1] != session.pair.number_of(ask)


def test_a_number_that_is_used_again_is_not_slow() -> None:
    clock = SimulatedClock()
    link = Silent(clock)
    port = Port(link, clock)
    asked = get(HEIGHT).octets(7, WRITER)
    reply = wire.written(wire.Message(wire.RESPONSE, b"admin", 7, 0, 0, [(HEIGHT, integer(14))]))
    for _ in range(2):
        clock.sleep_until(clock.now() + 60)
        link.replies = [reply]
        assert port.ask_once(asked, 7).reply == reply
    assert port.way.slowest < 1 and not port.way.doubled


def test_a_late_reply_to_a_get_is_none_to_a_getnext_of_its_number() -> None:
    clock = SimulatedClock()
    link = Silent(clock)
    port = Port(link, clock)

    def reply(name: tuple[int, ...]) -> bytes:
        return wire.written(wire.Message(wire.RESPONSE, b"admin", 7, 0, 0, [(name, integer(30))]))

    assert port.ask_once(get(TIME).octets(7, WRITER), 7).reply is None
    after = scalar("defaultPageOffTime")
    link.replies = [reply(TIME), reply(after)]
    assert port.ask_once(get_next(TIME).octets(7, WRITER), 7).reply == reply(after)


def test_a_late_reply_is_none_to_another_get_of_its_number() -> None:
    clock = SimulatedClock()
    link = Silent(clock)
    port = Port(link, clock)
    number = port.new_number()

    def reply(name: tuple[int, ...], value: int) -> bytes:
        return wire.written(wire.Message(wire.RESPONSE, b"admin", number, 0, 0, [(name, integer(value))]))

    link.replies = [reply(HEIGHT, 14)]
    assert port.ask_once(get(HEIGHT).octets(number, WRITER), number).reply == reply(HEIGHT, 14)
    port.new_number()
    link.replies = [reply(HEIGHT, 14), reply(TIME, 30)]
    assert port.ask_once(get(TIME).octets(number, WRITER), number).reply == reply(TIME, 30)
