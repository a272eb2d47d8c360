"""The verdict on signs that misbehave, and how a test ends."""

import math
from typing import Any, Sequence
from unittest import mock

from model import text
from model.sign import Sign
from trials.wrong_signs import bench, misbehaving
from trials.wrong_signs.misbehaving import Misbehaving
from wisangub.refusal import Refusal
from wisangub.snmp.names import RowStatus, scalar
from wisangub.tester.chapters import ALL
from wisangub.tester.findings.results import ChapterResult, Quiet, Results, Verdict
from wisangub.tester.report import files, page, terminal, words
from wisangub.tester.requests.objects import Column, integer
from wisangub.tester.requests.steps import get
from wisangub.tester.runs.repeat import repeat
from wisangub.tester.session import chapters_of
from wisangub.tester.sign.way import Oddity

SHORT, LONG = ("communities", "set"), ("communities", "rows")
STRANGER = text.BENCH.replace(b"communities public admin", b"communities others strangers")
WIDER = text.BENCH.replace(b"size 23 14", b"size 24 14")


Way = dict[str, Any]  # how a sign misbehaves
ABOUT = words.About("127.0.0.1:1", "bench.sign", "model", None, 1, 0, False, "today")


def tried(only: Sequence[str] = SHORT, lossy: float = 2.0, wait: float = 1.0, **how: Any) -> Results:
    """What is found of a sign that misbehaves so."""
    patience = how.pop("patience", None)
    session = misbehaving.session(lambda clock: Misbehaving(clock, **how), wait, patience)
    session.results.lossy = lossy
    return session.run(chapters_of(only, False))


def test_a_right_sign_conforms() -> None:
    results = tried()
    assert results.verdict() is Verdict.CONFORMS and results.verdict().status == 0, results.unjudged()
    assert words.verdict(results).startswith("conforms: nothing differs in ")


def test_who_does_not_answer_is_not_reached() -> None:
    ways: list[Way] = [{"silent": (0.0, math.inf)}, {"description": STRANGER}]
    for how in ways:
        results = tried(**how)
        assert results.verdict() is Verdict.UNREACHED and results.verdict().status == 2


def test_replies_that_no_way_makes_differ() -> None:
    table = [
        (misbehaving.garbage, Oddity.GARBAGE, 1.0),
        (misbehaving.garbage, Oddity.GARBAGE, 0.02),
        (misbehaving.cut, Oddity.GARBAGE, 0.02),
        (misbehaving.padded, Oddity.GARBAGE, 0.02),
        (misbehaving.over_long, Oddity.GARBAGE, 0.02),
        (misbehaving.renumbered(0), Oddity.NUMBER, 1.0),
        (misbehaving.renumbered(None), Oddity.NUMBER, 0.05),
    ]
    for spoils, oddity, share in table:
        results = tried(("communities",), spoils=spoils, share=share)
        assert results.verdict() is Verdict.DIFFERS and results.verdict().status == 1, (spoils, share)
        assert results.way is not None and results.way.odd[oddity], (spoils, share)
        assert oddity.value in words.verdict(results)


def test_wrong_values_now_and_then_differ() -> None:
    results = tried(("communities", "get", "set"), spoils=misbehaving.other_value, share=0.01)
    assert results.verdict() is Verdict.DIFFERS and "now and then" in words.verdict(results), words.verdict(results)


def test_replies_with_other_names_are_told_in_each_report() -> None:
    for seed, share in ((5, 1.0), (5, 0.3), (7, 0.3), (10, 0.3)):
        session = misbehaving.session(lambda clock: Misbehaving(clock, spoils=misbehaving.other_name, share=share))
        assert isinstance(session.pair.port.link, Misbehaving)
        session.pair.port.link.chance.seed(seed)
        session.most_differences = None
        results = session.run(chapters_of(("communities",), False))
        assert results.verdict() is Verdict.DIFFERS and results.differences(), words.verdict(results)
        for report in (files.as_junit, lambda results, about: page.as_html(results, about, [])):
            assert "other names or another number of bindings" in report(results, ABOUT), (seed, share)
        assert terminal.ending(results, ABOUT, [])[-1] == words.verdict(results)


def test_a_reboot_that_nobody_asked_for_differs() -> None:
    ways: list[Way] = [{"reboots": 700, "most_reboots": 1}, {"reboots": 400}]
    for how in ways:
        results = tried(**how)
        assert results.verdict() is Verdict.DIFFERS, words.verdict(results)
        assert results.way is not None and results.way.reboots, words.verdict(results)


def test_each_report_says_what_was_lost_on_the_way() -> None:
    results = tried(("communities",), spoils=misbehaving.garbage, share=0.02)
    for report in (files.as_junit(results, ABOUT), files.as_json(results, ABOUT, []), page.as_html(results, ABOUT, [])):
        assert Oddity.GARBAGE.value in report and words.NOT_SLOW in report
    assert "the longest silence was" in files.as_junit(tried(("communities",), slow=1.2, wait=1.0), ABOUT)


def test_nothing_conforms_in_no_case() -> None:
    results = tried(("device",))  # what is claimed beside the profile: nothing
    assert results.verdict() is Verdict.NOT_JUDGED and results.verdict().status == 3, words.verdict(results)
    assert words.verdict(results).endswith("and no case was asked for")


def test_another_size_differs() -> None:
    results = tried(("communities",), description=WIDER)
    assert results.verdict() is Verdict.DIFFERS and results.configuration


def test_another_spacing_differs_and_it_is_said_that_fonts_cannot_be_read() -> None:
    spaced = text.BENCH.replace(b"height 7 space 1", b"height 7 space 2")
    results = tried(("validation",), description=spaced)
    assert results.verdict() is Verdict.DIFFERS and not results.configuration
    assert [words.how_sure(held) for held in results.differences() if "fonts cannot be read" in words.how_sure(held)]


def test_a_sign_that_falls_silent_is_not_judged() -> None:
    ways: list[Way] = [{}, {"patience": 8}]
    for how in ways:
        results = tried(LONG, silent=(5.0, math.inf), **how)
        assert results.verdict() is Verdict.NOT_JUDGED and results.verdict().status == 3
        assert (
            results.stopped
            and not results.is_set_back
            and any("Row" in line or "row" in line for line in results.unjudged())
        )
    results = tried(LONG, silent=(5.0, 65.0))
    assert results.verdict() is Verdict.NOT_JUDGED and results.is_set_back, results.unjudged()
    results = tried(LONG, silent=(5.0, 25.0))
    assert results.verdict() is Verdict.NOT_JUDGED and not results.stopped and "silent for 2" in words.verdict(results)


def test_a_silence_of_more_than_five_seconds_is_not_judged_whatever_may_be_lost() -> None:
    results = tried(LONG, lossy=30.0, silent=(5.0, 11.0))
    assert results.verdict() is Verdict.NOT_JUDGED and [line for line in results.unjudged() if "silent for" in line]
    results = tried(LONG, lossy=30.0, silent=(5.0, 8.0))
    assert results.verdict() is Verdict.CONFORMS, results.unjudged()


def test_replies_that_take_longer_than_is_waited_for_end_the_test() -> None:
    results = tried(slow=1.2)
    assert results.verdict() is Verdict.NOT_JUDGED and "--wait is 1" in results.stopped
    assert tried(("communities",), wait=2.0, slow=1.2).verdict() is Verdict.NOT_JUDGED  # seconds cannot be learnt


def test_two_replies_to_each_are_too_many() -> None:
    results = tried(times=2)
    assert results.verdict() is Verdict.NOT_JUDGED and "--lossy 2" in words.verdict(results), words.verdict(results)
    results = tried(times=2, lossy=100.0)
    assert results.verdict() is Verdict.CONFORMS, results.unjudged()


def test_what_was_not_asked_for_is_not_judged() -> None:
    assert tried(("silence",)).verdict() is Verdict.NOT_JUDGED
    session = misbehaving.session(Misbehaving)
    session.context.requests = 0
    assert session.run(chapters_of(("random",), False)).verdict() is Verdict.NOT_JUDGED
    assert [chapter.name for chapter in chapters_of((), True)] == [chapter.name for chapter in ALL]
    assert "silence" not in [chapter.name for chapter in chapters_of((), False)]


def test_a_budget_ends_the_test_and_the_sign_is_put_back() -> None:
    session = misbehaving.session(Misbehaving)
    session.pair.port.way.deadline = 12.0
    results = session.run(chapters_of(("rows", "validation"), False))
    assert results.verdict() is Verdict.NOT_JUDGED and "--budget" in results.stopped and results.is_set_back


def test_a_repeated_sequence_leaves_the_sign_s_own_defaults() -> None:
    sign = Sign(text.bench())
    sign.state.defaults[7] = 99
    assert repeat(bench.session(text.BENCH, sign), "tick") == 0 and sign.state.defaults[7] == 99


def test_a_repeated_sequence_is_not_judged_where_the_sign_falls_silent() -> None:
    ask = get(scalar("dmsColorScheme")).octets(70000, (b"public", b"admin")).hex()
    for sequence in (",".join(["tick"] * 3), f"tick,tick,tick,{ask}"):
        for patience in (None, 6):
            session = misbehaving.session(lambda clock: Misbehaving(clock, silent=(2.0, math.inf)), patience=patience)
            assert repeat(session, sequence) == Verdict.NOT_JUDGED.status
            assert session.pair.clock.now() < 90 and not session.results.is_set_back
    session = misbehaving.session(lambda clock: Misbehaving(clock, silent=(0.0, math.inf)))
    assert repeat(session, "tick") == Verdict.UNREACHED.status


class Interrupting(Quiet):
    """An interrupt after the fourth case."""

    def went_on(self, result: ChapterResult, at: int) -> None:
        if at == 3:
            raise KeyboardInterrupt


class Failing(Quiet):
    """A fault after the fourth case, as where the program that is the oracle ends."""

    def went_on(self, result: ChapterResult, at: int) -> None:
        if at == 3:
            raise Refusal("the program has ended")


def test_a_fault_puts_the_sign_back() -> None:
    sign = Sign(text.bench())
    sign.state.defaults[7] = 99
    session = bench.session(text.BENCH, sign, requests=0, watcher=Failing())
    try:
        session.run(chapters_of(SHORT, False))
    except Refusal:
        assert session.results.is_set_back and sign.state.defaults[7] == 99
    else:
        raise AssertionError


def test_an_interrupt_puts_the_sign_back() -> None:
    session = misbehaving.session(Misbehaving, watcher=Interrupting())
    results = session.run(chapters_of(SHORT, False))
    assert results.verdict() is Verdict.NOT_JUDGED and "interrupted" in results.stopped and results.is_set_back
    assert results.chapters[0].blocks == 4 < results.chapters[0].wanted


def test_an_interrupt_while_the_sign_is_put_back_leaves_nothing() -> None:
    sign = Sign(text.bench())
    sign.state.defaults[7] = 99
    session = bench.session(text.BENCH, sign, requests=0)
    for part in ("reach", "put_back"):
        session.prepare(chapters_of(SHORT, False))
        assert session.preflight.begin(False) and sign.state.defaults[7] == 30
        ways = [KeyboardInterrupt, mock.DEFAULT]
        with mock.patch.object(session.reset, part, side_effect=ways, wraps=getattr(session.reset, part)):
            session.put_back()
        assert session.results.is_set_back and sign.state.defaults[7] == 99, part


def test_an_interrupt_while_a_tick_is_looked_for_leaves_no_row() -> None:
    """Nothing was sent since the known state, and a row is validated for the moment at which that ends."""
    for step in ("watch_asked", "watch"):
        session = bench.session(text.BENCH, Sign(text.bench()))
        session.prepare(chapters_of(SHORT, False))
        assert session.preflight.begin(False)
        session.reset.reach_or_end()
        status = session.context.rows[0].cell(Column.STATUS)
        validation = session.reset.validation
        with mock.patch.object(validation, step, side_effect=KeyboardInterrupt):
            try:
                session.reset.reach(observe=True)
            except KeyboardInterrupt:
                assert session.reset.read([status]) != {status: integer(RowStatus.NOT_USED)}, step
            else:
                raise AssertionError(step)
        session.put_back()
        assert session.reset.read([status]) == {status: integer(RowStatus.NOT_USED)}, step
        assert session.results.is_set_back, step
