"""Load and endurance: rates that a sign holds, and random requests for hours, by the same judge."""

import json

from model import text
from model.sign import Sign
from trials.wrong_signs import bench, misbehaving
from trials.wrong_signs.load import sign_of
from trials.wrong_signs.misbehaving import Misbehaving
from trials.wrong_signs.table import MUTANTS
from wisangub.tester.findings.results import Verdict
from wisangub.tester.report import files, page, terminal, words
from wisangub.tester.runs.load import FOUND_IN, rates
from wisangub.tester.sign.simulated import SimulatedLink
from wisangub.tester.sign.way import Oddity

ABOUT = words.About("127.0.0.1:1", "bench.sign", "model", None, 1, 0, False, "today")


def test_rates_grow_up_to_the_one_that_is_asked_for() -> None:
    assert rates(10) == [10] and rates(300) == [10, 20, 50, 100, 200, 300] and rates(7) == [7]


def test_a_sign_holds_what_it_answers_in_time() -> None:
    session = bench.session(text.BENCH, Sign(text.bench()), requests=0)
    session.rate = 200
    results = bench.run(session, ["communities"])
    assert results.verdict() is Verdict.CONFORMS and results.load is not None
    held = results.load.held()
    assert held is not None and held.asked == 200 and held.answered == held.sent == 600 and held.longest < 0.01
    told = "\n".join(terminal.ending(results, ABOUT, []))
    assert "held: 200 requests a second: 600 of 600 answered rightly" in told
    assert "held: 200" in page.as_html(results, ABOUT, [])
    assert json.loads(files.as_json(results, ABOUT, []))["load"][-1]["asked"] == 200


class Busy(SimulatedLink):
    """A sign that drops a request that comes within 15 ms of the one before it."""

    last = -1.0

    def send(self, octets: bytes) -> None:
        before, self.last = self.last, self.clock.now()
        if not before < self.clock.now() < before + 0.015:
            super().send(octets)


def test_a_rate_is_not_held_where_replies_are_missing() -> None:
    session = bench.session(text.BENCH, requests=0)
    port = session.pair.port
    session.preflight.begin()
    assert isinstance(port.link, SimulatedLink)
    port.link.__class__ = Busy
    session.results.load = None
    session.load(500)
    load = session.results.load
    assert load is not None and [rate.asked for rate in load.done] == [10, 20, 50, 100]
    held = load.held()
    assert held is not None and held.asked == 50 and load.done[-1].answered < load.done[-1].sent
    assert not load.once


def test_a_wrong_value_under_load_differs() -> None:
    session = misbehaving.session(lambda clock: Misbehaving(clock, spoils=misbehaving.other_value, share=0.0))
    session.most_differences = None
    assert session.preflight.begin()
    link = session.pair.port.link
    assert isinstance(link, Misbehaving)
    link.share = 0.05
    session.load(50)
    load, found = session.results.load, session.results.once_before
    assert load is not None and load.done[-1].wrong and found[0].found_in == FOUND_IN
    assert session.results.verdict() is Verdict.DIFFERS and "requests a second" in found[0].note


def test_garbage_under_load_differs() -> None:
    for spoils, oddity in ((misbehaving.garbage, Oddity.GARBAGE), (misbehaving.renumbered(0), Oddity.NUMBER)):
        session = misbehaving.session(lambda clock: Misbehaving(clock, spoils=spoils, share=0.0))
        assert session.preflight.begin()
        link = session.pair.port.link
        assert isinstance(link, Misbehaving)
        link.share = 0.01
        session.results.way = session.pair.port.way
        session.load(50)
        assert session.results.way.odd[oddity] and session.results.verdict() is Verdict.DIFFERS, oddity


def test_endurance_goes_on_with_other_random_requests_and_finds_what_differs() -> None:
    session = bench.session(text.BENCH, requests=0)
    session.hours = 0.01
    results = bench.run(session, ["communities"])
    held = results.chapters[-1]
    assert held.chapter.name == "endurance" and held.blocks >= 2 and 36 <= held.seconds < 120
    assert results.verdict() is Verdict.CONFORMS, results.unjudged()
    wrong = sign_of([mutant for mutant in MUTANTS if mutant.name == "minutes_are_rounded_down"], text.BENCH)
    session = bench.session(text.BENCH, wrong, requests=0, most_differences=1)
    session.hours = 0.2
    results = bench.run(session, ["communities"])
    assert results.verdict() is Verdict.DIFFERS and results.chapters[-1].differences
