"""Right signs show nothing; wrong ones are found, over a simulated clock."""

from model import text
from trials.wrong_signs import bench
from trials.wrong_signs.__main__ import BENCH, description_for, tried
from trials.wrong_signs.load import edited, sign_of, unload
from trials.wrong_signs.table import FURTHER, MUTANTS
from wisangub.process.places import SIGNTOOL, TOP
from wisangub.tester.chapters import ALL
from wisangub.tester.findings.results import Verdict
from wisangub.tester.sign.judge import SignJudge
from wisangub.tester.sign.oracle import made
from wisangub.tester.soak import program as soak

from .skipping import skip

SIGNS = [TOP / "signs/roadside.sign", TOP / "signs/gantry.sign"]
FEW = (
    "integers_may_be_padded",
    "getnext_skips_blank_messages",
    "two_rows_validate",
    "a_duration_a_second_short",
    "silence_counts_dropped_datagrams",
)

# what a chapter that is not about their rule comes across first
EARLY = (
    "getnext_wants_an_instance",
    "a_loss_of_communications_after_255_minutes_at_most",
    "times_end_at_254",
    "a_short_loss_ends_at_32767",
    "the_last_changeable_row_is_not_written",
    "minutes_are_rounded_down",
    "activations_count_seconds",
    "a_second_counts_as_a_minute",
    "an_empty_message_is_shown_as_blank",
)


def test_each_wrong_sign_is_made_of_the_model() -> None:
    every = [*MUTANTS, *FURTHER]
    assert all(edited(wrong) for wrong in every)
    for wrong in {held.file: held for held in every}.values():
        sign_of([wrong], description_for(wrong, BENCH))
        unload([wrong])


def test_the_model_beside_itself_shows_nothing() -> None:
    for description in (text.BENCH, *[path.read_bytes() for path in SIGNS]):
        results = bench.run(bench.session(description, requests=200, is_slow=True))
        assert results.is_clean(), [difference.title for difference in results.differences()]


def test_lost_late_and_doubled_replies_show_nothing() -> None:
    for seed in (1, 2):
        results = bench.run(bench.session(text.BENCH, seed=seed, faulty=0.05, requests=400))
        assert results.is_clean(), [difference.title for difference in results.differences()]


def test_the_program_beside_the_model_shows_nothing() -> None:
    if not SIGNTOOL.exists():
        skip(f"no program at {SIGNTOOL}")
    for description in (text.BENCH, SIGNS[0].read_bytes()):
        oracle, judge = made(str(SIGNTOOL), description), SignJudge(str(SIGNTOOL), description)
        try:
            results = bench.run(bench.session(description, oracle=oracle, judge=judge, requests=400, is_slow=True))
        finally:
            oracle.end()
            judge.end()
        assert results.is_clean(), [difference.title for difference in results.differences()]


def test_a_soak_counts_what_it_told() -> None:
    entry = {"under_test": "model", "signtool": "model", "sign": "bench", "requests": 150, "commit": ""}
    entry |= {"both_ways": False, "whole": False}
    for faulty in (0.0, 0.3):
        held = soak.run(entry | {"seed": 5, "faulty": faulty}, text.BENCH)
        assert held["clean"] and held["cases"] == 3 and (held["not_told"] == 0 or faulty), held
        assert held["told_requests"] >= 150 or held["not_told"], held


def test_a_whole_test_conforms_where_one_datagram_in_twenty_is_lost_late_or_doubled_both_ways() -> None:
    session = bench.session(text.BENCH, seed=3, faulty=0.05, requests=0, both_ways=True)
    session.results.lossy = 30.0
    results = bench.run(session, [chapter.name for chapter in ALL if not chapter.is_slow and chapter.name != "random"])
    assert results.verdict() is Verdict.CONFORMS and session.pair.clock.now() < 12 * 60, results.unjudged()


def test_wrong_signs_are_found() -> None:
    for mutant in MUTANTS:
        if mutant.name in FEW:
            outcome = tried(mutant, BENCH, "model")
            assert outcome.is_found, outcome


def test_what_another_chapter_comes_across_is_told_by_its_own_rule() -> None:
    for mutant in MUTANTS:
        if mutant.name in EARLY:
            for is_short in (False, True):
                outcome = tried(mutant, BENCH, "model", is_short)
                assert outcome.is_found, outcome
