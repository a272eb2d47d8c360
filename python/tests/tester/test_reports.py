"""What is told of a sign, on a terminal, as a page, as JSON and as JUnit."""

import json
import pathlib
import tempfile
import xml.etree.ElementTree as ET

from model import text
from model.changes import Change, Changes, Refused
from model.sign import Sign
from trials.wrong_signs import bench
from trials.wrong_signs.load import sign_of
from trials.wrong_signs.table import MUTANTS
from wisangub.refusal import Refusal
from wisangub.snmp import wire
from wisangub.snmp.names import scalar
from wisangub.tester.chapters import ALL
from wisangub.tester.context import Context
from wisangub.tester.findings.compare import Kind, fields
from wisangub.tester.findings.differences import Difference
from wisangub.tester.findings.results import Results, Verdict
from wisangub.tester.findings.rules import RULES
from wisangub.tester.report import files, page, terminal, words
from wisangub.tester.report.baseline import Baseline
from wisangub.tester.report.causes import cause, causes
from wisangub.tester.report.picture import pictures
from wisangub.tester.requests.objects import Name, Value, integer, octets
from wisangub.tester.session import chapters_of

ABOUT = words.About("127.0.0.1:1", "bench.sign", "model", None, 1, 0, False, "today")


def found(name: str, *only: str) -> tuple[Results, Context]:
    """What is found of a wrong sign, up to the first difference."""
    wrong = sign_of([mutant for mutant in MUTANTS if mutant.name == name], text.BENCH)
    session = bench.session(text.BENCH, wrong, requests=0, most_differences=1)
    results = bench.run(session, only)
    for difference in results.differences():
        difference.pictures = pictures(difference, session.context)
    return results, session.context


def first(name: str, *only: str) -> Difference:
    return found(name, *only)[0].differences()[0]


def test_reports_say_the_same() -> None:
    results, context = found("minutes_are_rounded_down", "durations")
    about, left_out = ABOUT, words.not_tested(context, results, ALL)
    held = json.loads(files.as_json(results, about, left_out))
    suite = ET.fromstring(files.as_junit(results, about))
    whole = page.as_html(results, about, left_out)
    shown = "\n".join(terminal.ending(results, about, left_out))
    first = held["differences"][0]
    assert first["chapter"] == "durations" and first["rule"]["own"] and first["datagrams"] <= 10 and not held["clean"]
    assert suite.get("failures") == "1" and first["rule"]["sentence"] in shown and first["command"] in shown
    assert "dmsMessageTimeRemaining" in whole and words.NOT_SEEN[0] in whole


def test_a_chapter_says_which_differences_break_rules_of_others() -> None:
    results, _ = found("no_minutes_are_refused", "rows")
    said = "1 differ (1 by rules of durations)"
    assert words.chapter_words(results.chapters[0]) == said and said in page.as_html(results, ABOUT, [])
    results, _ = found("minutes_are_rounded_down", "durations")
    assert words.chapter_words(results.chapters[0]) == "1 differ"


def test_a_difference_is_under_the_chapter_that_its_rule_has() -> None:
    table = [
        ("an_equal_priority_is_too_low", "rows", "priority"),
        ("a_copy_that_follows", "rows", "copied"),
        ("a_minute_of_silence_is_two_seconds", "durations", "silence"),
        ("memory_6_is_one", "durations", "deciding"),
        ("the_source_has_the_rows_checksum", "durations", "shown"),
        ("blank_messages_have_a_checksum_to_compare", "durations", "shown"),
    ]
    for name, chapter, key in table:
        assert first(name, chapter).rule.key == key, name


def test_a_text_that_the_two_judge_otherwise_is_drawn() -> None:
    results, _ = found("tags_in_small_letters_alone", "validation")
    whole = page.as_html(results, ABOUT, [])
    assert results.differences()[0].pictures and "fits on our sign" in whole and "<svg" in whole
    refused, _ = found("a_column_more_than_the_matrix", "validation")
    assert "our sign refuses it with code 5 at octet" in page.as_html(refused, ABOUT, [])


def test_another_spelling_and_no_answer_are_classes_of_their_own() -> None:
    spelling = first("lengths_are_written_in_the_long_form")
    assert spelling.mismatch.kind is Kind.SPELLING and spelling.rule.key == "shortest form"
    results, _ = found("a_request_of_no_names_is_dropped", "ber")
    assert results.differences()[0].mismatch.kind is Kind.NO_ANSWER
    assert 'type="no answer"' in files.as_junit(results, ABOUT)


class Stubborn(Changes):
    """The pages' time cannot be written."""

    def change(self, name: Name, value: Value, is_writer: bool) -> Change:
        if name == scalar("defaultPageOnTime"):
            raise Refused(wire.GENERAL)
        return super().change(name, value, is_writer)


def test_what_cannot_be_brought_to_the_known_state_is_told() -> None:
    sign = Sign(text.bench())
    sign.changes = Stubborn(sign.state, sign.showing, sign.objects)
    sign.state.defaults[7] = 99
    results = bench.run(bench.session(text.BENCH, sign, requests=0, most_differences=1), ["communities"])
    difference = results.before[0]
    assert difference.note == "defaultPageOnTime.0 cannot be brought to 30: it reads 99"
    assert difference.mismatch.kind is Kind.STATUS and not results.is_clean()


def test_what_was_changed_since_the_description_is_told_and_set_back() -> None:
    sign = Sign(text.bench())
    sign.state.defaults[7] = 99
    sign.state.ask(3, 1, 6)
    session = bench.session(text.BENCH, sign, requests=0)
    results = bench.run(session, ["communities"])
    assert results.set_back[0] == ("defaultPageOnTime.0", "30", "99")
    assert results.emptied == [("dmsMessageStatus.3.1", "2 (modifying)")]
    assert results.is_clean() and sign.state.defaults[7] == 99 and sign.state.rows[3][0].status == 1
    told = "\n".join(terminal.ending(results, ABOUT, []))
    assert "set: defaultPageOnTime.0 from 99 to 30, and back at the end" in told
    assert "emptied: dmsMessageStatus.3.1 was 2 (modifying)" in told
    assert json.loads(files.as_json(results, ABOUT, []))["set_back"][0]["read"] == "99"


def test_the_sign_s_own_defaults_codes_and_times_are_as_they_were_at_the_end() -> None:
    for faulty in (0.0, 0.1):
        sign = Sign(text.bench())
        session = bench.session(text.BENCH, sign, requests=0, faulty=faulty, both_ways=True)
        own = {
            scalar("defaultFont"): integer(2),
            scalar("dmsTimeCommLoss"): integer(7),
            scalar("dmsEndDurationMessage"): octets(bytes([2, 0, 1, 0x12, 0x34])),
        }
        assert session.reset.put_back(own) == []
        results = bench.run(session, ["communities"])
        assert results.is_set_back and session.reset.read(list(own)) == own
        said = words.set_back_words(results)
        assert "set: dmsTimeCommLoss.0 from 7 to 0, and back at the end" in said, said
        assert any(line.startswith("set: dmsEndDurationMessage.0 from OCTET STRING 0200011234 to") for line in said)


def test_a_sign_that_is_another_is_not_written_to() -> None:
    sign = Sign(text.described(text.BENCH.replace(b"size 23 14", b"size 24 14")))
    sign.state.defaults[7] = 99
    results = bench.session(text.BENCH, sign, requests=0).run(chapters_of(("communities",), False))
    assert results.stopped and sign.state.defaults[7] == 99


def test_another_matrix_is_told_first() -> None:
    results, _ = found("height_and_width_exchanged")
    assert [name for name, _, _ in results.configuration] == ["vmsSignHeightPixels.0", "vmsSignWidthPixels.0"]
    assert "Described otherwise" in page.as_html(results, ABOUT, [])


def test_one_line_says_what_a_rule_s_differences_are() -> None:
    results, _ = found("the_reader_writes", "communities")
    held = results.differences()[0]
    assert cause(held).startswith("takes ") and "; expected: noSuchName" in cause(held), cause(held)
    assert causes([held, held])[0] == f"communities: {cause(held)}, since: {held.rule.sentence} (2 differences)"
    shown = "\n".join(terminal.ending(results, ABOUT, []))
    assert "what differs:" in shown and cause(held) in page.as_html(results, ABOUT, []).replace("&#x27;", "'")


def test_numbers_have_their_words_and_control_octets_are_shown_as_such() -> None:
    code = scalar("dmsMultiSyntaxError")
    message = wire.Message(wire.RESPONSE, b"a\7\xe4", 7, 0, 0, [(code, (wire.INTEGER, 11))])
    assert fields(wire.written(message)) == [
        "Response of a\\x07\\xe4, request-id 7, noError, index 0",
        "dmsMultiSyntaxError.0 = 11 (tagConflict)",
    ]


def test_a_rule_is_the_standard_s_where_its_source_is_named() -> None:
    held = first("the_reader_writes", "communities")
    assert words.origin(held) == "the profile's"
    held.rule = RULES["needless octets"]
    assert words.origin(held) == "(own): this profile's choice"
    named = [rule for rule in RULES.values() if "RFC 1157" in rule.sentence and not rule.own]
    held.rule = named[0]
    assert words.origin(held).startswith("the standard's: RFC 1157")


def test_junit_has_a_case_a_difference_and_skips_what_was_not_asked_for() -> None:
    results, _ = found("the_reader_writes", "communities")
    suite = ET.fromstring(files.as_junit(results, ABOUT))
    failed = [case for case in suite.iter("testcase") if case.find("failure") is not None]
    assert len(failed) == len(results.differences()) and failed[0].get("classname") == "conform.communities"
    skipped = [case.get("name") for case in suite.iter("testcase") if case.find("skipped") is not None]
    assert "silence" in skipped and suite.get("skipped") == str(len(skipped)) and suite.get("hostname") == ABOUT.to
    assert [held.get("value") for held in suite[0].iter("property")] == [words.head(ABOUT)]


def test_junit_passes_no_chapter_that_was_judged_in_part() -> None:
    results, _ = found("minutes_are_rounded_down", "get", "durations")
    held = results.chapters[0]
    held.blocks -= 3  # as where the sign fell silent
    suite = ET.fromstring(files.as_junit(results, ABOUT))
    said = {case.get("name"): case.find("skipped") for case in suite.iter("testcase")}
    case = said[held.chapter.name]
    assert case is not None and case.get("message") == f"3 of {held.wanted} cases were not judged"
    assert suite.get("skipped") == str(sum(one is not None for one in said.values()))


def test_a_description_of_another_sign_ends_the_test_unless_it_goes_on_anyway() -> None:
    for is_anyway in (False, True):
        wider = text.BENCH.replace(b"size 23 14", b"size 24 14")
        session = bench.session(text.BENCH, Sign(text.described(wider)), requests=0)
        session.is_anyway = is_anyway
        results = bench.run(session, ["communities"])
        assert results.verdict() is Verdict.DIFFERS and bool(results.stopped) is not is_anyway
        assert bool(results.chapters) is is_anyway and session.reset.is_begun is is_anyway


def test_an_earlier_report_says_what_is_new_and_what_is_gone() -> None:
    with tempfile.TemporaryDirectory() as folder:
        path = pathlib.Path(folder) / "report.json"
        results, _ = found("the_reader_writes", "communities")
        path.write_text(files.as_json(results, ABOUT, []), encoding="utf-8")
        before = Baseline.read(path)
        assert before.lines(results) == ["as on today (differs)"]
        gone = before.lines(Results())
        assert gone == ["as on today (differs), but for:", f"  gone: {cause(results.differences()[0])}"]
        for words_of in ("", "[]", "{}", "[" * 100_000):
            path.write_text(words_of, encoding="utf-8")
            try:
                Baseline.read(path)
            except Refusal as refused:
                assert "is no report" in str(refused)
            else:
                raise AssertionError(words_of)
