"""A test that ended before its last case is taken up by the report that it wrote."""

import json
import pathlib
import tempfile
from dataclasses import replace

from model import text
from model.sign import Sign
from trials.wrong_signs import bench
from trials.wrong_signs.load import sign_of
from trials.wrong_signs.table import MUTANTS
from wisangub.refusal import Refusal
from wisangub.snmp.names import scalar
from wisangub.tester.chapters import Chapter
from wisangub.tester.findings.results import ChapterResult, Quiet, Results, Verdict
from wisangub.tester.person.answers import Answer, Answered
from wisangub.tester.report import files, terminal, words
from wisangub.tester.report.earlier import Earlier
from wisangub.tester.session import Session, chapters_of
from wisangub.tester.sign.simulated import SomeSign
from wisangub.tester.sign.way import Oddity

ABOUT = words.About("127.0.0.1:1", "bench.sign", "model", None, 1, 0, False, "today", digest="1f")
COMMUNITIES = (b"public", b"admin")
CHAPTERS = ("communities", "set", "priorities")


class Interrupting(Quiet):
    """An interrupt in the second chapter; it keeps which chapters were begun."""

    def __init__(self, is_interrupting: bool = True) -> None:
        self.is_interrupting = is_interrupting
        self.names: list[str] = []

    def begun(self, chapter: Chapter, blocks: int) -> None:
        self.names.append(chapter.name)

    def went_on(self, result: ChapterResult, at: int) -> None:
        if self.is_interrupting and result.chapter.name == "set" and at == 3:
            raise KeyboardInterrupt


def session(sign: SomeSign, watcher: Interrupting) -> Session:
    return bench.session(text.BENCH, sign, requests=0, watcher=watcher)


def interrupted(sign: SomeSign, path: pathlib.Path) -> Results:
    """A test that is interrupted in its second chapter; its report is in the file."""
    made = session(sign, Interrupting())
    made.pair.port.way.note(Oddity.GARBAGE, b"\x30")
    results = made.run(chapters_of(CHAPTERS, False))
    path.write_text(files.as_json(results, ABOUT, []), encoding="utf-8")
    return results


def wrong(name: str = "the_reader_writes") -> SomeSign:
    return sign_of([mutant for mutant in MUTANTS if mutant.name == name], text.BENCH)


def test_what_was_judged_stands_and_the_rest_is_asked() -> None:
    with tempfile.TemporaryDirectory() as folder:
        path = pathlib.Path(folder) / "report.json"
        before, watcher = interrupted(wrong(), path), Interrupting(False)
        made = session(wrong(), watcher)
        earlier = Earlier.read(path, ABOUT, COMMUNITIES)
        earlier.put_into(made.results, made.pair.port.way)
        assert earlier.words() == "taken up from the report of today: 1 chapters stand as they were judged"
        results = made.run(chapters_of(CHAPTERS, False))
    assert watcher.names == ["set", "priorities"] and before.stopped and not results.stopped
    assert [held.chapter.name for held in results.chapters] == list(CHAPTERS) and not results.unjudged()
    again, told = results.differences()[0], before.differences()[0]
    assert again.repeat_words() == told.repeat_words() and again.sides() == told.sides()
    assert terminal.difference_lines(1, again, ABOUT) == terminal.difference_lines(1, told, ABOUT)
    assert results.way is not None and results.way.odd[Oddity.GARBAGE] == 1 and results.taken_up == "today"
    assert results.verdict() is Verdict.DIFFERS


def test_a_right_sign_conforms_in_two_parts() -> None:
    with tempfile.TemporaryDirectory() as folder:
        path = pathlib.Path(folder) / "report.json"
        made = session(Sign(text.bench()), Interrupting())
        first = made.run(chapters_of(CHAPTERS, False))
        path.write_text(files.as_json(first, ABOUT, []), encoding="utf-8")
        made = session(Sign(text.bench()), Interrupting(False))
        Earlier.read(path, ABOUT, COMMUNITIES).put_into(made.results, made.pair.port.way)
        results = made.run(chapters_of(CHAPTERS, False))
    assert first.verdict() is Verdict.NOT_JUDGED and results.verdict() is Verdict.CONFORMS, results.unjudged()


def test_what_differed_in_a_chapter_that_is_begun_anew_is_not_forgotten() -> None:
    for is_still_wrong in (True, False):
        with tempfile.TemporaryDirectory() as folder:
            path = pathlib.Path(folder) / "report.json"
            before = interrupted(wrong("colours_up_to_10"), path)
            sign = wrong("colours_up_to_10") if is_still_wrong else Sign(text.bench())
            made = session(sign, Interrupting(False))
            Earlier.read(path, ABOUT, COMMUNITIES).put_into(made.results, made.pair.port.way)
            results = made.run(chapters_of(CHAPTERS, False))
        results.way = None  # of which the first part notes an oddity
        assert [held.found_in for held in before.differences()] == ["set"]
        assert results.verdict() is Verdict.DIFFERS and bool(results.differences()) is is_still_wrong
        assert [held.rule.key for held in results.once()] == ([] if is_still_wrong else ["ranges"])
        assert is_still_wrong or "was not seen in this one" in "\n".join(terminal.ending(results, ABOUT, []))


def test_what_a_person_said_is_not_forgotten() -> None:
    with tempfile.TemporaryDirectory() as folder:
        path = pathlib.Path(folder) / "report.json"
        first = session(Sign(text.bench()), Interrupting(False)).run([])
        first.person, first.questions = [Answered("colour 3", Answer.NO, "it is pink")], 5
        path.write_text(files.as_json(first, ABOUT, []), encoding="utf-8")
        made = session(Sign(text.bench()), Interrupting(False))
        Earlier.read(path, ABOUT, COMMUNITIES).put_into(made.results, made.pair.port.way)
        results = made.run(chapters_of(("communities",), False))
    assert results.verdict() is Verdict.DIFFERS and "1 steps with a person" in words.verdict(results)
    assert "steps with a person: 4 of 5 were not answered" in results.unjudged()


def test_texts_that_were_judged_before_are_not_told_as_not_tested() -> None:
    with tempfile.TemporaryDirectory() as folder:
        path = pathlib.Path(folder) / "report.json"
        chapters = chapters_of(("set", "priorities"), False)[::-1]  # the first of them carries texts
        first = session(Sign(text.bench()), Interrupting()).run(chapters)
        path.write_text(files.as_json(first, ABOUT, []), encoding="utf-8")
        made = session(Sign(text.bench()), Interrupting(False))
        Earlier.read(path, ABOUT, COMMUNITIES).put_into(made.results, made.pair.port.way)
        results = made.run(chapters)
    assert first.stopped and first.texts and results.texts == first.texts, results.texts


def test_what_was_read_first_is_put_back_by_the_test_that_goes_on() -> None:
    with tempfile.TemporaryDirectory() as folder:
        path, sign = pathlib.Path(folder) / "report.json", Sign(text.bench())
        sign.state.defaults[7] = 99
        made = session(sign, Interrupting())
        setattr(made.reset, "put_back", lambda _values: [scalar("defaultPageOnTime")])
        first = made.run(chapters_of(CHAPTERS, False))
        assert not first.is_set_back and sign.state.defaults[7] == 30
        path.write_text(files.as_json(first, ABOUT, []), encoding="utf-8")
        made = session(sign, Interrupting(False))
        Earlier.read(path, ABOUT, COMMUNITIES).put_into(made.results, made.pair.port.way)
        results = made.run(chapters_of(CHAPTERS, False))
    assert results.is_set_back and sign.state.defaults[7] == 99
    assert results.set_back == [("defaultPageOnTime.0", "30", "99")]


class Killed(BaseException):
    """The end of a test that has no say in it."""


class Killing(Quiet):
    """A report is written after the first chapter, as the command does it, and the test is killed."""

    def __init__(self, path: pathlib.Path) -> None:
        self.path = path

    def ended(self, result: ChapterResult) -> None:
        self.path.write_text(files.as_json(self.session.results, ABOUT, []), encoding="utf-8")
        raise Killed

    def test(self, sign: SomeSign) -> None:
        """A test of the sign, up to the kill."""
        self.session = bench.session(text.BENCH, sign, requests=0, watcher=self)
        try:
            self.session.run(chapters_of(CHAPTERS, False))
        except Killed:
            return
        raise AssertionError


def test_what_a_killed_test_read_first_is_put_back_by_the_test_that_goes_on() -> None:
    with tempfile.TemporaryDirectory() as folder:
        path, sign = pathlib.Path(folder) / "report.json", Sign(text.bench())
        sign.state.defaults[7] = 99
        Killing(path).test(sign)
        held = json.loads(path.read_text(encoding="utf-8"))
        assert held["verdict"] == "not judged" and not held["is_set_back"] and sign.state.defaults[7] == 30
        made = session(sign, watcher := Interrupting(False))
        Earlier.read(path, ABOUT, COMMUNITIES).put_into(made.results, made.pair.port.way)
        results = made.run(chapters_of(CHAPTERS, False))
    assert watcher.names == ["set", "priorities"] and results.verdict() is Verdict.CONFORMS, results.unjudged()
    assert results.is_set_back and sign.state.defaults[7] == 99


def test_a_report_of_another_test_is_not_taken_up() -> None:
    with tempfile.TemporaryDirectory() as folder:
        path = pathlib.Path(folder) / "report.json"
        interrupted(wrong(), path)
        others = [replace(ABOUT, digest="2e"), replace(ABOUT, seed=2), replace(ABOUT, is_slow=True)]
        for about in others:
            try:
                Earlier.read(path, about, COMMUNITIES)
            except Refusal as refused:
                assert "another test" in str(refused)
            else:
                raise AssertionError(about)
        try:
            Earlier.read(path, replace(ABOUT, to="127.0.0.1:2"), COMMUNITIES)
        except Refusal as refused:
            assert "of a test of the sign at 127.0.0.1:1, and not at 127.0.0.1:2" in str(refused)
        else:
            raise AssertionError("the report of another sign")
        whole = json.loads(path.read_text(encoding="utf-8"))
        whole["differences"][0]["steps"] = "tick"
        for held in ("", "[]", '{"test": {}}', "[" * 100_000, json.dumps(whole)):
            path.write_text(held, encoding="utf-8")
            try:
                Earlier.read(path, ABOUT, COMMUNITIES)
            except Refusal as refused:
                assert "is no report" in str(refused) or "another test" in str(refused)
            else:
                raise AssertionError(held[:80])
