"""The steps with a person: what is shown one by one, and a sign whose power is off for a while."""

import io
import json
import xml.etree.ElementTree as ET
from unittest import mock

from model import text
from model.sign import Sign
from trials.wrong_signs import bench
from wisangub.process.places import TOP
from wisangub.tester.findings.results import Results, Verdict
from wisangub.tester.person.answers import Answer, Reader
from wisangub.tester.person.showings import showings
from wisangub.tester.report import files, page, terminal, words
from wisangub.tester.requests.objects import spoken
from wisangub.tester.requests.steps import put
from wisangub.tester.session import chapters_of
from wisangub.tester.sign.clock import Clock
from wisangub.tester.sign.link import Link

ABOUT = words.About("127.0.0.1:1", "bench.sign", "model", None, 1, 0, False, "today")


class Person:
    """Sees what is shown, but for one step, and has the power off for so many seconds."""

    def __init__(self, sign: Sign, seconds: int = 20, denied: str = "", is_there: bool = True) -> None:
        self.sign, self.seconds, self.denied, self.is_there = sign, seconds, denied, is_there
        self.asked: list[tuple[str, list[str]]] = []

    def is_it_so(self, question: str, lines: list[str]) -> tuple[Answer, str]:
        self.asked.append((question, lines))
        if self.denied and self.denied in question:
            return Answer.NO, "it is pink"
        return Answer.YES, ""

    def is_done(self, what: str) -> bool:
        assert "20 seconds" in what
        if self.is_there:
            self.sign.showing.power_lost()
            self.sign.showing.power_back(self.seconds)
        return self.is_there


def tried(description: bytes = text.BENCH, seconds: int = 20, denied: str = "", is_there: bool = True) -> Results:
    """A test of a right sign with a person before it."""
    sign = Sign(text.described(description))
    session = bench.session(description, sign, requests=0)
    session.person = Person(sign, seconds, denied, is_there)
    results = session.run(chapters_of(("communities",), False))
    assert len(session.person.asked) == results.questions - (2 if is_there else 4)
    return results


def test_a_right_sign_conforms_before_a_person() -> None:
    for description in (text.BENCH, (TOP / "signs/roadside.sign").read_bytes()):
        results = tried(description)
        assert results.verdict() is Verdict.CONFORMS, (results.unjudged(), words.person_words(results))
        said = words.person_words(results)
        assert "font 1: yes" in said and "colour 9: yes" in said and "a short loss of power: yes" in said
        not_tested = words.not_tested(bench.session(description).context, results, [])
        assert not any("SNMP does not read it" in line for line in not_tested)


def test_what_a_person_sees_otherwise_differs_and_stands_in_each_report() -> None:
    results = tried(denied="green, on black")
    assert results.verdict() is Verdict.DIFFERS and "1 steps with a person were answered no" in words.verdict(results)
    told = "\n".join(terminal.ending(results, ABOUT, []))
    assert "colour 3: no, it is pink" in told and "colour 3: no, it is pink" in page.as_html(results, ABOUT, [])
    held = [one for one in json.loads(files.as_json(results, ABOUT, []))["person"] if one["answer"] == "no"]
    assert held == [{"step": "colour 3", "answer": "no", "remark": "it is pink"}]
    cases = ET.fromstring(files.as_junit(results, ABOUT)).iter("testcase")
    assert [case.get("name") for case in cases if case.find("failure") is not None] == ["colour 3"]


def test_a_sign_that_takes_a_short_loss_for_a_long_one_differs() -> None:
    results = tried(seconds=70_000)
    said = results.denied()
    assert results.verdict() is Verdict.DIFFERS and [held.name for held in said] == ["a short loss of power"]
    assert "expected:" in said[0].remark and results.way is not None and not results.way.reboots


def test_a_sign_that_forgets_one_setting_without_power_differs() -> None:
    settings = bench.session(text.BENCH).reset.objects.settings()
    for name, value in settings.items():
        sign = Sign(text.described(text.BENCH))
        session = bench.session(text.BENCH, sign, requests=0)
        session.person = person = Person(sign)
        forgets = put((name, value)).octets(1, session.pair.communities)

        def is_done(what: str) -> bool:
            is_there = Person.is_done(person, what)
            sign.receive(forgets)
            return is_there

        with mock.patch.object(person, "is_done", is_done):
            results = session.run([])
        assert results.verdict() is Verdict.DIFFERS and results.denied(), spoken(name)
        assert spoken(name) in results.denied()[-1].remark, results.denied()[-1]


class Booting:
    """A way to a sign that answers nothing for so many seconds after its power is back."""

    def __init__(self, link: Link, clock: Clock, seconds: float) -> None:
        self.link, self.clock, self.seconds, self.until = link, clock, seconds, 0.0
        self.receive, self.close = link.receive, link.close

    def send(self, octets: bytes) -> None:
        if self.clock.now() >= self.until:
            self.link.send(octets)


def test_a_sign_that_takes_a_while_after_a_loss_of_power_loses_nothing_on_its_way() -> None:
    sign = Sign(text.described(text.BENCH))
    session = bench.session(text.BENCH, sign, requests=0)
    port, person = session.pair.port, Person(sign)
    port.link = way = Booting(port.link, session.pair.clock, 50.0)

    def is_done(what: str) -> bool:
        way.until = way.clock.now() + way.seconds
        return Person.is_done(person, what)

    session.person = person
    with mock.patch.object(person, "is_done", is_done):
        results = session.run(chapters_of(("communities",), False))
    assert results.verdict() is Verdict.CONFORMS, results.unjudged()


def test_what_is_not_answered_is_not_judged() -> None:
    results = tried(is_there=False)
    assert results.verdict() is Verdict.NOT_JUDGED
    assert f"steps with a person: 4 of {results.questions} were not answered" in results.unjudged()


def test_each_character_of_each_font_is_shown() -> None:
    for name in ("roadside", "gantry"):
        context = bench.session((TOP / f"signs/{name}.sign").read_bytes()).context
        shown = showings(context)
        for font in context.described.face.fonts:
            texts = [held.text.split(b"]", 1)[1] for held in shown if held.name == f"font {font.number}"]
            held = b"".join(texts).replace(b"[np]", b"")
            assert held.replace(b"[[", b"[").replace(b"]]", b"]") == bytes(sorted(font.glyphs)), (name, font.number)


def test_what_is_typed_is_an_answer_and_a_remark() -> None:
    out = io.StringIO()
    person = Reader(io.StringIO("what?\nYES\nno, it is dark\ns\ny\n"), out)
    assert person.is_it_so("Is it so?", ["page 1"]) == (Answer.YES, "")
    assert person.is_it_so("Is it so?", []) == (Answer.NO, "it is dark")
    assert person.is_it_so("Is it so?", []) == (Answer.NONE, "")
    assert person.is_done("Do it.") and not person.is_done("Do it.")
    assert "page 1" in out.getvalue() and "Do it." in out.getvalue()
