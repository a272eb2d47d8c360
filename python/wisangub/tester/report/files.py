"""Reports for benches: JSON and JUnit."""

import json
import xml.etree.ElementTree as ET
from typing import Any

from wisangub.tester.findings.differences import Difference
from wisangub.tester.findings.results import Results, Verdict
from wisangub.tester.findings.rules import CHAPTERS
from wisangub.tester.findings.trace import OUTCOMES, Requirement
from wisangub.tester.person.answers import Answer
from wisangub.tester.requests.steps import put
from wisangub.tester.sign.way import Oddity

from .causes import cause, causes
from .terminal import difference_lines
from .words import About, head, how_sure, origin, sequence, set_back_words, verdict, way_words


def as_json(results: Results, about: About, not_tested: list[str]) -> str:
    """The report as one JSON object."""
    chapters = [
        {
            "name": held.chapter.name,
            "title": held.chapter.title,
            "cases": held.blocks,
            "wanted": held.wanted,
            "requests": held.requests,
            "seconds": round(held.seconds, 3),
            "not_told": held.untold,
            "seen_once": len(held.once),
            "differences": len(held.differences),
        }
        for held in results.chapters
    ]
    whole = {
        "about": head(about),
        "verdict": results.verdict().value,
        "words": verdict(results),
        "status": results.verdict().status,
        "clean": results.is_clean(),
        "to": about.to,
        "sign": about.sign,
        "oracle": about.oracle,
        "when": about.when,
        "seed": about.seed,
        "causes": causes(results.differences()),
        "configuration": _objects(results.configuration),
        "besides": results.besides,
        "set_back": [{"object": name, "tested": tested, "read": read} for name, tested, read in results.set_back],
        "emptied": [{"object": name, "read": read} for name, read in results.emptied],
        "is_set_back": results.is_set_back,
        "first": _first(results),
        "person": [
            {"step": held.name, "answer": held.answer.value, "remark": held.remark} for held in results.person or ()
        ],
        "questions": results.questions,
        "load": [vars(rate) for rate in results.load.done] if results.load is not None else None,
        "texts": {
            "sent": len(results.texts),
            "known": results.texts_known,
            "judged": sorted(held.hex() for held in results.texts),
        },
        "requirements": [_requirement(held) for held in results.trace.requirements()],
        "cases": [vars(case) for case in results.trace.cases],
        "taken_up": results.taken_up,
        "test": about.test(),
        "chapters": chapters,
        "differences": [_one(difference, about) for difference in results.differences()],
        "seen_once": [_one(difference, about) for difference in results.once()],
        "way_counts": results.way.counts() if results.way is not None else None,
        "now_and_then": _odd(results),
        "way": way_words(results),
        "not_judged": results.unjudged(),
        "not_tested": not_tested,
    }
    return json.dumps(whole, indent=1) + "\n"


def _odd(results: Results) -> dict[str, int]:
    """How often each class of replies was seen that no way makes of a right one."""
    way = results.way
    found = {"a wrong reply that did not come again": sum(1 + held.alike for held in results.once())}
    if way is not None:
        found |= {oddity.value: way.odd[oddity] for oddity in Oddity}
        found["the sign began anew by itself"] = way.reboots
    return found


def _first(results: Results) -> str:
    """The octets of a SET of the sign's own settings, as they were read first."""
    return put(*results.first.items()).octets(1, (b"", b"")).hex() if results.first else ""


def _requirement(held: Requirement) -> dict[str, Any]:
    return {
        "requirement": held.word,
        "claimed": held.is_claimed,
        "range": held.claimed_range,
        "chapters": held.chapters(),
        **{outcome.replace(" ", "_"): held.count(outcome) for outcome in OUTCOMES},
    }


def _objects(held: list[tuple[str, str, str]]) -> list[dict[str, str]]:
    return [{"object": name, "described": described, "read": read} for name, described, read in held]


def _one(difference: Difference, about: About) -> dict[str, Any]:
    ours, theirs = difference.sides()
    rule = {
        "key": difference.rule.key,
        "heading": difference.rule.heading,
        "sentence": difference.rule.sentence,
        "own": difference.rule.own,
    }
    return {
        "chapter": difference.rule.chapter,
        "found_in": difference.found_in,
        "class": difference.mismatch.kind.value,
        "title": difference.title,
        "names": [".".join(map(str, name)) for name in difference.mismatch.names],
        "cause": cause(difference),
        "rule": rule,
        "origin": origin(difference),
        "datagrams": difference.datagrams,
        "sequence": [
            {"octets": octets, "fields": lines} if octets else {"wait": lines[0]}
            for octets, lines in sequence(difference)
        ],
        "ours": {"octets": difference.ours.hex() if difference.ours else None, "fields": ours},
        "theirs": {"octets": difference.theirs.hex() if difference.theirs else None, "fields": theirs},
        "repeated": difference.is_repeated,
        "made_small": difference.is_shrunk,
        "note": how_sure(difference),
        "own_note": difference.note,
        "steps": difference.repeat_words(),
        "alike": difference.alike,
        "command": about.command(difference),
    }


def as_junit(results: Results, about: About) -> str:
    """A test case a difference, one for each chapter that shows none, and the verdict as the last."""
    found = results.verdict()
    suite = ET.Element("testsuite", name="conform", hostname=about.to, timestamp=about.when.replace(" ", "T"))
    properties = ET.SubElement(suite, "properties")
    ET.SubElement(properties, "property", name="about", value=_printable(head(about)))
    for name in dict.fromkeys(["before", *CHAPTERS]):
        if name != "device" or results.trace.device:
            _chapter_cases(suite, name, results, about)
    for held in results.person or ():
        case = ET.SubElement(suite, "testcase", classname="conform.person", name=held.name, time="0.000")
        if held.answer is not Answer.YES:
            tag = "failure" if held.answer is Answer.NO else "skipped"
            ET.SubElement(case, tag, message=_printable(f"{held.answer.value} {held.remark}"))
    last = ET.SubElement(suite, "testcase", classname="conform.verdict", name="verdict", time="0.000")
    if found in (Verdict.NOT_JUDGED, Verdict.UNREACHED):
        ET.SubElement(last, "error", type=found.value, message=_printable(verdict(results)))
    elif results.is_odd():
        ET.SubElement(last, "failure", type="now and then", message=_printable(verdict(results)))
    for kind, tag in (("tests", "testcase"), ("failures", "failure"), ("errors", "error"), ("skipped", "skipped")):
        suite.set(kind, str(len(list(suite.iter(tag)))))
    suite.set("time", f"{sum(held.seconds for held in results.chapters):.3f}")
    said = [head(about), *set_back_words(results), *way_words(results)]
    ET.SubElement(suite, "system-out").text = _printable("\n".join(said))
    return ET.tostring(suite, encoding="unicode", xml_declaration=True) + "\n"


def _chapter_cases(suite: ET.Element, name: str, results: Results, about: About) -> None:
    """The test cases of a chapter: its differences, or that it shows none, was not asked for or not judged to its end.
    Its seconds stand at the first."""
    held = next((chapter for chapter in results.chapters if chapter.chapter.name == name), None)
    seconds = f"{held.seconds if held is not None else 0:.3f}"
    differences = [difference for difference in results.differences() if difference.rule.chapter == name]
    for number, difference in enumerate(differences, 1):
        case = ET.SubElement(
            suite,
            "testcase",
            classname=f"conform.{name}",
            name=_printable(f"{number} {cause(difference)}"),
            time=seconds,
        )
        failure = ET.SubElement(
            case, "failure", type=difference.mismatch.kind.value, message=_printable(cause(difference))
        )
        failure.text = _printable("\n".join(difference_lines(number, difference, about)))
        seconds = "0.000"
    if not differences:
        case = ET.SubElement(suite, "testcase", classname=f"conform.{name}", name=name, time=seconds)
        if held is None and name != "before":
            ET.SubElement(case, "skipped", message="not asked for, or not come to")
        elif held is not None and held.missing:
            ET.SubElement(case, "skipped", message=f"{held.missing} of {held.wanted} cases were not judged")


def _printable(text: str) -> str:
    """Without characters that XML has not."""
    return "".join(character if character >= " " or character == "\n" else "?" for character in text)
