"""A test that ended before its last case, taken up again: `--resume` and the report that `--json` wrote."""

import json
import pathlib
from dataclasses import dataclass
from typing import Any

from wisangub.refusal import Refusal, reason
from wisangub.tester.chapters import ALL
from wisangub.tester.findings.compare import Kind, Mismatch
from wisangub.tester.findings.differences import Difference
from wisangub.tester.findings.results import ChapterResult, Results
from wisangub.tester.findings.rules import RULES
from wisangub.tester.findings.trace import Case
from wisangub.tester.person.answers import Answer, Answered
from wisangub.tester.requests.messages import spelled
from wisangub.tester.requests.objects import Name, Value
from wisangub.tester.runs.repeat import steps_of
from wisangub.tester.sign.pair import Exchange
from wisangub.tester.sign.way import Way

from .words import About

_BY_NAME = {chapter.name: chapter for chapter in ALL}
_BEFORE = "it came again in the part of the test that was before, and was not seen in this one"


@dataclass
class Earlier:
    """What an earlier report has of the chapters that were judged to their last case."""

    when: str
    chapters: list[ChapterResult]
    once_before: list[Difference]  # what was wrong once, and what differed where it is looked at once more
    emptied: list[tuple[str, str]]
    first: dict[Name, Value]  # the sign's own settings, where it could not be brought back to them
    counts: dict[str, Any]
    cases: list[Case]
    texts: set[bytes]  # that were judged
    person: list[Answered] | None = None  # what a person said, of so many questions:
    questions: int = 0

    @staticmethod
    def read(path: pathlib.Path, about: About, communities: tuple[bytes, bytes]) -> "Earlier":
        """The report of this file. Raises Refusal where it is none, or one of another test."""
        try:
            held = json.loads(path.read_text(encoding="utf-8"))
            if held["to"] != about.to:
                raise Refusal(f"{path} is the report of a test of the sign at {held['to']}, and not at {about.to}")
            if held["test"] != about.test():
                raise Refusal(f"{path} is the report of another test: another description, seed, or other options")
            return _earlier(held, communities)
        except OSError as fault:
            raise Refusal(f"the earlier report cannot be read: {reason(fault)}") from None
        except (ValueError, KeyError, TypeError, AttributeError, StopIteration, RecursionError):
            raise Refusal(f"{path} is no report that --json wrote") from None

    def put_into(self, results: Results, way: Way) -> None:
        """The test goes on with what was judged."""
        way.add(self.counts)
        results.taken_up = self.when
        results.chapters += self.chapters
        results.once_before += self.once_before
        results.emptied += self.emptied
        results.first = self.first
        results.trace.cases += self.cases
        results.texts |= self.texts
        results.person, results.questions = self.person, self.questions

    def words(self) -> str:
        """What is taken up, in a line."""
        return f"taken up from the report of {self.when}: {len(self.chapters)} chapters stand as they were judged"


def _earlier(held: dict[str, Any], communities: tuple[bytes, bytes]) -> Earlier:
    whole = [one for one in held["chapters"] if one["cases"] == one["wanted"] and not one["not_told"]]
    chapters = [_chapter(one) for one in whole if one["name"] in _BY_NAME]
    by_name = {one.chapter.name: one for one in chapters}
    before: list[Difference] = []
    for found in held["differences"]:
        difference = _difference(found, communities)
        if found["found_in"] in by_name:
            by_name[found["found_in"]].differences.append(difference)
        else:
            before.append(difference)
            difference.note = difference.note or _BEFORE
    for found in held["seen_once"]:
        kept = by_name[found["found_in"]].once if found["found_in"] in by_name else before
        kept.append(_difference(found, communities))
    emptied = [(one["object"], one["read"]) for one in held["emptied"]]
    message = None if held["is_set_back"] else spelled(bytes.fromhex(held["first"]))
    first = {} if message is None else dict(message.bindings)
    cases = [Case(**case) for case in held["cases"] if case["chapter"] in by_name]
    texts = {bytes.fromhex(digits) for digits in held["texts"].get("judged", ())}  # no word of earlier
    when = held["taken_up"] or held["when"]
    made = Earlier(when, chapters, before, emptied, first, held["way_counts"], cases, texts)
    answered = [Answered(one["step"], Answer(one["answer"]), one["remark"]) for one in held["person"]]
    made.questions = held.get("questions", len(answered))  # no word of earlier ones
    made.person = answered if answered or made.questions else None
    return made


def _chapter(held: dict[str, Any]) -> ChapterResult:
    found = ChapterResult(_BY_NAME[held["name"]], held["wanted"], held["cases"], held["requests"])
    found.seconds = held["seconds"]
    return found


def _difference(held: dict[str, Any], communities: tuple[bytes, bytes]) -> Difference:
    """A difference as it was told."""
    words = held["steps"].split(",")
    sent = [None if word == "tick" else b"" if word == "-" else bytes.fromhex(word) for word in words]
    steps = steps_of(held["steps"], communities)
    ours, theirs = (_octets(held[side]["octets"]) for side in ("ours", "theirs"))
    names = tuple(tuple(map(int, name.split("."))) for name in held["names"])
    octets = next(octets for octets in reversed(sent) if octets is not None)
    exchange = Exchange(steps[-1], octets, ours, theirs, Mismatch(Kind(held["class"]), names))
    found = Difference.of(RULES[held["rule"]["key"]], held["found_in"], exchange, steps, sent)
    found.is_repeated, found.is_shrunk = held["repeated"], held["made_small"]
    found.alike, found.note = held["alike"], held["own_note"]
    return found


def _octets(digits: str | None) -> bytes | None:
    return None if digits is None else bytes.fromhex(digits)
