"""What all reports say in the same words."""

import re
import shlex
from collections import Counter
from dataclasses import dataclass
from typing import Any

from wisangub.process.places import called
from wisangub.tester.chapters import Chapter
from wisangub.tester.context import Context
from wisangub.tester.findings.compare import fields
from wisangub.tester.findings.differences import Difference
from wisangub.tester.findings.results import ChapterResult, Results, Verdict
from wisangub.tester.findings.trace import ALIKE, DIFFERS, NOT_SUPPORTED, Requirement

NOT_SEEN = [
    "losses and returns of power, and the codes that they activate: no request makes them; --person asks for them",
    "lamps, pages, flashes and all else that is drawn: SNMP does not read it; --person asks what is seen",
]
_NEVER_SEEN = "the copy of the defaults that a message is drawn with"

_SOURCE = re.compile(r"RFC \d+(?:, [\d.]*\d)?|NTCIP 1203(?: v\d+)?|X\.690|ISO/IEC \d+")
_OF_SPACING = ("room", "layout", "layout place", "no fault")  # rules that hang on the description's fonts
NOT_SLOW = "without --slow: whole minutes and silence were not asked for"


@dataclass
class About:
    """The test that a report is about."""

    to: str
    sign: str
    oracle: str
    communities: tuple[str, str] | None
    seed: int
    requests: int
    is_slow: bool
    when: str
    program: str = ""
    digest: str = ""  # of the octets of the description and of the claims
    texts: int | None = None

    def test(self) -> dict[str, Any]:
        """What a report has to have been asked for that goes on with another."""
        return {
            "digest": self.digest,
            "seed": self.seed,
            "requests": self.requests,
            "slow": self.is_slow,
            "texts": self.texts,
        }

    def command(self, difference: Difference) -> str:
        """The command line that repeats a difference."""
        words = [*called("wisangub-conform").split(), "--to", self.to, "--sign", self.sign]
        if self.communities:
            words += ["--communities", *self.communities]
        if self.program:
            words += ["--signtool", self.program]
        return shlex.join([*words, "--repeat", difference.repeat_words()])


def origin(difference: Difference) -> str:
    """Whose rule it is: the standard's only where docs/PROFILE.md names its source."""
    rule = difference.rule
    if rule.own:
        return "(own): this profile's choice"
    named = _SOURCE.search(f"{rule.heading} {rule.sentence}")
    return f"the standard's: {named[0]}" if named else "the profile's"


def not_tested(context: Context, results: Results, chapters: list[Chapter]) -> list[str]:
    """What the test did not look at, and why."""
    found = [*([] if results.person else NOT_SEEN), _NEVER_SEEN]
    if not context.is_slow:
        found.append("whole minutes of durations, and silence: they take minutes and run with --slow")
    if len(results.texts) < results.texts_known:
        found.append(
            f"{results.texts_known - len(results.texts)} of {results.texts_known} texts: --texts all sends them"
        )
    missing = [
        chapter.title
        for chapter in chapters
        if not (chapter.is_slow or chapter.is_of_claims or chapter in results.asked)
    ]
    if missing:
        found.append("not asked for: " + ", ".join(missing))
    if not context.rows:
        found.append("rows, validation and all that needs a row that can be written: the sign has none")
    if not context.characters:
        found.append("texts with characters: the default font has none that fits")
    return found


def head(about: About) -> str:
    """The first line of every report."""
    slow = "with --slow: whole minutes and silence too" if about.is_slow else NOT_SLOW
    return f"the sign at {about.to} beside {about.sign}, {slow}"


def verdict(results: Results) -> str:
    """The verdict, with what it rests on."""
    found = results.verdict()
    if found is Verdict.UNREACHED:
        return str(found.value)
    if found is Verdict.NOT_JUDGED:
        return f"{found.value}: nothing differs in what was judged, and {'; '.join(results.unjudged())}"
    if found is Verdict.CONFORMS:
        cases = sum(held.blocks for held in results.chapters)
        return f"{found.value}: nothing differs in {cases} cases"
    count = len(results.differences())
    told = f"{count} difference{'s' if count > 1 else ''}" if count else "no difference that comes again"
    denied = len(results.denied())
    told += f"; {denied} steps with a person were answered no" if denied else ""
    return f"{found.value}: {told}" + (f"; {odd_words(results)}" if results.is_odd() else "")


def chapter_words(result: ChapterResult) -> str:
    """What differs in a chapter, and how much of that breaks rules of others."""
    if not result.differences:
        return "nothing differs"
    others = Counter(held.rule.chapter for held in result.differences)
    others.pop(result.chapter.name, None)
    said = ", ".join(f"{count} by rules of {name}" for name, count in others.items())
    return f"{len(result.differences)} differ" + (f" ({said})" if said else "")


def besides_words(results: Results) -> str:
    """The first of the objects that a sign has besides the profile's, and how many there are."""
    first = ", ".join(results.besides[:8])
    return f"{len(results.besides)} objects besides the profile's: {first}" + (" .." if results.besides[8:] else "")


def odd_words(results: Results) -> str:
    """What was wrong now and then, in a few words."""
    once, way = sum(1 + held.alike for held in results.once()), results.way
    found = [f"{once} wrong replies now and then"] if once else []
    if way is not None:
        found += [f"{count} times {oddity.value}" for oddity, count in way.odd.items()]
        found += [f"{way.reboots} times begun anew by itself"] if way.reboots else []
    return ", ".join(found)


def claim_words(held: Requirement) -> str:
    """What a sign claims of an object or a tag."""
    if not held.is_claimed:
        return "not supported"
    return f"{held.claimed_range[0]} to {held.claimed_range[1]}" if held.claimed_range else "yes"


def claims_words(results: Results) -> list[str]:
    """What the sign does not claim, and what of its claims no case shows, a line each."""
    held = results.trace.requirements()
    missing = [one.word for one in held if not one.is_claimed]
    left_out = sum(case.outcome == NOT_SUPPORTED for case in results.trace.cases)
    found = [f"not supported, and no failure: {', '.join(missing)}; {left_out} cases were left out"] if missing else []
    narrower = [f"{one.word} {claim_words(one)}" for one in held if one.claimed_range]
    found += [f"claimed in part: {', '.join(narrower)}"] if narrower else []
    unseen = [one.word for one in held if one.is_claimed and not one.count(ALIKE) + one.count(DIFFERS)]
    return found + ([f"no case that was judged is about: {', '.join(unseen)}"] if unseen else [])


def person_words(results: Results) -> list[str]:
    """What a person said, a line each."""
    return [
        f"{held.name}: {held.answer.value}" + (f", {_printed(held.remark)}" if held.remark else "")
        for held in results.person or ()
    ]


def _printed(remark: str) -> str:
    """What was typed, with what is no printable character as \\x and two digits."""
    return "".join(character if character.isprintable() else f"\\x{ord(character):02x}" for character in remark)


def load_words(results: Results) -> list[str]:
    """How many requests a second the sign holds, where that was asked for."""
    return results.load.words() if results.load is not None else []


def set_back_words(results: Results) -> list[str]:
    """What of a sign's own was set to what, a line each."""
    not_back = ", and not back yet" if results.is_going_on else ", and could not be set back"
    back = ", and back at the end" if results.is_set_back else not_back
    found = [f"set: {name} from {read} to {tested}{back}" for name, tested, read in results.set_back]
    return found + [f"emptied: {name} was {read}" for name, read in results.emptied]


def way_words(results: Results) -> list[str]:
    """What was lost, late, doubled or garbled on the way, and how the sign was left."""
    found = results.way.words() if results.way is not None else []
    if not results.is_set_back and not results.is_going_on:
        found.append("the sign could not be brought back to the state that it was in, but for its rows")
    return found


def sequence(difference: Difference) -> list[tuple[str, list[str]]]:
    """What is sent, from the known state: octets and their fields, or that a tick is waited for."""
    found: list[tuple[str, list[str]]] = []
    waits = 0
    for octets in [*difference.sent, b"end"]:
        if octets is None:
            waits += 1
            continue
        if waits:
            found.append(("", [f"until {waits} second{'s' if waits > 1 else ''} of the sign have passed"]))
            waits = 0
        if octets != b"end":
            found.append((octets.hex(), fields(octets)))
    return found


def how_sure(difference: Difference) -> str:
    """What a reader should know of how it was found."""
    notes = []
    if difference.note:
        notes.append(difference.note)
    if not difference.is_repeated:
        notes.append("now and then: it was not seen again when the sequence was repeated")
    if difference.rule.key in _OF_SPACING:
        notes.append("fonts cannot be read: if their widths, heights or spacings are described wrongly, this is why")
    if not difference.is_shrunk:
        notes.append("not made smaller: enough differences of this chapter were")
    if difference.alike:
        notes.append(f"{difference.alike} more like it")
    return "; ".join(notes)
