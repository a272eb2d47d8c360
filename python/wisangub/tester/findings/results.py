"""What a test found, its verdict, and who is told while it goes on."""

import enum
from dataclasses import dataclass, field
from typing import TYPE_CHECKING, Protocol, Sequence

from wisangub.tester.chapters import Block, Chapter
from wisangub.tester.person.answers import Answer, Answered
from wisangub.tester.requests.objects import Name, Value
from wisangub.tester.sign.way import LONGEST_SILENCE, Way

from .differences import Difference
from .trace import Trace

if TYPE_CHECKING:
    from wisangub.tester.runs.load import Load

LOSSY = 2.0  # percent of the requests that may be without a reply in time or have two, where nothing is said


class Verdict(enum.Enum):
    """What a test says of a sign."""

    CONFORMS = "conforms"
    DIFFERS = "differs"
    NOT_JUDGED = "not judged"
    UNREACHED = "the sign does not answer"

    @property
    def status(self) -> int:
        """The exit status of the command."""
        return {Verdict.CONFORMS: 0, Verdict.DIFFERS: 1, Verdict.NOT_JUDGED: 3, Verdict.UNREACHED: 2}[self]


@dataclass
class ChapterResult:
    """What came of a chapter: of `wanted` cases so many were begun."""

    chapter: Chapter
    wanted: int = 0
    blocks: int = 0
    requests: int = 0
    told: int = 0  # requests of blocks of which it is told whether they differ
    seconds: float = 0.0
    differences: list[Difference] = field(default_factory=list)
    once: list[Difference] = field(default_factory=list)  # seen once, and not again from the known state
    left: list[Block] = field(default_factory=list)  # of which it could not be told whether they differ

    @property
    def untold(self) -> int:
        """How many blocks could not be judged."""
        return len(self.left)

    @property
    def missing(self) -> int:
        """How many of those that were wanted are not judged."""
        return self.wanted - self.blocks + self.untold


class Watcher(Protocol):
    """Who is told how the test goes on."""

    def begun(self, chapter: Chapter, blocks: int) -> None:
        ...

    def went_on(self, result: ChapterResult, at: int) -> None:
        ...

    def went_round(self) -> None:
        """A round is over of what is asked for hours."""

    def ended(self, result: ChapterResult) -> None:
        ...

    def found(self, difference: Difference) -> None:
        ...

    def close(self) -> None:
        """Nothing more is shown under the lines that are said from here on."""


@dataclass
class Results:
    """What came of a test. Without `way` its datagrams were not counted."""

    way: Way | None = None
    asked: Sequence[Chapter] = ()  # the chapters that were asked for
    is_slow: bool = False
    lossy: float = LOSSY  # percent
    is_going_on: bool = False  # whether the test has not come to its end, be it that it was killed
    stopped: str = ""  # why the test ended before its last case
    is_set_back: bool = True
    first: dict[Name, Value] = field(default_factory=dict)  # the sign's own settings, as they were read first
    chapters: list[ChapterResult] = field(default_factory=list)
    before: list[Difference] = field(default_factory=list)
    once_before: list[Difference] = field(default_factory=list)  # as `once` of a chapter, before any of them
    configuration: list[tuple[str, str, str]] = field(default_factory=list)  # object, as described, as read
    besides: list[str] = field(default_factory=list)  # objects that the sign has besides the profile's
    set_back: list[tuple[str, str, str]] = field(default_factory=list)  # settings: as tested, and as they were read
    emptied: list[tuple[str, str]] = field(default_factory=list)  # rows that were in use, as they were read
    texts: set[bytes] = field(default_factory=set)  # that were judged, of so many:
    texts_known: int = 0
    trace: Trace = field(default_factory=Trace)
    person: list[Answered] | None = None  # what a person said, where that was asked for, of so many questions:
    questions: int = 0
    load: "Load | None" = None  # how many requests a second it holds, where that was asked for
    taken_up: str = ""  # when the test was begun that this one goes on with
    is_silent: bool = False
    is_learnt: bool = True

    def differences(self) -> list[Difference]:
        """All that differs and came again."""
        return self.before + [difference for result in self.chapters for difference in result.differences]

    def once(self) -> list[Difference]:
        """What was seen once, and did not come again: wrong now and then. What an earlier part of the test saw, and
        this one sees too, is told as that alone."""
        found = self.differences()
        before = [held for held in self.once_before if not any(held.is_like(other) for other in found)]
        return before + [held for result in self.chapters for held in result.once]

    def is_clean(self) -> bool:
        """Whether no difference came again, be all of it judged or not."""
        return not self.is_silent and not self.configuration and not self.differences()

    def is_odd(self) -> bool:
        """Whether a reply was wrong now and then, or the sign began anew by itself."""
        return bool(self.once()) or self.way is not None and bool(self.way.odd or self.way.reboots)

    def unjudged(self) -> list[str]:
        """Why it cannot be said that the sign conforms, a sentence each."""
        found = ["the test had not come to its end when this was written"] if self.is_going_on else []
        found += [f"the test was stopped: {self.stopped}"] if self.stopped else []
        found += [line for chapter in self.asked if (line := self._unjudged_of(chapter))]
        if not found and not any(held.wanted for held in self.chapters) and not self.person:
            found.append("no case was asked for")
        if self.person is not None and (line := self._unanswered(self.person)):
            found.append(line)
        if not self.is_learnt:
            found.append("no validation settled while it was watched, so the moment of its seconds is not known")
        if self.way is not None and self.way.percent() > self.lossy:
            found.append(
                f"{self.way.percent():.1f} % of the replies were lost, late or doubled (--lossy {self.lossy:g})"
            )
        if self.way is not None and self.way.longest > LONGEST_SILENCE:
            found.append(f"the sign was silent for {self.way.longest:.1f} s")
        return found

    def _unjudged_of(self, chapter: Chapter) -> str:
        """What was not judged of a chapter that was asked for."""
        if chapter.is_slow and not self.is_slow:
            return f"{chapter.title}: its cases are slow, and run with --slow alone"
        held = next((result for result in self.chapters if result.chapter is chapter), None)
        if held is None:
            return f"{chapter.title}: not come to"
        if not held.wanted and chapter.is_never_empty:
            return f"{chapter.title}: no case was asked for"
        return f"{chapter.title}: {held.missing} of {held.wanted} cases were not judged" if held.missing else ""

    def _unanswered(self, person: list[Answered]) -> str:
        """What a person did not say."""
        missing = self.questions - sum(held.answer is not Answer.NONE for held in person)
        if not self.questions:
            return "steps with a person: not come to"
        return f"steps with a person: {missing} of {self.questions} were not answered" if missing else ""

    def denied(self) -> list[Answered]:
        """What a person saw otherwise than it should be."""
        return [held for held in self.person or () if held.answer is Answer.NO]

    def verdict(self) -> Verdict:
        """What is said of the sign."""
        if self.is_odd() or self.configuration or self.differences() or self.denied():
            return Verdict.DIFFERS
        if self.is_silent:
            return Verdict.UNREACHED
        return Verdict.NOT_JUDGED if self.unjudged() else Verdict.CONFORMS


class Quiet:
    """A watcher that says nothing."""

    def begun(self, chapter: Chapter, blocks: int) -> None:
        ...

    def went_on(self, result: ChapterResult, at: int) -> None:
        ...

    def went_round(self) -> None:
        ...

    def ended(self, result: ChapterResult) -> None:
        ...

    def found(self, difference: Difference) -> None:
        ...

    def close(self) -> None:
        ...
