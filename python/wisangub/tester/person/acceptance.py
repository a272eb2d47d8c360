"""The steps that a person sees, or takes: what the sign shows, and what it does without power."""

from dataclasses import dataclass
from typing import Sequence

from wisangub.snmp.names import Memory, scalar
from wisangub.tester.chapters.block import look, message
from wisangub.tester.chapters.sets_values import other_values
from wisangub.tester.context import Context, activate
from wisangub.tester.findings.compare import value_words
from wisangub.tester.requests.objects import DEFAULTS, Row, integer, octets, spoken, word_of
from wisangub.tester.requests.steps import Step, get, put
from wisangub.tester.runs.runner import Runner
from wisangub.tester.sign.pair import Inconclusive
from wisangub.tester.state.known_state import Unreachable
from wisangub.tester.state.unanswered import ours_reads

from .answers import Answer, Answered, Person
from .showings import Showing, showings

SECONDS = 20  # that the power is to be off
_MOST_ASKED = 120  # times that a sign without a reply is asked after its power is on
_BLANK = 5  # the blank message that is shown after a long loss
_LOSSES = {"a short loss of power": 65535, "a long loss of power": 0}  # and dmsShortPowerLossTime
_TIME, _FONT = scalar("dmsShortPowerLossTime"), scalar("defaultFont")
_DRAWN = [name for name in DEFAULTS if word_of(name) not in ("defaultFlashOn", "defaultFlashOff")]
_OFF = (
    f"Switch the sign's power off, wait {SECONDS} seconds, switch it on again, and wait until the sign shows something."
)


@dataclass
class Acceptance:
    """A person's part of a test."""

    runner: Runner
    context: Context
    person: Person

    def __post_init__(self) -> None:
        self.shown = showings(self.context)
        is_powered = bool(self.shown) and not self.context.claims.is_missing(_TIME)
        self.losses = list(_LOSSES) if is_powered else []

    def count(self) -> int:
        """How many questions there are: of each loss of power whether it was right, and what is shown after it."""
        return len(self.shown) + 2 * len(self.losses)

    def run(self, answered: list[Answered]) -> None:
        """Each step, and what is answered."""
        for showing in self.shown:
            answered.append(self._of(showing))
        for name in self.losses:
            answered += self._after_a_loss(name, _LOSSES[name])

    def _why_not(self, steps: Sequence[Step]) -> str:
        """Why both signs cannot be brought there; nothing where they are there."""
        try:
            run = self.runner.anew(steps)
        except (Inconclusive, Unreachable) as fault:
            return str(fault)
        finally:
            self.runner.pair.is_dirty = True
        return "" if run is None else "the sign differs on the way there"

    def _of(self, showing: Showing) -> Answered:
        """A text is shown, and asked of."""
        row, text = self.context.rows[0], showing.text
        code = self.context.code(row, self.context.crc(text, showing.beacon))
        fault = self._why_not([*message(row, text, beacon=showing.beacon), activate(code)])
        if fault:
            return Answered(showing.name, Answer.NONE, f"it could not be shown: {fault}")
        return Answered(showing.name, *self.person.is_it_so(showing.question, self.context.judge.pages(text)))

    def _after_a_loss(self, name: str, most_short: int) -> list[Answered]:
        """The power is off and on again, and both signs are compared; then what is shown is asked of."""
        one, rows = self.context.character(), self.context.outermost
        is_short, shown_name = bool(most_short), f"what is shown after {name}"
        fault = self._why_not(self._before_a_loss(rows, most_short))
        if fault or not self.person.is_done(f"{name}: {_OFF}"):
            said = f"it could not be tried: {fault}" if fault else ""
            return [Answered(name, Answer.NONE, said), Answered(shown_name, Answer.NONE, said)]
        differs = self._compared(rows) if self._is_on() else "the sign does not answer"
        found = Answered(name, Answer.NO if differs else Answer.YES, differs)
        lines = self.context.judge.pages(one) if is_short else []
        question = "Does the sign show this?" if is_short else "Is the sign dark?"
        return [found, Answered(shown_name, *self.person.is_it_so(question, lines))]

    def _before_a_loss(self, rows: list[Row], most_short: int) -> list[Step]:
        """A message in each memory, and what is to be shown after a short and after a long loss. What is set besides
        reads otherwise than a sign begins, so that what is forgotten is seen; but a message that is shown is drawn by
        the defaults, which stay then."""
        one, font = self.context.character(), self.context.described.face.fonts[-1].number
        sides = (int(self.context.described.beacons), int(self.context.described.pixels))
        steps = message(rows[0], one, b"owner", priority=9)
        steps += [step for row in rows[1:] for step in message(row, one, b"owner", *sides, 9)]
        others = [*other_values(self.context), (_FONT, integer(font))]
        code = self.context.message_code(rows[0], self.context.crc(one))
        blank = self.context.message_code(Row(Memory.BLANK, _BLANK), 0)
        return [
            *steps,
            *[put(bound) for bound in others if not most_short or bound[0] not in _DRAWN],
            put((_TIME, integer(most_short))),
            put((scalar("dmsShortPowerRecoveryMessage"), octets(code))),
            put((scalar("dmsLongPowerRecoveryMessage"), octets(blank))),
        ]

    def _is_on(self) -> bool:
        """Whether the sign answers again. It was silent for a reason, and nothing of that was lost on the way."""
        pair, way = self.runner.pair, self.runner.pair.port.way
        longest, height = way.longest, get(scalar("vmsSignHeightPixels"))
        for _ in range(_MOST_ASKED):
            way.begin_anew()
            number = pair.port.new_number()
            octets = height.octets(number, pair.communities)
            if pair.port.ask_once(octets, number, is_counted=False).reply is not None:
                way.longest = longest
                return True
        return False

    def _compared(self, rows: list[Row]) -> str:
        """How the sign differs from ours after the loss, in the first of its objects; nothing where it does not."""
        pair, reset = self.runner.pair, self.runner.reset
        pair.ticks.take_passed()
        pair.oracle.power(SECONDS)
        reset.validation.begin_anew()
        names = [name for step in look(*rows) for name, _ in step.bindings if name not in pair.masked]
        names = [name for name in names if not self.context.claims.is_missing(name)]
        theirs, ours = reset.read(names), ours_reads(pair, names) or {}
        for name in names:
            if theirs.get(name) != ours.get(name):
                read, wanted = theirs.get(name), ours[name]
                said = "nothing" if read is None else value_words(read, name)
                return f"{spoken(name)} reads {said}; expected: {value_words(wanted, name)}"
        return ""
