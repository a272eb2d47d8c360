"""A test from its beginning to its report."""

from dataclasses import dataclass, field, replace
from typing import Iterator, Sequence

from .chapters import ALL, Block, Chapter, endurance
from .chapters.carrying import CHAPTERS as CARRYING
from .chapters.carrying import carried
from .chapters.edge_texts import Sample
from .chapters.texts import known, more
from .chapters.tracing import traced
from .context import Context
from .findings import classify
from .findings.compare import Kind
from .findings.differences import Difference, subject
from .findings.results import ChapterResult, Results, Watcher
from .findings.rules import RULES, Rule
from .findings.trace import ALIKE, DIFFERS, NOT_JUDGED
from .person.acceptance import Acceptance
from .person.answers import Answered, Person
from .requests.steps import Step, datagrams
from .runs.load import Load
from .runs.runner import Run, Runner
from .runs.shrinking import shrunk
from .sign.pair import Exchange, Inconclusive, Pair
from .sign.way import Stopped
from .state.device import Learnt
from .state.known_state import Unreachable
from .state.preflight import READ_AGAIN, Preflight
from .state.reset import Reset

MOST_SHRUNK, MOST_TOLD = 4, 12  # differences of a chapter that are made small, and that are told
MOST_HISTORY = 120  # steps since the known state, on a way that loses some
# times that what could not be judged is begun again at the end of its chapter: a long sequence often meets a late
# request where one datagram in five is lost, late or doubled
PASSES, LOSSY_PASSES = 4, 8


@dataclass
class Session:
    """A test of one sign; `most_seconds` is how long a difference is made smaller."""

    pair: Pair
    context: Context
    watcher: Watcher
    most_differences: int | None = None  # the test ends at so many
    most_seconds: float = 40.0
    is_text_wrong: bool = False  # whether a text differed that a chapter carried
    rate: int | None = None  # requests a second up to which load is asked for
    hours: float = 0.0  # that random requests go on after the chapters
    person: Person | None = None  # who sees the sign, where that is asked for
    is_anyway: bool = False  # whether it goes on where the sign has another size or other rows than described
    results: Results = field(default_factory=Results)

    def __post_init__(self) -> None:
        self.reset = Reset(self.pair, self.context)
        self.runner = Runner(self.pair, self.reset, self.most_seconds)
        self.preflight = Preflight(self.pair, self.reset, self.context, self.results, self.watcher)
        self.texts = iter(self._more_texts())  # that chapters carry besides their own

    def _more_texts(self) -> Iterator[Sample]:
        """Texts that validation leaves, up to the first that differs."""
        for sample in more(self.context) if self.context.rows else ():
            if self.is_text_wrong:
                return
            yield sample

    def is_enough(self) -> bool:
        """Whether as many differences were found as are asked for."""
        return self.most_differences is not None and len(self.results.differences()) >= self.most_differences

    def run(self, chapters: Sequence[Chapter]) -> Results:
        """These chapters. A sign that falls silent, time that is over and an interrupt end them; then, and at any fault
        too, the sign is put back as far as it can be."""
        chapters = self.prepare(chapters)
        try:
            self._run(chapters)
        except Stopped as why:
            self.results.stopped = str(why)
        except KeyboardInterrupt:
            self.results.stopped = "it was interrupted"
        except Exception:
            self.put_back()
            raise
        self.put_back()
        self.results.is_going_on = False
        return self.results

    def prepare(self, chapters: Sequence[Chapter]) -> list[Chapter]:
        """What is to be asked stands in the results, before anything is sent: those of the chapters that are run."""
        chapters = [chapter for chapter in chapters if not chapter.is_of_claims or self.context.claims.device]
        self.results.is_going_on = True
        self.results.asked, self.results.is_slow = chapters, self.context.is_slow
        self.results.way = self.pair.port.way
        if self.person is not None:  # else what one said in an earlier part of the test stands
            self.results.person, self.results.questions = [], 0
        self.results.texts_known = len(known(self.context)) if self.context.rows else 0
        claims, trace = self.context.claims, self.results.trace
        trace.missing, trace.ranges = claims.missing | {f"[{tag}]" for tag in claims.tags}, dict(claims.ranges)
        trace.claim_device(claims.device)
        return chapters

    def _run(self, chapters: Sequence[Chapter]) -> None:
        is_heard = self.preflight.begin(self.is_anyway)
        judged = [held.chapter for held in self.results.chapters]
        for chapter in chapters if is_heard else []:
            if self.is_enough():
                break
            if chapter not in judged and (not chapter.is_slow or self.context.is_slow):
                self.begun(chapter)
        if is_heard and self.rate is not None and not self.is_enough():
            self.load(self.rate)
        if is_heard and self.hours and not self.is_enough():
            self.endure(self.hours)
        if is_heard and self.person is not None and not self.is_enough():
            self.ask(self.person)

    def ask(self, person: Person) -> None:
        """The steps that a person sees, or takes."""
        self.watcher.close()
        acceptance, answered = Acceptance(self.runner, self.context, person), list[Answered]()
        self.results.person, self.results.questions = answered, acceptance.count()
        acceptance.run(answered)

    def load(self, most: int) -> None:
        """How many requests a second the sign holds, up to so many, in the known state."""
        self.reset.reach_or_end()
        load = self.results.load = Load(self.pair, self.context.instances, self.results.lossy)
        load.run(most)
        self.results.once_before += load.once
        self.pair.is_dirty = True

    def endure(self, hours: float) -> None:
        """Random requests for so many hours."""
        result = ChapterResult(endurance.CHAPTER)
        self.results.chapters.append(result)
        begun, requests = self.pair.clock.now(), self.pair.requests
        self.watcher.begun(endurance.CHAPTER, 0)
        try:
            for blocks in endurance.rounds(self.context):
                for block in blocks:
                    result.wanted += 1
                    self.block(result, block, None)
                    result.blocks += 1
                    result.requests = self.pair.requests - requests
                    self.watcher.went_on(result, result.blocks)
                    if self.is_enough() or self.pair.clock.now() - begun >= 3600 * hours:
                        return
                self.watcher.went_round()
        finally:
            result.seconds = self.pair.clock.now() - begun
            self._judge_left(result)
            self.watcher.ended(result)

    def put_back(self) -> None:
        """The sign in the known state, with its own settings as they were read first, where it answers. An interrupt
        that comes meanwhile has it begun once more."""
        if not self.reset.is_entered:
            return
        try:
            self.results.is_set_back = self.is_set_back()
        except KeyboardInterrupt:
            self.pair.is_dirty = True
            self.results.is_set_back = self.is_set_back()

    def is_set_back(self) -> bool:
        """Whether the sign could be put back."""
        self.pair.port.way.begin_anew()
        try:
            unreached = self.reset.reach()
            return not self.reset.put_back(self.results.first) and not unreached
        except (Stopped, Inconclusive):
            return False

    # --- chapters --------------------------------------------------------------------------------------------

    def begun(self, chapter: Chapter) -> None:
        """A chapter; where it is about what the sign claims besides, ours has that too while it lasts."""
        if not chapter.is_of_claims:
            self.chapter(chapter)
            return
        with Learnt(self.pair, self.reset, self.context, self.preflight.read_surely):
            self.results.first |= self.context.device
            self.chapter(chapter)

    def chapter(self, chapter: Chapter) -> None:
        """All cases of a chapter, and its place in the results."""
        result = ChapterResult(chapter)
        self.results.chapters.append(result)
        blocks = self._claimed(chapter)
        result.wanted = len(blocks)
        begun, requests = self.pair.clock.now(), self.pair.requests
        self.watcher.begun(chapter, len(blocks))
        history: list[Step] | None = None
        try:
            self.reset.look_for_ticks()
            for at, block in enumerate(blocks):
                before, history = history, self.block(result, block, history)
                if self.is_told_behind(result, before):
                    history = None
                if history is not None and self.pair.port.is_lossy() and len(history) > MOST_HISTORY:
                    history = None  # what differs is run again with all that was done before it
                result.blocks += 1
                result.requests = self.pair.requests - requests
                self.watcher.went_on(result, at)
                if self.is_enough():
                    break
            self.look_behind(result, history)
            self._judge_left(result)
        finally:
            result.seconds = self.pair.clock.now() - begun
            self.results.is_learnt |= self.pair.ticks.is_learnt()
            self.watcher.ended(result)

    def look_behind(self, result: ChapterResult, history: list[Step] | None) -> None:
        """What the last cases of a chapter left is looked at as what those before them left."""
        if history and not self.is_enough():
            self.pair.is_dirty = True
            self.reset.reach(is_alike=True)
            self.is_told_behind(result, history)

    def is_told_behind(self, result: ChapterResult, history: list[Step] | None) -> bool:
        """Whether the sign was not as ours on its way from these steps to the known state. It is told by a read behind
        them where that differs too, and else, where it hangs on no seconds, as what was seen once."""
        unlike = self.reset.take_unlike()
        for exchange, read in unlike:
            assert exchange.mismatch is not None
            block = Block("on the way to the known state", "", [exchange.step], is_fresh=True)
            run = None if exchange.is_slip else self.run_behind(history or [], exchange.step)
            if run is not None:
                self.difference(result, block, run, run.steps[-1:])
            elif any(map(self.reset.objects.is_steady, exchange.mismatch.names)):
                self.seen_on_the_way(result, exchange, read)
        return bool(unlike)

    def run_behind(self, history: list[Step], step: Step) -> Run | None:
        """A step behind these from the known state, where that can be told."""
        try:
            return self.runner.anew([*history, step])
        except (Inconclusive, Unreachable):
            self.pair.is_dirty = True
            return None

    def seen_on_the_way(self, result: ChapterResult, exchange: Exchange, read: str) -> None:
        """A setting that was not as ours on the way to the known state, and is not seen behind the steps before it."""
        assert exchange.mismatch is not None
        rule = classify.rule_of(exchange.octets, exchange.ours, exchange.theirs, exchange.mismatch)
        found = Difference.of(rule, result.chapter.name, exchange, [exchange.step], [exchange.octets])
        again = f", {READ_AGAIN}" if exchange.is_slip else ""
        found.is_repeated, found.note = False, f"{read} on the way to the known state, where it is written anew{again}"
        self.seen_once(result, found)

    def _claimed(self, chapter: Chapter) -> list[Block]:
        """The cases of a chapter, but for those about what the sign does not claim; each has its place in the trace."""
        blocks = list(chapter.blocks(self.context))
        if chapter.name in CARRYING:
            blocks = carried(self.context, blocks, self.texts)
        found = [traced(chapter.name, block, self.context.claims) for block in blocks]
        self.results.trace.cases += [case for case, _ in found]
        return [block for _, block in found if block is not None]

    def _judge_left(self, result: ChapterResult) -> None:
        """What could not be judged is begun again, unless that hangs on ticks that are not known."""
        for _ in range(LOSSY_PASSES if self.pair.port.is_lossy() else PASSES):
            if result.left:
                self.reset.look_for_ticks()
            if not result.left or self.is_enough() or self.reset.is_unlearnt():
                break
            left, result.left = result.left, []
            for at, block in enumerate(left):
                try:
                    self.block(result, block, None)
                except Stopped:
                    result.left += left[at:]
                    raise

    def block(self, result: ChapterResult, block: Block, history: list[Step] | None) -> list[Step] | None:
        """What was done since the known state after this block; None where it is to be reached anew."""
        self.pair.doubts = 0
        block = block.plain if block.plain is not None and self.is_text_wrong else block
        try:
            if history is None or block.is_fresh:
                is_alike = history is not None
                self.pair.is_dirty |= bool(history)  # what reads alone have left is looked at too
                run, history = self.runner.anew(block.steps, after_a_tick=False, is_alike=is_alike), []
            else:
                self.pair.begin()
                run = self.runner.steps(block.steps)
        except Unreachable as fault:
            self.preflight.tell_unreached(fault.unreached)
            return self.again(result, block, history) if not self.is_enough() else None
        except Inconclusive:
            self.pair.is_dirty = True
            is_first = history is not None and not block.is_fresh
            if is_first:
                return self.again(result, block, history)
            result.left.append(block.alone or block)
            return None
        result.told += datagrams(block.steps if run is None else run.steps)
        _end(block, ALIKE if run is None else DIFFERS)
        self.results.texts.update(block.texts)
        if run is None:
            if self.runner.is_doubtful:
                result.left.append(replace(block, is_fresh=True))
                _end(block, NOT_JUDGED)
            return [*history, *block.steps]
        self.difference(result, block, Run(run.exchange, [*history, *run.steps], run.sent), run.steps)
        return None

    def again(self, result: ChapterResult, block: Block, history: list[Step] | None) -> list[Step] | None:
        """A block that could not be told in its place, from the known state, with what was done before it. Where that
        cannot be told either, it is begun again alone."""
        before = [] if history is None or block.is_fresh else history
        alone = replace(block, is_fresh=True)
        return self.block(result, replace(alone, steps=[*before, *block.steps], alone=alone), None)

    def rule_of(self, block: Block, run: Run, is_small: bool = False) -> Rule:
        """The rule that a difference breaks."""
        exchange = run.exchange
        assert exchange.mismatch is not None
        if exchange.mismatch.kind is Kind.SPELLING:
            return RULES["shortest form"]
        key = run.steps[-1].rule or block.rule
        named = RULES[key] if key else None
        found = classify.better(named, exchange.octets, exchange.ours, exchange.theirs, exchange.mismatch)
        if not is_small or exchange.mismatch.kind is not Kind.VALUE:
            return classify.of_the_cause(found, exchange.cause)
        if named and classify.is_of_the_sets(named, found, run.steps):
            return named
        if classify.is_of_the_silence(found, run.steps):
            return RULES["silence"]
        if classify.is_of_the_copy(found, exchange.mismatch, run.steps):
            return RULES["copied"]
        return classify.of_the_command(found, exchange.ours, exchange.theirs, run.steps)

    def made_small(self, run: Run, steps: list[Step], is_shrunk: bool) -> tuple[Run, bool]:
        """The difference in few datagrams, and whether it was seen again, with ticks that were learnt anew."""
        try:
            self.reset.learn_anew()
            return shrunk(self.runner, run, steps, is_shrunk)
        except Unreachable as fault:
            self.preflight.tell_unreached(fault.unreached)
            return run, False

    def is_told(self, result: ChapterResult, rule: Rule, run: Run) -> bool:
        """Whether one like it was told, or enough of the chapter were; it is counted then."""
        about = subject(run.exchange)
        for told in self.results.differences():
            if told.rule.key == rule.key and told.mismatch.kind is run.signature.kind and told.subject == about:
                told.alike += 1
                return True
        if len(result.differences) >= MOST_TOLD:
            result.differences[-1].alike += 1
        return len(result.differences) >= MOST_TOLD

    def is_loss(self, run: Run) -> bool:
        """Whether no answer came on a way that loses some, be it three times."""
        return run.signature.kind is Kind.NO_ANSWER and (run.exchange.is_lost or self.pair.port.is_lossy())

    def _may_be_late(self, seen: Exchange) -> bool:
        """Whether a request that came late or twice may have made what was seen: the sign was as it read."""
        return self.pair.port.is_lossy() and not seen.is_slip

    def differs_in_part(self, result: ChapterResult, block: Block) -> bool:
        """Whether a part of the block differs, which is told then."""
        told = self.count()
        for part in block.parts:
            if not self.is_enough():
                self.block(result, part, None)
        return self.count() > told

    def count(self) -> int:
        """How many differences were found, with those that are like others."""
        return sum(1 + held.alike for held in self.results.differences())

    def difference(self, result: ChapterResult, block: Block, run: Run, steps: list[Step]) -> None:
        """A difference is made small and told; one like it is counted."""
        self.pair.is_dirty = True
        if self.differs_in_part(result, block):
            if block.plain is not None and not self.is_enough():
                self.is_text_wrong = True
                self.block(result, block.plain, None)
            return
        if self.is_told(result, self.rule_of(block, run), run):
            return
        seen, whole = run.exchange, [*run.steps[: len(run.steps) - len(steps)], *block.steps]
        is_shrunk = sum(held.is_shrunk for held in result.differences) < MOST_SHRUNK
        run, is_repeated = self.made_small(run, steps, is_shrunk)
        if not is_repeated and (self.is_loss(run) or self._may_be_late(seen)):
            result.left.append(replace(block, steps=whole, is_fresh=True, alone=None))
            _end(block, NOT_JUDGED)
            return
        rule = self.rule_of(block, run, is_repeated and is_shrunk)
        found = Difference.of(rule, result.chapter.name, run.exchange, run.steps, run.sent)
        found.is_repeated, found.is_shrunk = is_repeated, is_shrunk
        if not is_repeated:
            self.seen_once(result, found)
            return
        self.pair.is_spelling_told |= found.mismatch.kind is Kind.SPELLING
        result.differences.append(found)
        self.watcher.found(found)

    def seen_once(self, result: ChapterResult, found: Difference) -> None:
        """What did not come again is no difference; it is kept, or counted where enough of a chapter are."""
        if len(result.once) < MOST_TOLD:
            result.once.append(found)
        else:
            result.once[-1].alike += 1


def _end(block: Block, outcome: str) -> None:
    """What came of a block's case."""
    if block.case is not None:
        block.case.outcome = outcome


def chapters_of(names: Sequence[str], is_slow: bool) -> list[Chapter]:
    """The chapters of these names, or all; slow ones only where they are named or slow cases asked for."""
    return [chapter for chapter in ALL if chapter.name in names or not names and (is_slow or not chapter.is_slow)]
