"""The report on a terminal: with rich where it can be imported, in plain lines else."""

import contextlib
import sys
import time
from typing import Any, Callable, TextIO

from wisangub.tester.chapters import Chapter
from wisangub.tester.findings.differences import Difference
from wisangub.tester.findings.results import ChapterResult, Results

from .causes import cause, causes
from .words import (
    About,
    besides_words,
    chapter_words,
    claims_words,
    how_sure,
    load_words,
    origin,
    person_words,
    sequence,
    set_back_words,
    verdict,
    way_words,
)

try:
    from rich.console import Console
    from rich.progress import BarColumn, Progress, TextColumn, TimeElapsedColumn
except ImportError:
    Console = None  # type: ignore[assignment,misc]

MOST_LINES, MOST_OCTETS = 12, 200
MOST_SECONDS = 60.0  # between two reports of what is asked for hours


def _shortened(octets: str) -> str:
    return octets if len(octets) <= MOST_OCTETS else f"{octets[:MOST_OCTETS]}.. ({len(octets) // 2} octets)"


def _side(name: str, lines: list[str], other: list[str]) -> list[str]:
    """A reply's fields; those that the other has not are marked."""
    found = [f"    {name}:"]
    shown = [line for line in lines if line not in other] or lines[:1]
    found += [f"      {'' if line in other else '> '}{line}" for line in shown[:MOST_LINES]]
    return found


def difference_lines(number: int, difference: Difference, about: About) -> list[str]:
    """All that is said of a difference."""
    ours, theirs = difference.sides()
    lines = [
        f"{number}. {difference.rule.chapter}: {cause(difference)}",
        f"    {difference.title}",
        f"    rule: {difference.rule.heading} ({origin(difference)})",
        f'      "{difference.rule.sentence}"',
    ]
    if sure := how_sure(difference):
        lines.append(f"    note: {sure}")
    lines.append("    from the known state:")
    for octets, decoded in sequence(difference):
        lines += [f"      {octets and 'send ' + _shortened(octets) or decoded[0]}"]
        lines += [f"        {line}" for line in (decoded[:MOST_LINES] if octets else [])]
    lines += _side("our sign", ours, theirs) + _side("this sign", theirs, ours)
    lines += [
        f"    octets of ours:  {_shortened(difference.ours.hex()) if difference.ours else '-'}",
        f"    octets of this:  {_shortened(difference.theirs.hex()) if difference.theirs else '-'}",
        f"    again: {about.command(difference)}",
    ]
    return lines


def _chapter_line(result: ChapterResult) -> str:
    untold = f", {len(result.once)} now and then" if result.once else ""
    untold += f", {result.missing} of {result.wanted} cases not judged" if result.missing else ""
    counts = f"{result.blocks:5} cases {result.requests:7} requests {result.seconds:7.1f} s"
    return f"{result.chapter.title:28} {counts}  {chapter_words(result)}{untold}"


class Plain:
    """A line a chapter."""

    def __init__(self, out: TextIO = sys.stdout) -> None:
        self.out = out
        self.after: Callable[[], None] = lambda: None  # what is to be done as more is known
        self._last = 0.0

    def _print(self, line: str) -> None:
        with contextlib.suppress(OSError):  # nobody reads it, which ends no test
            print(line, file=self.out, flush=True)

    def begun(self, chapter: Chapter, blocks: int) -> None:
        ...

    def went_on(self, result: ChapterResult, at: int) -> None:
        ...

    def went_round(self) -> None:
        if time.monotonic() - self._last >= MOST_SECONDS:
            self._last = time.monotonic()
            self.after()

    def ended(self, result: ChapterResult) -> None:
        self.after()
        self._print(_chapter_line(result))

    def found(self, difference: Difference) -> None:
        self.after()
        self._print(f"  {difference.rule.chapter}: {difference.title} ({difference.rule.heading})")

    def close(self) -> None:
        ...


class Rich(Plain):
    """The same under a progress bar."""

    def __init__(self) -> None:
        super().__init__()
        self.console: Any = Console()
        self.progress: Any = Progress(
            TextColumn("{task.description:28}"),
            BarColumn(),
            TextColumn("{task.completed}/{task.total}"),
            TimeElapsedColumn(),
            console=self.console,
            transient=True,
        )
        self.progress.start()
        self.task: Any = None

    def _print(self, line: str) -> None:
        self.progress.console.print(line, markup=False, highlight=False, soft_wrap=True)

    def begun(self, chapter: Chapter, blocks: int) -> None:
        self.task = self.progress.add_task(chapter.title, total=blocks)

    def went_on(self, result: ChapterResult, at: int) -> None:
        self.progress.update(self.task, completed=at + 1)

    def ended(self, result: ChapterResult) -> None:
        self.progress.remove_task(self.task)
        super().ended(result)

    def close(self) -> None:
        self.progress.stop()


def watcher() -> Plain:
    """Who tells a person how the test goes on: with a progress bar where there can be one."""
    return Rich() if Console is not None and sys.stdout.isatty() else Plain()


def ending(results: Results, about: About, not_tested: list[str]) -> list[str]:
    """What is said last: each difference, what was not tested, and the verdict."""
    lines: list[str] = []
    for name, described, read in results.configuration:
        lines.append(f"described otherwise: {name} is {described} in the description, {read} on the sign")
    lines += set_back_words(results)
    if results.besides:
        lines.append(f"besides: the sign has {besides_words(results)}, which is no difference")
    for number, difference in enumerate([*results.differences(), *results.once()], 1):
        lines += ["", *difference_lines(number, difference, about)]
    lines += ["", "what differs:", *[f"  {line}" for line in found]] if (found := causes(results.differences())) else []
    lines += ["", "not tested:", *[f"  {line}" for line in not_tested]]
    for title, held in (
        ("what the sign claims:", claims_words(results)),
        ("load:", load_words(results)),
        ("what a person saw:", person_words(results)),
        ("the way to the sign:", way_words(results)),
        ("not judged:", results.unjudged()),
    ):
        lines += ["", title, *[f"  {line}" for line in held]] if held else []
    lines += ["", verdict(results)]
    return lines
