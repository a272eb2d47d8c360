"""What is possible, narrowed by texts: each text is a row of tests of which the first that fails is told."""

import random
from dataclasses import dataclass
from typing import Callable, Generic, Sequence, TypeVar

from .lines import Frame, Line, Page
from .validations import SYNTAX, TOO_BIG, Unlike, Validations, Verdict

T = TypeVar("T")
_MOST_LOOKED_AT, _SAMPLES = 500, 3  # hypotheses that tests are chosen by, and times that others are taken


@dataclass(frozen=True)
class Test(Generic[T]):
    """A part of a text, and whether it finds room if a hypothesis is right."""

    part: Line | Page
    fits: Callable[[T], bool]


def first_without_room(verdict: Verdict, frame: Frame, count: int) -> int:
    """Which part of a text finds no room first; `count`, that of the parts, where all do. Raises Unlike where the sign
    found another fault."""
    if verdict.is_fit:
        return count
    if verdict.error != SYNTAX or verdict.code != TOO_BIG:
        raise Unlike(
            f"a text of characters that it has is refused (dmsValidateMessageError {verdict.error}, "
            f"dmsMultiSyntaxError {verdict.code} at {verdict.at}): {frame.text()!r}"
        )
    return frame.part_at(verdict.at)


def narrow(
    validations: Validations, possible: Sequence[T], tests: Sequence[Test[T]], frame: Callable[[], Frame]
) -> list[T]:
    """What is left of the hypotheses when no test tells them apart. Raises Unlike where none is left."""
    left = list(possible)
    while len(left) > 1:
        made, chain = _text(left, tests, frame)
        if not chain:
            break
        failed = first_without_room(validations.ask(made.text()), made, len(chain))
        left = [held for held in left if _fails(held, chain) == failed]
    if not left:
        raise Unlike("it lays texts out otherwise than the profile says, so their room does not tell its fonts")
    return left


def _text(left: Sequence[T], tests: Sequence[Test[T]], frame: Callable[[], Frame]) -> tuple[Frame, list[Test[T]]]:
    """A text and its tests, by all that is left or, where that is more, by samples: the sign's seconds go on."""
    if len(left) <= _MOST_LOOKED_AT:
        made = frame()
        return made, _chain(left, tests, made)
    for seed in range(_SAMPLES):
        made = frame()
        chain = _chain(random.Random(seed).sample(left, _MOST_LOOKED_AT), tests, made)
        if chain:
            break
    return made, chain


def _fails(hypothesis: T, chain: Sequence[Test[T]]) -> int:
    """The first test that fails; their count where none does."""
    return next((at for at, test in enumerate(chain) if not test.fits(hypothesis)), len(chain))


def _chain(left: Sequence[T], tests: Sequence[Test[T]], frame: Frame) -> list[Test[T]]:
    """Tests, put into the frame, that part what is left into as many classes of one size as find room."""
    failing = [(_mask([not test.fits(held) for held in left]), test) for test in tests]
    whole = remaining = (1 << len(left)) - 1
    failing = [(fails, test) for fails, test in failing if fails not in (0, whole)]
    wanted = max(1, len(left) // (frame.parts + 1))
    chain: list[Test[T]] = []
    while remaining.bit_count() > 1:
        failing = [(fails, test) for fails, test in failing if fails & remaining]
        if not failing:
            break
        at = min(range(len(failing)), key=lambda at: abs((failing[at][0] & remaining).bit_count() - wanted))
        fails, test = failing.pop(at)
        if fails & remaining == remaining or not frame.is_added(test.part):
            continue
        chain.append(test)
        remaining &= ~fails
    return chain


def _mask(bits: Sequence[bool]) -> int:
    return int("".join("1" if bit else "0" for bit in reversed(bits)) or "0", 2)
