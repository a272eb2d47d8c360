"""Endurance: random requests of ever other seeds, for hours; with --hours."""

from typing import Iterator

from wisangub.tester.context import Context

from .block import Block, Chapter
from .random_requests import CHAPTER as RANDOM

_REQUESTS = 500  # of a seed


def rounds(context: Context) -> Iterator[list[Block]]:
    """Blocks of random requests, of one seed after the other, without end."""
    seed = context.seed
    while True:
        seed += 1
        yield list(RANDOM.blocks(context.with_seed(seed, _REQUESTS)))


CHAPTER = Chapter("endurance", "Endurance", lambda _: iter(()))
