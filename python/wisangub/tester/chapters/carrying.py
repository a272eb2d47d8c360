"""Texts that chapters besides validation carry: a row that waits for its second anyway holds one that tells more."""

from dataclasses import replace
from typing import Iterator

from wisangub.snmp import wire
from wisangub.tester.context import Context
from wisangub.tester.requests.objects import Binding, Column, column_of, is_validation
from wisangub.tester.requests.steps import Ask, Step

from .block import Block
from .edge_texts import Sample
from .validation import told

CHAPTERS = ("rows", "activation", "priorities", "defaults", "durations", "silence")
_CODES = {12: 6, 5: 3}  # the length of a code, and where its checksum stands in it


def carried(context: Context, blocks: list[Block], texts: Iterator[Sample]) -> list[Block]:
    """The blocks, each with its plain form where it carries a text; blocks that go on with one another carry one."""
    found: list[Block] = []
    for group in _groups(blocks):
        sample = next(texts, None) if _is_validating(context, group) else None
        found += group if sample is None else [_carrying(context, block, sample) for block in group]
    return found


def _groups(blocks: list[Block]) -> Iterator[list[Block]]:
    """Blocks up to the next that begins in the known state."""
    group: list[Block] = []
    for block in blocks:
        if block.is_fresh and group:
            yield group
            group = []
        group.append(block)
    yield group


def _is_validating(context: Context, group: list[Block]) -> bool:
    """Whether a row with the one character is validated, and no other text is written."""
    bindings = [bound for block in group for step in block.steps if isinstance(step, Ask) for bound in _written(step)]
    texts = {value[1] for name, value in bindings if column_of(name) == Column.TEXT}
    return texts == {context.character()} and any(is_validation(*bound) for bound in bindings)


def _written(step: Ask) -> tuple[Binding, ...]:
    return step.bindings if step.kind == wire.SET else ()


def _carrying(context: Context, block: Block, sample: Sample) -> Block:
    """A block with this text in the place of the one character, and the checksums of codes with it."""
    one, row = context.character(), context.rows[0]
    crcs = {}
    for beacon, pixel in ((0, 0), (0, 1), (1, 0), (1, 1)):
        codes = (context.message_code(row, context.crc(text, beacon, pixel)) for text in (one, sample.text))
        before, after = (code[_CODES[5] :] for code in codes)
        crcs[before] = after

    def bound_with(bound: Binding) -> Binding:
        name, (tag, held) = bound
        if column_of(name) == Column.TEXT and held == one:
            return name, (tag, sample.text)
        at = _CODES.get(len(held)) if isinstance(held, bytes) and column_of(name) is None else None
        if at is None or not isinstance(held, bytes) or held[at : at + 2] not in crcs:
            return bound
        return name, (tag, held[:at] + crcs[held[at : at + 2]] + held[at + 2 :])

    steps: list[Step] = [
        step.with_bindings([bound_with(bound) for bound in step.bindings])
        if isinstance(step, Ask) and step.kind == wire.SET
        else step
        for step in block.steps
    ]
    if steps == list(block.steps):
        return block
    texts = tuple(part.text for part in sample.parts or (sample,))
    parts = [told(context, context.rows[0], part) for part in sample.parts or (sample,)]
    return replace(block, steps=steps, parts=parts, plain=block, texts=texts)
