"""Validation: each verdict, and each fault of a text with its place."""

from typing import Iterator

from wisangub.snmp.names import scalar
from wisangub.tester.context import Context
from wisangub.tester.requests.objects import Column, Row
from wisangub.tester.requests.steps import Step

from .block import Block, Chapter, fill, look, look_at, modify, settle
from .edge_texts import Sample
from .texts import samples

_VERDICT = (scalar("dmsValidateMessageError"), scalar("dmsMultiSyntaxError"), scalar("dmsMultiSyntaxErrorPosition"))


def judged(row: Row, text: bytes, beacon: int = 0, pixel: int = 0) -> list[Step]:
    """A row with this text is validated, and the verdict read."""
    filled = fill(row, text, b"", beacon, pixel)
    return [
        modify(row),
        filled,
        *settle(row, rule=""),
        look_at(row.cell(Column.STATUS), *_VERDICT, row.cell(Column.CRC)),
    ]


def _verdicts(context: Context, row: Row, last: Row) -> Iterator[Block]:
    bad = b"[zz]"
    for beacon, pixel, text in ((1, 0, b""), (0, 1, b""), (1, 1, b""), (1, 1, bad), (0, 1, bad)):
        name = f"beacon {beacon}, pixel service {pixel}" + (", a fault" if text else "")
        yield Block(name, "verdicts", [*judged(row, text, beacon, pixel), *look(row)])
    none: list[Step] = [*judged(row, bad), *judged(last, context.character()), *look(row, last)]
    yield Block("a fault, then none in another row", "no fault", none)


def _rule_of(context: Context, text: bytes, rule: str) -> str:
    """A text whose fault is another than the one it was made for breaks the general rule."""
    fault = context.fault(text)
    codes = {
        "fonts": (6, 13),
        "characters": (7,),
        "room": (5,),
        "line parts": (11,),
        "page parts": (11, 5),
        "pages": (12, 5),
    }
    return rule if fault is None or rule not in codes or fault[0] in codes[rule] else "layout"


def _blocks(context: Context) -> Iterator[Block]:
    if not context.rows:
        return
    row = context.rows[0]
    yield from _verdicts(context, row, context.rows[-1])
    for sample in samples(context):
        yield told(context, row, sample)


def told(context: Context, row: Row, sample: Sample) -> Block:
    """A text's block; where one of joined texts differs, each of them tells."""
    rule = _rule_of(context, sample.text, sample.rule)
    parts = [told(context, row, part) for part in sample.parts] if len(sample.parts) > 1 else []
    texts = tuple(part.text for part in sample.parts or (sample,))
    name = f"the text {sample.text[:60].decode('latin-1')!r}"
    return Block(name, rule, judged(row, sample.text), parts=parts, texts=texts)


CHAPTER = Chapter("validation", "Validation", _blocks)
