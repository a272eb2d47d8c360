"""What a case shows of what a sign claims, and a case without what the sign does not claim."""

from dataclasses import replace

from wisangub.snmp import wire
from wisangub.tester.findings.trace import NOT_JUDGED, NOT_SUPPORTED, Case
from wisangub.tester.requests.objects import Column, column_of
from wisangub.tester.requests.steps import Ask, Step
from wisangub.tester.requests.texts import tags_of
from wisangub.tester.sign.claims import Claims, object_word

from .block import Block

_MOST_READ = 8  # names of a read that is about them; others are looks at all that a sign has


def texts_of(block: Block) -> list[bytes]:
    """The texts that a case writes."""
    asks = [step for step in block.steps if isinstance(step, Ask) and step.kind == wire.SET]
    bindings = [bound for ask in asks for bound in ask.bindings]
    return [value[1] for name, value in bindings if column_of(name) == Column.TEXT and isinstance(value[1], bytes)]


def shown_by(block: Block, claims: Claims = Claims()) -> set[str]:
    """What a case shows: the objects that it writes, or else reads, and the tags of its texts as `[fo]`; and what of
    the objects beside the profile's that are claimed."""
    asks = [step for step in block.steps if isinstance(step, Ask)]
    written = {object_word(name) for ask in asks if ask.kind == wire.SET for name, _ in ask.bindings}
    read = {object_word(name) for ask in asks if len(ask.bindings) <= _MOST_READ for name, _ in ask.bindings}
    tags = {f"[{tag}]" for text in texts_of(block) for tag in tags_of(text)}
    words = {claim.name: claim.word for claim in claims.device}
    besides = {words.get(name, "") for ask in asks for name, _ in ask.bindings} if words else set()
    return ((written or read) | tags | besides) - {""}


def claimed(block: Block, claims: Claims) -> Block | None:
    """The case, but for objects and values of requests of more than one name that the sign does not claim; None where
    a text has a tag that it does not take."""
    if any(tags_of(text) & claims.tags for text in texts_of(block)):
        return None
    if not claims.missing and not claims.ranges:
        return block
    steps = [_claimed_step(step, claims) for step in block.steps]
    parts = [held for part in block.parts if (held := claimed(part, claims)) is not None]
    plain = None if block.plain is None else claimed(block.plain, claims)
    return replace(block, steps=steps, parts=parts, plain=plain)


def traced(chapter: str, block: Block, claims: Claims) -> tuple[Case, Block | None]:
    """The case of a block in the report, and the block as it is asked, with that case."""
    held = claimed(block, claims)
    case = Case(
        chapter, block.name, block.rule, sorted(shown_by(block, claims)), NOT_SUPPORTED if held is None else NOT_JUDGED
    )
    if held is None:
        return case, None
    return case, replace(held, case=case, plain=held.plain and replace(held.plain, case=case))


def _claimed_step(step: Step, claims: Claims) -> Step:
    if not isinstance(step, Ask) or len(step.bindings) < 2:
        return step
    is_set = step.kind == wire.SET
    kept = [
        bound for bound in step.bindings if not (claims.is_missing(bound[0]) or is_set and not claims.is_taken(bound))
    ]
    return step.with_bindings(kept) if kept else step
