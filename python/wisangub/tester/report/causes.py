"""What a sign did and what was expected, in a sentence: one for each difference, and one for those of one cause."""

from wisangub.snmp import wire
from wisangub.snmp.names import status_word
from wisangub.tester.findings.compare import Kind, value_words
from wisangub.tester.findings.differences import Difference
from wisangub.tester.requests.messages import spelled
from wisangub.tester.requests.objects import Name, Value, spoken

_KINDS = {wire.GET: "a Get", wire.GET_NEXT: "a GetNext", wire.SET: "a SET"}


def cause(difference: Difference) -> str:
    """What the sign did, and what was expected of it: `takes defaultBackgroundColor.0 = 10; expected: badValue`."""
    request = spelled(difference.octets)
    ours, theirs = spelled(difference.ours or b""), spelled(difference.theirs or b"")
    kind = difference.mismatch.kind
    if kind is Kind.NO_ANSWER:
        return f"does not answer {_said(request)}; expected: {_outcome(ours)}"
    if kind is Kind.ANSWER:
        return f"answers what is to be dropped with {_outcome(theirs)}; expected: no answer"
    if request is None or ours is None or theirs is None:
        return difference.title
    if kind is Kind.STATUS:
        return _by_status(request, ours, theirs)
    if kind is Kind.VALUE and difference.mismatch.names:
        name = difference.mismatch.names[0]
        expected, read = dict(ours.bindings).get(name), dict(theirs.bindings).get(name)
        if expected is not None and read is not None:  # else the requests are to bring the object to a value
            verb = "repeats" if request.kind == wire.SET else "reads"
            if read == expected:  # when it was read again, which is shown
                return f"{verb} {spoken(name)} otherwise once; expected: {value_words(expected, name)}"
            return f"{verb} {_bound(name, read)}; expected: {value_words(expected, name)}"
    return difference.title


def _by_status(request: wire.Message, ours: wire.Message, theirs: wire.Message) -> str:
    """Where the two answer with other statuses, or name other bindings."""
    if ours.status == theirs.status:
        return f"refuses binding {theirs.index} of {_said(request)}; expected: binding {ours.index}"
    place = (ours if ours.status else theirs).index
    about = _said(request)
    if 1 <= place <= len(request.bindings):
        name, value = request.bindings[place - 1]
        about = _bound(name, value) if request.kind == wire.SET else f"{_KINDS.get(request.kind)} of {spoken(name)}"
    if theirs.status == wire.NO_ERROR:
        return f"{'takes' if request.kind == wire.SET else 'answers'} {about}; expected: {_outcome(ours)}"
    return f"refuses {about} with {status_word(theirs.status)}; expected: {_outcome(ours)}"


def _bound(name: Name, value: Value) -> str:
    return f"{spoken(name)} = {value_words(value, name)}"


def _outcome(message: wire.Message | None) -> str:
    """How a request ended."""
    return "no message" if message is None else status_word(message.status)


def _said(request: wire.Message | None) -> str:
    """A request in few words."""
    if request is None:
        return "octets that are no message"
    names = ", ".join(spoken(name) for name, _ in request.bindings[:2]) or "no names"
    return f"{_KINDS.get(request.kind, 'a message')} of {names}" + (" .." if len(request.bindings) > 2 else "")


def causes(differences: list[Difference]) -> list[str]:
    """A line for all differences of one rule: the first of them, why, and how many there are."""
    by_rule: dict[str, list[Difference]] = {}
    for held in differences:
        by_rule.setdefault(held.rule.key, []).append(held)
    return [_of_a_rule(held) for held in by_rule.values()]


def _of_a_rule(held: list[Difference]) -> str:
    first, count = held[0], sum(1 + difference.alike for difference in held)
    more = f" ({count} differences)" if count > 1 else ""
    return f"{first.rule.chapter}: {cause(first)}, since: {first.rule.sentence}{more}"
