"""On a way that loses some: a setting that reads what nobody ever wrote to it. What was written before may come late,
or once more, and make it read so; this the sign did, or read, by itself."""

from wisangub.snmp import wire
from wisangub.tester.findings.compare import Kind, Mismatch
from wisangub.tester.requests.objects import Name, Value
from wisangub.tester.requests.steps import get
from wisangub.tester.sign.pair import Exchange, Pair


def unwritten(pair: Pair, have: dict[Name, Value | None], wanted: dict[Name, Value]) -> list[tuple[Name, Exchange]]:
    """Of settings, as they are read and as they have to read, those that no request can have made so: each asked for
    once more, with the reply that it should have. One that is right then is a slip."""
    found: list[tuple[Name, Exchange]] = []
    for name, value in wanted.items():
        held = have.get(name)
        if held == value or held is not None and (name, held) in pair.port.written:
            continue
        step, number = get(name), pair.port.new_number()
        octets = step.octets(number, pair.communities)
        community = pair.communities[step.is_writer]
        right = wire.written(wire.Message(wire.RESPONSE, community, number, 0, 0, [(name, value)]))
        theirs = pair.port.ask(octets, number).reply
        if theirs is not None:
            exchange = Exchange(step, octets, right, theirs, Mismatch(Kind.VALUE, (name,)))
            exchange.is_slip = theirs == right
            found.append((name, exchange))
    return found
