"""The state of an agent as text: that of its sign, and the values of objects that managers set."""

from . import published, wire
from .agent import Agent
from .saved import saved
from .state_text import Refused


def saved_agent(agent: Agent) -> list[str]:
    """The lines of an agent's state; what firmware publishes stands in none."""
    objects = agent.device.objects
    kept = [objects[name] for name in sorted(objects) if objects[name].by_manager]
    lines = [f"set {published.dotted(one.name)} {published.printed(one.value)}" for one in kept]
    return [*saved(agent.sign.state), *lines]


def parts(text: bytes) -> tuple[bytes, bytes]:
    """The state of the sign, up to and with the first line `end`, and what stands behind it."""
    lines = text.splitlines(keepends=True)
    count = lines.index(b"end\n") + 1 if b"end\n" in lines else len(lines)
    return b"".join(lines[:count]), b"".join(lines[count:])


def _value(line: bytes) -> tuple[wire.Name, wire.Tagged]:
    """What a line says of an object; raises ValueError, which says what is not there."""
    word, *words = line.split(b" ")
    if word != b"set":
        raise ValueError("set, a name and a value are wanted")
    name, value, more = published.valued(words)
    if more:
        raise ValueError("after the value the end of the line is wanted")
    return name, value


def put_objects(agent: Agent, text: bytes) -> None:
    """Puts the values of a state back to what is published; raises Refused, and then nothing has changed."""
    sign, objects = parts(text)
    *lines, last = objects.split(b"\n")
    values, number = [], sign.count(b"\n") + 1
    for line in lines:
        try:
            values.append(_value(line))
        except ValueError as fault:
            raise Refused(number, str(fault)) from None
        number += 1
    if last:
        raise Refused(number, "a newline is wanted at its end")
    for name, value in values:
        agent.device.put_back(name, value)
