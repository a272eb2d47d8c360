"""The model of model as a co-process, one line in and its answer out: a stand-in for `signtool sign` and `signtool
centre`.

    model/signtool sign [--sign] [--restore]       model/signtool centre [--sign] [--restore]
    model/signtool pages [--sign] [--svg] [--page N] TEXT      (pages.py)

With --sign a description comes first, up to its line `end`; else the sign is the bench sign. With --restore the sign
or the centre goes on from a state, which comes next, up to its line `end`.
"""

import argparse
import functools
import os
import sys
from collections.abc import Callable, Iterable
from typing import TypeVar

from . import causes, device, layout, pages, published, text
from .agent import Agent
from .description import Description
from .restored import restore
from .restored_centre import restored
from .saved_agent import saved_agent
from .saved_centre import saved as saved_centre
from .state_text import Refused

_MOST_LINE = 65_536


def without_newline(line: bytes) -> bytes:
    """A line without its newline, and without a carriage return before that."""
    return line[:-1].removesuffix(b"\r") if line.endswith(b"\n") else line


def _print_lines(*lines: str) -> None:
    """Writes lines; where nobody reads them any more, that is the end."""
    try:
        os.write(1, "".join(line + "\n" for line in lines).encode())
    except BrokenPipeError:
        os._exit(1)


_End = TypeVar("_End")
_Answer = Callable[[_End, list[bytes]], list[str]]


def _telling(cause: Callable[[bytes], str | None]) -> Callable[[_Answer[_End]], _Answer[_End]]:
    """Has an end that refuses a line with a ValueError answer why it does."""

    def of_end(answer: _Answer[_End]) -> _Answer[_End]:
        @functools.wraps(answer)
        def told(end: _End, words: list[bytes]) -> list[str]:
            try:
                if b"" in words:
                    raise ValueError
                return answer(end, words)
            except ValueError:
                return [f"bad line {cause(b' '.join(words))}"]

        return told

    return of_end


def _firmware_answer(agent: Agent, words: list[bytes]) -> list[str] | None:
    """The lines that answer a line about objects beside a sign's; None where it is none."""
    keyword = words[0]
    if keyword == b"object":
        why = agent.publish(published.published(words[1:]))
        return ["ok" if why is None else f"refused {why}"]
    if keyword == b"no-object":
        was_there = agent.device.withdraw(published.name(text.wants(words, keyword, 1)[0]))
        return ["ok" if was_there else f"refused {device.NONE}"]
    if keyword == b"set":
        why = agent.device.put_back(*published.assigned(words))
        return ["ok" if why is None else f"refused {why}"]
    if words == [b"fonts"]:
        return ["ok" if agent.show_fonts() else "refused objects are published already"]
    if words == [b"objects"]:
        taken = agent.device.taken()
        return [*(f"set {published.dotted(one.name)} {published.printed(one.value)}" for one in taken), "ok"]
    return None


@_telling(causes.of_agent_call)
def sign_answer(agent: Agent, words: list[bytes]) -> list[str]:
    """The lines that answer a line to a sign."""
    keyword, sign = words[0], agent.sign
    answer = _firmware_answer(agent, words)
    if answer is not None:
        return answer
    if keyword == b"datagram":
        reply, code = agent.receive(text.octets(text.wants(words, keyword, 1)[0]))
        if reply is None:
            return ["dropped"]
        return [f"accepted {code.octets(sign.state.swapped).hex()} {reply.hex()}" if code else f"reply {reply.hex()}"]
    if keyword == b"power-back":
        sign.showing.power_back(text.number(text.wants(words, keyword, 1)[0], 0, 2**32 - 1, 10))
        return ["ok"]
    if keyword == b"ticks":
        sign.showing.ticks(text.number(text.wants(words, keyword, 1)[0], 0, 2**32 - 1, 10))
        return ["ok"]
    text.wants(words, keyword, 0)
    if keyword == b"tick":
        sign.tick()
    elif keyword == b"heard":
        sign.showing.heard()
    elif keyword == b"power-lost":
        sign.showing.power_lost()
    elif keyword == b"state":
        return [text.shown_line(sign), "ok"]
    elif keyword == b"save":
        return [*saved_agent(agent), "ok"]
    elif keyword == b"show":
        shown = sign.state.shown
        pages, _ = layout.laid_out(sign.state.face, shown.defaults, shown.text)
        assert pages is not None
        return [*layout.drawn(sign.state.face, pages), "ok"]
    else:
        raise ValueError
    return ["ok"]


@_telling(causes.of_centre_call)
def centre_answer(world: text.World, words: list[bytes]) -> list[str]:
    """The lines that answer a line to a centre."""
    centre, keyword = world.centre, words[0].decode("latin-1")
    if keyword in ("publish", "blank", "activate"):
        sent = centre.command(text.event(words, world.sign.state.swapped))
        if centre.refusal is not None:
            return [f"refused {centre.refusal}"]
        return [f"send {sent.hex()}"] if sent else ["ok"]
    if keyword == "datagram":
        sent = centre.receive(text.octets(text.wants(words, b"datagram", 1)[0]))
        return [f"send {sent.hex()}"] if sent else ["ok"]
    stands = ["busy" if centre.job else "idle", f"last {centre.last or 'none'}"]
    if words == [b"status", b"last"]:
        return [*stands, "ok"]
    text.wants(words, words[0], 0)
    if keyword == "tick":
        sent = centre.tick()
        return [f"send {sent.hex()}"] if sent else ["ok"]
    if keyword == "restart":
        centre.restart()
        return ["ok"]
    if keyword == "save":
        return [*saved_centre(centre), "ok"]
    if keyword == "status":
        ledger = world.report()[3 + len(world.accepted) :]
        return [*stands, *ledger, "ok"]
    raise ValueError


def answered(answer: Callable[[list[bytes]], list[str]], line: bytes) -> list[str]:
    """The lines that answer a line, of an end that answers words. One that is too long is not looked at."""
    return ["bad line"] if len(line) > _MOST_LINE else answer(line.split(b" "))


def up_to_end(lines: Iterable[bytes]) -> bytes:
    """The next lines, up to and with the first `end`."""
    found = []
    for line in lines:
        found.append(line)
        if without_newline(line) == b"end":
            break
    return b"".join(found)


def _described(has_description: bool) -> Description:
    """What the sign is made of; one that is refused is the end."""
    try:
        return text.described(up_to_end(sys.stdin.buffer)) if has_description else text.bench()
    except text.Bad as bad:
        _print_lines(f"line {bad.line}")
    except text.TooLong:
        _print_lines("too long")
    sys.exit(1)


def _state() -> bytes:
    """The text of a state; one that is too long is the end."""
    state = up_to_end(sys.stdin.buffer)
    if len(state) > text.MOST_INPUT:
        _print_lines("too long")
        sys.exit(1)
    return state


def _agent(described: Description, has_state: bool) -> Agent:
    """The sign, where a state leaves it, if one comes."""
    agent = Agent(described)
    if has_state:
        restore(agent.sign.state, _state())
    return agent


def _world(described: Description, has_state: bool) -> text.World:
    """The same of the centre."""
    world = text.World(described)
    if has_state:
        world.centre = restored(described.writer, described.swapped, _state())
    return world


def _answering(end: str, described: Description, has_state: bool) -> Callable[[list[bytes]], list[str]]:
    """What answers the words of a line; a state that is refused is the end."""
    try:
        if end == "sign":
            return functools.partial(sign_answer, _agent(described, has_state))
        return functools.partial(centre_answer, _world(described, has_state))
    except Refused as refused:
        _print_lines(f"state line {refused.line}")
        sys.exit(f"state {refused}")


def main() -> int:
    if sys.argv[1:2] == ["pages"]:
        return pages.main(sys.argv[2:], _described, _print_lines)
    parser = argparse.ArgumentParser(description=__doc__, formatter_class=argparse.RawDescriptionHelpFormatter)
    parser.add_argument("end", choices=("sign", "centre"), help="which end answers")
    parser.add_argument("--sign", action="store_true", help="a description comes first")
    parser.add_argument("--restore", action="store_true", help="then a state comes")
    asked = parser.parse_args()
    answer = _answering(asked.end, _described(asked.sign), asked.restore)
    for line in map(without_newline, sys.stdin.buffer):
        _print_lines(*answered(answer, line))
    return 0


if __name__ == "__main__":
    sys.exit(main())
