"""States of a sign, as random talks leave them and changed: the program and the model go on from them to the same, or
refuse them at the same line."""

import contextlib
import functools
import io
import os
import random
import re
import select
import signal
import subprocess
from collections.abc import Iterator, Sequence

from model import coprocess, text
from model.agent import Agent
from model.description import Description
from model.restored import restore
from model.saved import saved
from model.state_text import Refused

_PATIENCE = 60.0  # seconds
_NUMBERS = ("0", "1", "2", "3", "4", "5", "8", "13", "255", "256", "512", "513", "65535", "3932100", "4294967295", "01")
_OCTETS = "0123456789abcdefABCDEF -.\n\r\0#"
Told = tuple[list[str], str]  # what is printed, and the reason of a refusal


def text_of(agent: Agent) -> str:
    """The text of a sign's state."""
    return "\n".join([*saved(agent.sign.state), ""])


def of_model(described: Description, octets: str) -> Told:
    """What the model answers, where these octets come with --restore."""
    lines, agent = iter(io.BytesIO(octets.encode("latin-1"))), Agent(described)
    try:
        restore(agent.sign.state, coprocess.up_to_end(lines))
    except Refused as refused:
        return [f"state line {refused.line}"], str(refused)
    answer = functools.partial(coprocess.sign_answer, agent)
    return [one for line in lines for one in coprocess.answered(answer, coprocess.without_newline(line))], ""


@contextlib.contextmanager
def _in_memory(octets: bytes = b"") -> Iterator[int]:
    """A file in memory with these octets, at its begin."""
    with open(os.memfd_create("octets"), "w+b", buffering=0) as file:
        file.write(octets)
        file.seek(0)
        yield file.fileno()


def _status(process: int, call: list[str]) -> int:
    """How a process ended; one that does not end is killed."""
    with open(os.pidfd_open(process), "rb", buffering=0) as ends:
        is_ended = select.select([ends], [], [], _PATIENCE)[0]
    if not is_ended:
        os.kill(process, signal.SIGKILL)
    status = os.waitstatus_to_exitcode(os.waitpid(process, 0)[1])
    if not is_ended:
        raise subprocess.TimeoutExpired(call, _PATIENCE)
    return status


def begun(program: str, end: str, description: bytes | None, octets: bytes) -> subprocess.CompletedProcess[bytes]:
    """The program, of an end that begins in the state of these octets, which lines may follow. Its files are in memory,
    since with pipes, at which both wait for each other, a call takes some five times as long."""
    call = [program, end, "--restore", *(["--sign"] if description is not None else [])]
    with _in_memory((description or b"") + octets) as given, _in_memory() as told, _in_memory() as why:
        files = [(os.POSIX_SPAWN_DUP2, file, at) for at, file in enumerate((given, told, why))]
        status = _status(os.posix_spawn(program, call, os.environ, file_actions=files), call)
        said = [os.pread(file, os.fstat(file).st_size, 0) for file in (told, why)]
    return subprocess.CompletedProcess(call, status, *said)


def of_program(program: str, description: bytes | None, octets: str) -> Told:
    """The same of the program."""
    ended = begun(program, "sign", description, octets.encode("latin-1"))
    found = re.search(r"line \d+: .*", ended.stderr.decode("latin-1"))
    return ended.stdout.decode("latin-1").splitlines(), found[0] if found else ""


def _with_other_word(chance: random.Random, lines: list[str]) -> None:
    """A word of a line is a number, or that of another line."""
    at = chance.randrange(1, len(lines))
    words, others = lines[at].split(" "), chance.choice(lines).split(" ")
    words[chance.randrange(len(words))] = chance.choice([*_NUMBERS, chance.choice(others)])
    lines[at] = " ".join(words)


def changed(chance: random.Random, octets: str) -> str:
    """A text with something changed: a word mostly, or octets, or lines."""
    kind, at = chance.random(), chance.randrange(len(octets))
    if kind < 0.15:
        return octets[:at] + chance.choice(_OCTETS) + octets[at + chance.choice((0, 1)) :]
    if kind < 0.2:
        return octets[:at]
    lines = octets.splitlines()
    if kind < 0.8:
        _with_other_word(chance, lines)
    elif kind < 0.9:
        lines[at % len(lines)] = chance.choice(lines)
    else:
        lines.insert(at % len(lines), chance.choice(lines))
    return "".join(f"{line}\n" for line in lines)


def _handed(octets: str, published: Sequence[str]) -> str:
    """What is handed over with --restore, to be saved again: a state up to its first line `end`, lines that publish,
    and what stands behind that line."""
    end = re.search(r"(?m)^end\r?\n", octets)
    at = end.end() if end else len(octets)
    return octets[:at] + "".join(f"{line}\n" for line in published) + octets[at:] + "save\n"


def compared(
    chance: random.Random,
    program: str,
    description: bytes | None,
    octets: str,
    count: int,
    published: Sequence[str] = (),
) -> list[str]:
    """What the program answers otherwise than the model, of a state that the program has, beside which is published
    what was so there, and of it so often changed."""
    described = text.bench() if description is None else text.described(description)
    found, others = [], [octets, *(changed(chance, octets) for _ in range(count))]
    lines = octets.splitlines()
    again = ["ok"] * (len(published) + len(lines) - lines.index("end") - 1) + [*lines, "ok"]
    for other in others:
        handed = _handed(other, published)
        told, wanted = of_program(program, description, handed), of_model(described, handed)
        if told != wanted or other == octets and wanted != (again, ""):
            found.append(f"state {other!r} beside {published}: signtool {told}, the model {wanted}")
    return found
