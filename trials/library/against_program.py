"""Talks of many lines, with the library and with the program; and the whole walk of both after every call."""

from __future__ import annotations

import itertools
import os
import pathlib
import subprocess
import threading
import time
from typing import IO, Iterable, Iterator

from model import text, wire
from model.sign import Sign
from trials.agents import Firmware, Requests

from .against_vectors import cases
from .trial import MOST_TALK, SIGNS, Late, Trial, described

_LINES = 2000
_WALKED, _WALKED_SHORT = 1000, 60  # calls with a walk after each
_PREFIXES, _PREFIXES_SHORT = 150, 12  # talks with a walk at the end alone
_AT_ONCE = 30  # names of a Get of a walk
_COMMANDS = (
    "publish 3 1 41 - 0 0 200 65535 255 192.0.2.1",
    "publish 4 1 5b6e705d - 1 1 1 5 255 192.0.2.1",
    "blank 1 60 255 192.0.2.1",
    "blank 0 60 255 192.0.2.1",
    "activate 000a01070001000000000000",
    "sign-tick",
    "",
)
_OTHERS = ("tick", "tick", "ticks 61", "heard", "power-lost", "power-back 3", "power-back 9999", "state", "show", "x")
_BENCH = text.BENCH.decode("latin-1")


def datagrams(which: str) -> list[str]:
    """Lines of the requests or the replies of the vectors, and of all datagrams."""
    octets = [case[which] or "-" for case in cases("requests")] + [case["octets"] or "-" for case in cases("datagrams")]
    return [f"datagram {one}" for one in octets]


def _sign_lines(trial: Trial, count: int = _LINES) -> list[str]:
    """Requests of the vectors in any order, seconds, losses of power, what is shown, and saves."""
    octets = datagrams("request")
    others = (*_OTHERS, "save")
    return [trial.chance.choice(octets if trial.chance.random() < 0.8 else others) for _ in range(count)]


def _centre_lines(trial: Trial, count: int = _LINES) -> list[str]:
    """Replies of the vectors in any order, commands, ticks, restarts, how it stands, and saves."""
    octets = datagrams("reply")
    others = (*_COMMANDS, "tick", "tick", "status", "save", "restart")
    return [trial.chance.choice(octets if trial.chance.random() < 0.5 else others) for _ in range(count)]


def _object_lines(trial: Trial, count: int, has_fonts: bool) -> list[str]:
    """Objects that are published, withdrawn and set beside the sign's, where it is so its fonts' too, requests of all,
    and what else happens; without lines `set`, in whose place the library puts back those of a whole state."""
    firmware = Firmware(trial.chance, has_fonts)
    requests = Requests(trial.chance.randrange(2**32), firmware)
    lines = [*(["fonts"] if has_fonts else []), *firmware.published(40)]
    for _ in range(count):
        kind = trial.chance.random()
        if kind < 0.3:
            lines.append(next(line for line in iter(firmware.line, "") if not line.startswith("set ")))
        elif kind < 0.95:
            lines.append(f"datagram {requests.datagram().hex() or '-'}")
        else:
            lines.append(trial.chance.choice(_OTHERS))
    return lines


def walk() -> list[str]:
    """Gets of every instance of the bench sign, and what it shows."""
    names = Sign(text.bench()).objects.names
    lines = []
    for at in range(0, len(names), _AT_ONCE):
        bindings = [(name, (wire.NULL, b"")) for name in names[at : at + _AT_ONCE]]
        lines.append(f"datagram {wire.written(wire.Message(wire.GET, b'public', at, 0, 0, bindings)).hex()}")
    return [*lines, "state", "show"]


def _as_told(answer: str) -> str:
    """An answer of the program as the library gives it: without what is accepted, which value is out of range, and why
    a line is none."""
    word, _, rest = answer.partition(" ")
    if word == "bad":
        return "bad line"
    if word == "refused":
        return answer.partition(": ")[0]
    return f"reply {rest.partition(' ')[2]}" if word == "accepted" else answer


def _lines_of(file: IO[bytes] | None) -> Iterator[str]:
    assert file is not None
    return (line.decode("latin-1").rstrip("\n") for line in file)


def _kill(processes: Iterable[subprocess.Popen[bytes]]) -> None:
    for process in processes:
        process.kill()


def _compare(trial: Trial, name: str, end: str, description: str, lines: list[str]) -> None:
    """Both answer the same lines in the same way."""
    prefix = "centre " if end == "centre" else ""
    inputs = {"theirs": "".join(f"{line}\n" for line in lines), "ours": "".join(f"{prefix}{line}\n" for line in lines)}
    calls = {"theirs": [str(trial.program), end, "--sign"], "ours": trial.called(trial.way, "talk")}
    processes = {}
    for which, words in calls.items():
        asked: pathlib.Path = trial.folder / f"{which}.lines"
        asked.write_text(description + inputs[which], encoding="latin-1")
        with open(asked, "rb") as stdin:
            processes[which] = subprocess.Popen(words, stdin=stdin, stdout=subprocess.PIPE, stderr=subprocess.DEVNULL)
    most = trial.most(MOST_TALK)
    ends = time.monotonic() + most
    late = threading.Timer(most, _kill, (processes.values(),))
    late.start()
    found, wanted = (_lines_of(processes[which].stdout) for which in ("ours", "theirs"))
    pairs = enumerate(itertools.zip_longest(found, wanted), 1)
    other = next(
        ((at, one, two) for at, (one, two) in pairs if one is None or two is None or one != _as_told(two)), None
    )
    if other:
        _kill(processes.values())
    statuses = [process.wait() for process in processes.values()]
    late.cancel()
    for process in processes.values():
        assert process.stdout is not None
        process.stdout.close()
    if time.monotonic() >= ends:
        raise Late(f"{name} took more than {most:.0f} seconds")
    told = f"line {other[0]} of the answers: found {other[1]!r:.200}, wanted {other[2]!r:.200}" if other else ""
    trial.check(name, other is None and statuses == [0, 0], f"{told}, exit {statuses}")


def _walks(trial: Trial) -> None:
    """The whole walk, what is shown and its pages after every call; a centre's status and ledger after every call. A
    Get ends the silence of a sign, so calls are tried without walks between them too: each beginning of a talk, with
    one walk after it."""
    gets, count = walk(), _WALKED_SHORT if trial.is_short() else _WALKED
    lines = [one for line in _sign_lines(trial, count) for one in (line, *gets)]
    _compare(trial, f"the whole walk after each of {count} calls", "sign", _BENCH, lines)
    lines = [one for line in _centre_lines(trial, count) for one in (line, "status")]
    _compare(trial, f"the ledger after each of {count} calls", "centre", _BENCH, lines)
    lines = _sign_lines(trial, _PREFIXES)
    step = _PREFIXES // _PREFIXES_SHORT if trial.is_short() else 1
    for size in range(step, _PREFIXES + 1, step):
        if trial.left() > 0:
            _compare(trial, f"the whole walk after {size} calls without one", "sign", _BENCH, [*lines[:size], *gets])


def run(trial: Trial) -> None:
    if not os.access(trial.program, os.X_OK):
        trial.skip("talks with the program", f"there is none at {trial.program}")
        return
    _compare(trial, "each request and datagram, one after the other", "sign", _BENCH, datagrams("request"))
    _compare(trial, "each reply and datagram, one after the other", "centre", _BENCH, datagrams("reply"))
    for name, description in [("bench", _BENCH), *((sign, described(sign)) for sign in SIGNS)]:
        _compare(trial, f"a talk with a sign, {name}", "sign", description, _sign_lines(trial))
        for others in ("objects", "objects and fonts"):
            lines = _object_lines(trial, _LINES, "fonts" in others)
            _compare(trial, f"a talk with a sign and {others}, {name}", "sign", description, lines)
        _compare(trial, f"a talk with a central system, {name}", "centre", description, _centre_lines(trial))
    _walks(trial)
