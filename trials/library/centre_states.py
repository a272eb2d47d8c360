"""States of a central system: the library goes on from each, and of changed ones it says what the program says."""

from __future__ import annotations

import ctypes
import itertools
import os
import re
import subprocess
from types import ModuleType

from model import text
from trials.centre_states import others

from .languages import example
from .trial import PLAIN, Trial

DONE, TOO_SMALL, RANGE, FAULT, STATE = 0, 2, 8, 4, 9
_CHANGED, _CHANGED_SHORT = 4000, 300  # texts that are changed
_STEPS = 40  # of a job and what follows it
_COMMUNITY = b"admin"
_COMMANDS = (
    "publish 3 1 5b706231305d41 6d65 0 0 200 5 255 192.0.2.1",
    "activate ffffff0300010000c0000201",
    "publish 3 2 41 - 0 0 200 65535 255 192.0.2.1",
)
_MORE = re.compile(rb"(?m)^end\r?\n(?=.)", re.S)  # the program reads a state up to its first line `end`

Told = bytes | tuple[str, int]  # the text of the state that goes on, or the line that is refused


def saved(library: ctypes.CDLL, centre: ctypes.Structure) -> bytes:
    """The text of a central system's state, in a buffer that has just the room."""
    size = ctypes.c_size_t()
    assert library.wisangub_centre_save_size(ctypes.byref(centre), ctypes.byref(size)) == DONE
    room = (ctypes.c_uint8 * size.value)()
    assert library.wisangub_centre_save(ctypes.byref(centre), room, size.value - 1, ctypes.byref(size)) == TOO_SMALL
    assert not any(room)
    assert library.wisangub_centre_save(ctypes.byref(centre), room, size.value, ctypes.byref(size)) == DONE
    return bytes(room)


def of_library(module: ModuleType, library: ctypes.CDLL, octets: bytes) -> Told:
    """What the library makes of a text."""
    centre, line = module.Centre(), ctypes.c_size_t()
    made = (_COMMUNITY, len(_COMMUNITY), 0, octets, len(octets), ctypes.byref(line))
    answer = library.wisangub_centre_restore(ctypes.byref(centre), *made)
    if answer == STATE:
        return "line", line.value
    assert answer == DONE and line.value == 0, answer
    found = saved(library, centre)
    library.wisangub_centre_free(ctypes.byref(centre))
    return found


def of_program(trial: Trial, octets: bytes) -> Told:
    """What the program makes of it."""
    call = [str(trial.program), "centre", "--restore"]
    ended = subprocess.run(call, input=octets + b"save\n", capture_output=True, timeout=trial.most(60), check=False)
    found = re.fullmatch(rb"state line ([0-9]+)\n", ended.stdout)
    if found:
        return "line", int(found[1])
    assert ended.returncode == 0 and ended.stdout.endswith(b"end\nok\n"), ended
    return ended.stdout[: -len("ok\n")]


def states(trial: Trial) -> list[bytes]:
    """Those of a central system before and after each datagram and each tick of a few jobs."""
    found = []
    with trial.talk(text.BENCH.decode("latin-1"), trial.way) as talk:
        for command in _COMMANDS:
            sent = talk.ask(f"centre {command}")
            for _ in range(_STEPS):
                found.append("".join(f"{line}\n" for line in talk.ask_lines("centre save")[:-1]).encode("ascii"))
                reply = talk.ask(f"datagram {sent.partition(' ')[2]}") if sent.startswith("send ") else "ok"
                talk.ask("tick")
                sent = talk.ask(f"centre datagram {reply.partition(' ')[2]}" if " " in reply else "centre tick")
    return list(dict.fromkeys(found))


def run(trial: Trial) -> None:
    module = example()
    library = module.opened(trial.folder / PLAIN.folder / "shared/libwisangub.so")
    known = states(trial)
    for octets in known:
        trial.same("a state goes on as itself", of_library(module, library, octets), octets)
    kinds = [line for line in (b"idle\n", b"awaits\n", b"due\n") if any(line in octets for octets in known)]
    trial.same("kinds of states", len(kinds), 3)
    if not os.access(trial.program, os.X_OK):
        trial.skip("states of a central system beside the program's", f"there is none at {trial.program}")
        return
    changed = itertools.chain.from_iterable(others(trial.chance, octets) for octets in known)
    whole = [octets for octets in changed if octets.endswith(b"end\n") and not _MORE.search(octets)]
    count = _CHANGED_SHORT if trial.is_short() else _CHANGED
    for octets in trial.chance.sample(whole, min(len(whole), count)):
        if trial.left() > 0:
            trial.same(f"{octets!r}", of_library(module, library, octets), of_program(trial, octets))
