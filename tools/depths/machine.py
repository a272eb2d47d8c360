"""The calls of a built program, as objdump of binutils prints its instructions."""

from __future__ import annotations

import bisect
import os
import pathlib
import re
import subprocess
from dataclasses import dataclass, field

from .graphs import Calls, cycles

_START = re.compile(r"([0-9a-f]+) <(.+)>:\n")
STEP = re.compile(r"\s*[0-9a-f]+:\s+(?:bnd |notrack )?(call|j[a-z]+)\s+([0-9a-f]+) <")
_FAR = re.compile(r"\s*[0-9a-f]+:\s+(?:bnd |notrack )?call\s+\*(?!.*# [0-9a-f]+ <.*@)")
_TAKEN = re.compile(r"\s*[0-9a-f]+:\s+lea\s.*# ([0-9a-f]+) <")
_KEPT = re.compile(r"[0-9a-f]+\s+R_X86_64_RELATIVE\s+\*ABS\*\+0x([0-9a-f]+)")
_KIND = re.compile(r"::<#[0-9a-f]+>|@\w+$")
ANY = "a function by its address"


@dataclass
class _Machine:
    """Calls by names, those that return and those that a function ends with."""

    calls: Calls = field(default_factory=dict)
    ends: Calls = field(default_factory=dict)
    by_address: set[str] = field(default_factory=set)

    def deepening(self) -> list[tuple[str, ...]]:
        """Cycles that have a call which returns: one of jumps alone is a loop, which takes no stack."""
        both = {name: self.calls[name] | self.ends[name] for name in self.calls}
        deep = [cycle for cycle in cycles(both) if any(self.calls[name].intersection(cycle) for name in cycle)]
        return sorted({tuple(sorted({_KIND.sub("", name) for name in cycle})) for cycle in deep})


def _printed(*words: str) -> str:
    return subprocess.run(["objdump", *words], capture_output=True, text=True, check=True).stdout


def whole(library: pathlib.Path, room: pathlib.Path) -> pathlib.Path:
    """All that a static library holds, linked so that its own calls have their places."""
    linked = room / f"{library.stem}.so"
    words = ["-nostdlib", "-shared", "-Wl,-Bsymbolic,--unresolved-symbols=ignore-all", "-o", str(linked)]
    compiler = os.environ.get("CC", "cc")
    subprocess.run([compiler, *words, f"-Wl,--whole-archive,{library},--no-whole-archive"], check=True)
    return linked


def of_program(program: pathlib.Path) -> _Machine:
    """What each function of a program calls. A call by an address may reach each function whose address is taken."""
    return read(_printed("-d", "--no-show-raw-insn", str(program)), _printed("-R", str(program)))


def read(code: str, kept: str) -> _Machine:
    lines = code.splitlines(keepends=True)
    starts = sorted((int(found[1], 16), found[2]) for line in lines if (found := _START.fullmatch(line)))
    places = [place for place, _ in starts]
    shown: dict[str, int] = {}
    names = []
    for place, name in starts:
        shown[name] = shown.get(name, 0) + 1
        names.append(name if shown[name] == 1 else f"{name}@{place:x}")
    whole = _Machine({ANY: set()}, {ANY: set()})
    for name in names:
        whole.calls[name], whole.ends[name] = set(), set()

    def at(place: str) -> str:
        return names[bisect.bisect_right(places, int(place, 16)) - 1]

    here = ""
    for line in lines:
        if found := _START.fullmatch(line):
            here = at(found[1])
        elif found := STEP.match(line):
            other = at(found[2])
            if found[1] == "call":
                whole.calls[here].add(other)
            elif other != here:
                whole.ends[here].add(other)
        elif _FAR.match(line):
            whole.by_address.add(here)
            whole.calls[here].add(ANY)
        elif (found := _TAKEN.match(line)) and int(found[1], 16) in places:
            whole.calls[ANY].add(at(found[1]))
    taken = {int(found, 16) for found in _KEPT.findall(kept)}
    whole.calls[ANY].update(name for place, name in zip(places, names, strict=True) if place in taken)
    return whole
