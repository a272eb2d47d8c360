"""The tests in C of signd's parts: of records, of journals, and of which datagrams are recorded."""

from __future__ import annotations

import os
import pathlib
import tempfile

from .against_program import walk
from .hostile import datagrams
from .trial import PLAIN, TOP, UNDER_VALGRIND, Trial, Way, described

ROADSIDE = str(TOP / "signs" / "roadside.sign")
HEARD, HEARD_SHORT, HEARD_SLOW = 100000, 20000, 500  # datagrams
STEP_SLOW = "200"  # every so many trials of records_test, where each takes long
SLOTS_SHORT, SLOTS_SLOW = "50", "2000"  # and of slots_test
MOST_TEST = 600  # seconds


def says_ok(trial: Trial, way: Way, name: str, *words: str) -> None:
    status, said = trial.ran(trial.called(way, name, *words), seconds=MOST_TEST)
    trial.check(f"{way.name}: {name}", (status, said) == (0, "ok\n"), said)


def heard(trial: Trial, way: Way, count: int) -> None:
    """Of two signs one hears datagrams, and the other what is recorded of them."""
    status, said = trial.ran(trial.called(way, "heard_test", ROADSIDE, str(count), "1"), datagrams(), MOST_TEST)
    trial.check(f"{way.name}: heard_test", status == 0 and said.endswith("objects\n"), said[-600:])
    print(f"which datagrams are recorded, {way.name}: {said.strip()[-200:]}", flush=True)


def answered(trial: Trial, lines: list[str]) -> list[str]:
    """The program's answers to lines of a live sign."""
    text = described("roadside") + "".join(f"{line}\n" for line in lines)
    status, said = trial.ran([str(trial.program), "sign", "--sign"], text, MOST_TEST)
    trial.check("the program's end", status == 0, said[-300:])
    return said.splitlines()


def against_program(trial: Trial, count: int) -> None:
    """The program drops what is not recorded, and after what is recorded alone it is the same."""
    if not os.access(trial.program, os.X_OK):
        trial.skip("the program and what is recorded", f"there is none at {trial.program}")
        return
    file = trial.folder / "heard.lines"
    words = trial.called(PLAIN, "heard_test", ROADSIDE, str(count), "2", str(file))
    trial.check("heard_test writes lines", trial.ran(words, datagrams(), MOST_TEST)[0] == 0)
    kinds, lines = zip(*(line.split(" ", 1) for line in file.read_text(encoding="ascii").splitlines()))
    found = answered(trial, [*lines, *walk()])
    told = zip(kinds, lines, found)
    wrong = [line for kind, line, answer in told if kind != "t" and (answer == "dropped") != (kind == "u")]
    trial.check(f"the program drops {kinds.count('u')} of {count} datagrams", not wrong, wrong[:1])
    recorded = ["heard" if kind == "a" else line for kind, line in zip(kinds, lines) if kind != "u"]
    after = answered(trial, [*recorded, *walk()])
    trial.same("the program after what is recorded", after[len(recorded) :], found[len(lines) :])


ARENAS = {"roadside": 1 << 18, "gantry": 1 << 20}  # docs/C.md, "What it takes"


def arena(trial: Trial, library: pathlib.Path) -> None:
    """The header test and a panel over a static arena, which is as large as the page says that a sign takes."""
    for sign, octets in ARENAS.items():
        path, words = str(TOP / "signs" / f"{sign}.sign"), ("HEAP=arena.c", f"EXTRA=-DARENA_OCTETS={octets}")
        way = Way(f"an arena for {sign}", f"arena_{sign}", words=words, programs=("header_test", "panel_test"))
        if not trial.compiled(way, library):
            continue
        says_ok(trial, way, "header_test", path)
        status, said = trial.ran(trial.called(way, "panel_test", path, "3"), "41\n")
        trial.check(f"{way.name}: panel_test", status == 0 and len(said.splitlines()) == 3, said[-300:])


def tried(trial: Trial, way: Way, step: str, count: int) -> None:
    says_ok(trial, way, "arena_test", "1")
    says_ok(trial, way, "prints_test")
    says_ok(trial, way, "records_test", step)
    says_ok(trial, way, "slots_test", ROADSIDE, SLOTS_SLOW if way.by else SLOTS_SHORT if trial.is_short() else step)
    with tempfile.TemporaryDirectory(dir=trial.folder) as folder, tempfile.TemporaryDirectory(dir=folder) as other:
        says_ok(trial, way, "journal_test", folder)
        if not way.by:  # a life that refuses a state ends with it in its memory, which valgrind would tell of
            says_ok(trial, way, "states_test", other, step)
    heard(trial, way, count)


def run(trial: Trial) -> None:
    """As fast as may be, and with the sanitizers."""
    tried(trial, PLAIN, "1", HEARD_SHORT if trial.is_short() else HEARD)
    against_program(trial, HEARD_SHORT if trial.is_short() else HEARD)
    if trial.way != PLAIN:
        tried(trial, trial.way, "20" if trial.is_short() else "3", HEARD_SHORT // 10)


def under_valgrind(trial: Trial) -> None:
    tried(trial, UNDER_VALGRIND, STEP_SLOW, HEARD_SLOW)
