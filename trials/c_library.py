"""The library for C against the vectors, the program and hostile callers: `python3 -m trials.c_library` prints `N
passed, N failed`.

    python3 -m trials.c_library [--short] [--library crates/wisangub_c/out/libwisangub_c.a] [--aarch64 LIBRARY]
        [--plain LIBRARY] [--program PATH] [--seconds 60] [--seed 1]

Without --library it is taken as it stands, and made where it is of other sources, by tools/static_library.py. Needed is
a C compiler; what else is not here is printed as `skipped NAME: why`. Every datagram, request, text, code and script of
vectors/ goes through the library, with the sanitizers of addresses and of undefined behaviour and under valgrind; talks
of many lines are compared with the program's, with the whole walk after every call, and so is why something is refused,
and what is made of changed states of a central system; each allocation of a talk is refused once; signd and
wisangub-sign go on from each other's journals, which are changed, cut, and refused by the disk; strangers do not fill
them; C++, CMake, pkg-config, Python and Rust build with it; a panel's lamps are looked at; and mutated datagrams go in
for --seconds, and what libFuzzer makes too. With --aarch64 the vectors go through that library too, for ARM64, under
qemu-user, and with --plain through that for any x86-64.

The short form makes the library over crates that stand proved alone, in 1000 seconds at most. Once it is there nothing
begins after 230 seconds, and all is stopped after 280: what there is no time for is skipped by name. In the long form
what takes too long has failed. It needs no network but loopback, and leaves no process and no file but the library.
"""

from __future__ import annotations

import argparse
import os
import pathlib
import random
import signal
import subprocess
import sys
import tempfile
import time
from dataclasses import dataclass
from functools import partial
from typing import Callable

from trials.library import (
    against_program,
    against_vectors,
    builds,
    causes,
    centre_states,
    disks,
    fuzzed,
    hostile,
    journals,
    languages,
    logs,
    objects,
    panels,
    powers,
    shortened,
    strangers,
    tested,
)
from trials.library.trial import (
    AARCH64,
    ANY,
    PLAIN,
    REFUSING,
    SANITIZE,
    SANITIZED,
    TOP,
    UNDER_VALGRIND,
    Late,
    Trial,
    Way,
)

SHORT, MOST_MADE, LONG = 230.0, 1000.0, 3600.0  # seconds of the short form, of making the library in it, and else
LACKS = 3  # the status of tools/static_library.py where it skipped the library and said why


def ended(making: subprocess.Popen[str]) -> None:
    """Ends it with all that it started, which removes what it has in other folders if it is given the time."""
    os.killpg(making.pid, signal.SIGTERM)
    try:
        making.communicate(timeout=20)
    except subprocess.TimeoutExpired:
        os.killpg(making.pid, signal.SIGKILL)
        making.communicate()


def built(trial: Trial, is_short: bool) -> pathlib.Path | None:
    """The library, made where it does not stand and that does not take too long."""
    begun, most = time.monotonic(), MOST_MADE if is_short else LONG
    making = subprocess.Popen(
        [str(TOP / "tools/static_library.py"), *["--standing"] * is_short, "wisangub_c"],
        stdin=subprocess.DEVNULL,
        stdout=subprocess.PIPE,
        stderr=subprocess.STDOUT,
        text=True,
        errors="replace",
        start_new_session=True,
    )
    try:
        said, _ = making.communicate(timeout=most)
    except subprocess.TimeoutExpired:
        ended(making)
        trial.skip("library", f"making it took more than {most:.0f} seconds")
        return None
    if making.returncode == LACKS:
        print(said, end="", flush=True)
        return None
    print(f"the library: {time.monotonic() - begun:.0f} s", flush=True)
    is_made = trial.check("library", making.returncode == 0, said[-600:])
    return pathlib.Path(said.splitlines()[-1]) if is_made else None


def sanitized(trial: Trial, library: pathlib.Path) -> bool:
    """Whether the examples are compiled with sanitizers; without their libraries they are skipped by name."""
    source, tried = trial.folder / "empty.c", str(trial.folder / "empty")
    source.write_text("int main(void) { return 0; }\n")
    if trial.ran(["cc", *SANITIZE.split(), "-o", tried, str(source)])[0] or trial.ran([tried])[0]:
        trial.skip("sanitizers", "this compiler has none for addresses and undefined behaviour")
        return False
    return trial.compiled(SANITIZED, library)


@dataclass(frozen=True)
class Others:
    """The libraries of other processors, where they are named."""

    aarch64: pathlib.Path | None
    plain: pathlib.Path | None


def ways(trial: Trial, library: pathlib.Path, others: Others) -> list[Way]:
    """How the vectors go through the library here."""
    found = [SANITIZED] if sanitized(trial, library) else [PLAIN]
    trial.way = found[0]
    if trial.has("valgrind", "valgrind"):
        found.append(UNDER_VALGRIND)
    if others.aarch64 is None:
        trial.skip("aarch64", "no library for it was named")
    elif builds.is_for_aarch64(trial) and trial.compiled(AARCH64, others.aarch64):
        found.append(AARCH64)
    if others.plain is None:
        trial.skip("any x86-64", "no library for it was named")
    elif builds.is_for_any(trial, others.plain) and trial.compiled(ANY, others.plain):
        found.append(ANY)
    return found


def told_of(trial: Trial, name: str, late: Late) -> None:
    """A process took too long. In the short form the machine may be slow, and the rest of the part is skipped."""
    if trial.is_short():
        trial.skip(f"the rest of {name}", f"{late}")
    else:
        trial.check(name, False, late)


def all_tried(trial: Trial, library: pathlib.Path, others: Others, seconds: int, seed: int) -> None:
    """What there is time for."""
    try:
        if not all(trial.compiled(way, library) for way in (PLAIN, REFUSING)):
            return
        by = ways(trial, library, others)
    except Late as late:
        told_of(trial, "compiling", late)
        return
    parts: list[tuple[str, Callable[[], None]]] = [
        ("vectors", partial(against_vectors.run, trial, trial.way)),
        ("blink", partial(hostile.blinked, trial)),
        ("builds", partial(builds.run, trial, library)),
        ("refused memory", partial(hostile.refusals, trial)),
        ("mutated datagrams", lambda: hostile.mutated(trial, trial.way, trial.seconds(seconds), seed)),
        ("the program", partial(against_program.run, trial)),
        ("tests in C", partial(tested.run, trial)),
        ("journals", partial(journals.run, trial)),
        ("shortened journals", partial(shortened.run, trial)),
        ("strangers", partial(strangers.run, trial)),
        ("power", partial(powers.run, trial)),
        ("log", partial(logs.run, trial)),
        ("objects", partial(objects.run, trial)),
        ("disks", partial(disks.run, trial)),
        ("languages", partial(languages.run, trial)),
        ("causes", partial(causes.run, trial)),
        ("states of a central system", partial(centre_states.run, trial)),
        ("panel", partial(panels.run, trial)),
        ("arenas", partial(tested.arena, trial, library)),
        ("fuzzing", lambda: fuzzed.run(trial, trial.seconds(seconds), seed)),
    ]
    parts += [(way.name, partial(against_vectors.run, trial, way)) for way in by[1:]]
    if UNDER_VALGRIND in by:
        parts.append(("valgrind of a talk", partial(hostile.under_valgrind, trial)))
        parts.append(("valgrind of tests in C", partial(tested.under_valgrind, trial)))
        parts.append(("valgrind of the panel", partial(panels.under_valgrind, trial)))
    for name, part in parts:
        begun = time.monotonic()
        if trial.left() <= 0:
            trial.skip(name, "there was no time left for it")
            continue
        try:
            part()
        except Late as late:
            told_of(trial, name, late)
        print(f"{name}: {time.monotonic() - begun:.0f} s, load {os.getloadavg()[0]:.1f}", flush=True)


def main() -> int:
    parser = argparse.ArgumentParser(description=__doc__, formatter_class=argparse.RawDescriptionHelpFormatter)
    parser.add_argument("--short", action="store_true", help="fewer of all, in minutes")
    parser.add_argument("--library", type=pathlib.Path, help="that is there already")
    parser.add_argument(
        "--aarch64", type=pathlib.Path, metavar="LIBRARY", help="of `tools/static_library.py --target`, for ARM64"
    )
    parser.add_argument("--plain", type=pathlib.Path, metavar="LIBRARY", help="of `--cpu x86-64`, for any x86-64")
    parser.add_argument(
        "--program",
        type=pathlib.Path,
        default=TOP / "crates/signtool/out/signtool",
        help="the program signtool, as tools/build.py makes it",
    )
    parser.add_argument("--seconds", type=int, default=60, help="of mutated datagrams")
    parser.add_argument("--seed", type=int, default=1, help="of all that is random: the same again gives the same")
    asked = parser.parse_args()
    others = Others(*(path.absolute() if path else None for path in (asked.aarch64, asked.plain)))
    with tempfile.TemporaryDirectory(prefix="c-library-") as folder:
        trial = Trial(pathlib.Path(folder), asked.program.absolute(), random.Random(asked.seed))
        library = asked.library or built(trial, asked.short)
        if asked.short:
            trial.ends = time.monotonic() + SHORT
        if library is not None:
            all_tried(trial, library.absolute(), others, asked.seconds, asked.seed)
    print(f"{trial.passed} passed, {trial.failed} failed")
    return 1 if trial.failed else 0


if __name__ == "__main__":
    sys.exit(main())
