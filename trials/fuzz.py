"""Fuzzes the library for C by libFuzzer: `python3 -m trials.fuzz` prints `N passed, N failed`.

    python3 -m trials.fuzz [--seconds 600] [--seed 1] [--library crates/wisangub_c/out/libwisangub_c.a] [KIND ..]

KIND is datagrams, descriptions, states or texts, else all, each for a quarter of the seconds. Inputs begin with those
of vectors/ and signs/ (trials/library/fuzzed.py). The library is not instrumented: its buffers end where no memory is,
the sanitizers look at its callers, and what it answers leads the fuzzer on. It wants clang with the fuzzer's runtime
(Debian: clang, libclang-rt-14-dev), and is skipped by name without. An input that fails is kept where --keep says; in
the gate `python3 -m trials.c_library` does the same for a minute.
"""

from __future__ import annotations

import argparse
import pathlib
import random
import shutil
import sys
import tempfile

from trials.library import fuzzed
from trials.library.trial import PLAIN, TOP, Late, Trial


def tried(trial: Trial, library: pathlib.Path, kinds: list[str], seconds: int, seed: int) -> None:
    made = fuzzed.compiled(trial) if trial.compiled(PLAIN, library) else None
    for kind in kinds if made else ():
        assert made is not None
        try:
            fuzzed.fuzz(trial, made, kind, max(1, seconds // len(kinds)), seed)
        except Late as late:
            trial.check(f"fuzzing {kind}", False, late)


def keep(folder: pathlib.Path, to: pathlib.Path | None) -> None:
    """Keeps the inputs that failed."""
    for path in sorted(folder.glob("*-*-*")) if to else ():
        assert to is not None
        to.mkdir(parents=True, exist_ok=True)
        shutil.copy(path, to)
        print(f"kept {to / path.name}")


def main() -> int:
    parser = argparse.ArgumentParser(description=__doc__, formatter_class=argparse.RawDescriptionHelpFormatter)
    parser.add_argument("--seconds", type=int, default=600, help="how long")
    parser.add_argument("--seed", type=int, default=1, help="of the fuzzer")
    parser.add_argument(
        "--library",
        type=pathlib.Path,
        default=TOP / "crates/wisangub_c/out/libwisangub_c.a",
        help="the library that tools/static_library.py makes",
    )
    parser.add_argument("--keep", type=pathlib.Path, metavar="FOLDER", help="where inputs that fail are put")
    parser.add_argument("kinds", nargs="*", metavar="KIND", help=", ".join(fuzzed.KINDS))
    asked = parser.parse_args()
    if set(asked.kinds) - set(fuzzed.KINDS):
        parser.error(f"a kind is one of {', '.join(fuzzed.KINDS)}")
    with tempfile.TemporaryDirectory(prefix="fuzz-") as folder:
        trial = Trial(pathlib.Path(folder), pathlib.Path(), random.Random(asked.seed))
        if asked.library.is_file():
            kinds = asked.kinds or [*fuzzed.KINDS]
            tried(trial, asked.library.absolute(), kinds, asked.seconds, asked.seed)
            keep(trial.folder, asked.keep)
        else:
            trial.skip("fuzzing", f"there is no {asked.library}")
    print(f"{trial.passed} passed, {trial.failed} failed")
    return 1 if trial.failed else 0


if __name__ == "__main__":
    sys.exit(main())
