#!/usr/bin/env python3
"""Proves each crate and its tests from nothing, and runs tests and programs: tools/prove.py

This is the kit's own `rt ci`, with all that it refuses, but for the wrong bodies of must-fail/: `rt ci` checks a crate
once more from nothing for them, and tools/try_edits.py, which the gate calls next, tries them with all others, many in
one check and by a harder rule. Alone `rt ci` tries them too. The last line is that of `rt ci`, `N passed, M failed`.
Where a kit's program has no such part to leave out, all of `rt ci` runs. The check of a static library leaves its
verdict in out/checked of the crate, of which tools/static_library.py makes the library without a second proof.
"""

from __future__ import annotations

import argparse
import os
import sys
from types import ModuleType
from typing import Any

from building.kit import Kit
from building.plan import TOP
from building.static import CHECKED
from steps.cost import Cost
from tries.libraries import kit_program


def without_edits(rt: ModuleType) -> bool:
    """Has the kit's program find no must-fail edits, and says whether it can be had so."""
    if not hasattr(rt, "edits_of"):
        return False
    setattr(rt, "edits_of", lambda crate: ([], []))  # the files of must-fail/ that it takes, and those that it refuses
    return True


def leaving_verdicts(rt: ModuleType) -> None:
    """Has the kit's program leave the verdict on each static library, as it leaves that on a program for itself. A kit
    that checks otherwise leaves none."""
    if not hasattr(getattr(rt, "Crate", None), "prove"):
        return
    prove = rt.Crate.prove

    def proved(crate: Any, *commands: list[str]) -> int:
        """What the kit's own way to prove answers; each command is the words of a check or of a build."""
        is_left = [crate.is_static and words[0] == "check" and "--test" not in words for words in commands]
        pairs = zip(commands, is_left)
        status: int = prove(crate, *([*words, "-o", CHECKED] if is_one else words for words, is_one in pairs))
        return status

    rt.Crate.prove = proved


def main() -> int:
    argparse.ArgumentParser(description=__doc__, formatter_class=argparse.RawDescriptionHelpFormatter).parse_args()
    cost = Cost()
    rt = kit_program(Kit.found())
    if not without_edits(rt):
        print("this kit's `rt ci` tries must-fail/ itself", file=sys.stderr)
    leaving_verdicts(rt)
    os.chdir(TOP)
    status: int = rt.main(["ci"])
    print(f"proofs, tests and programs: {cost}", file=sys.stderr)
    return status


if __name__ == "__main__":
    sys.exit(main())
