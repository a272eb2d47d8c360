#!/usr/bin/env python3
"""Looks that nothing calls itself to a depth that its input decides: `tools/call_depths.py` prints `N passed, N
failed`.

    tools/call_depths.py [--program crates/signtool/out/signtool] [--library crates/wisangub_c/out/libwisangub_c.a]

What calls itself, by itself or through others, is looked for in the built program and in the library for C (objdump of
binutils prints their instructions), in the libraries of the crates that the kit's compiler left (these have the calls
of the sources, before some become loops), and in proofs/, where a call of a function's own has its measure. Each such
cycle has to be a row of tools/depths/bounds.py, which says what bounds its depth; the number is looked up in the
sources. A row whose cycle is gone fails too. What is not built here is skipped by name.
"""

from __future__ import annotations

import argparse
import pathlib
import shutil
import sys
import tempfile
from dataclasses import dataclass, field

from depths import machine, sources
from depths.bounds import BOUNDS, Cycle

TOP = pathlib.Path(__file__).resolve().parent.parent


@dataclass
class _Found:
    """Where each cycle was found, and what was looked at."""

    places: dict[Cycle, list[str]] = field(default_factory=dict)
    passed: int = 0
    failed: int = 0

    def add(self, cycles: list[Cycle], place: str) -> None:
        self.passed += 1
        for cycle in cycles:
            self.places.setdefault(cycle, []).append(place)

    def hold_against(self, fault: str, of: str) -> None:
        if fault:
            self.failed += 1
            print(f"{of}: {fault}")
        else:
            self.passed += 1


def _look_at_code(found: _Found, path: pathlib.Path, room: pathlib.Path) -> bool:
    """Whether the calls of a program or of a library could be read."""
    missing = "objdump" if not shutil.which("objdump") else "" if path.exists() else str(path)
    if missing:
        print(f"skipped {path.name}: there is no {missing}")
        return False
    code = machine.of_program(machine.whole(path, room) if path.suffix == ".a" else path)
    if not any("::" in name for name in code.calls):
        print(f"skipped {path.name}: the file has no names of functions")
        return False
    found.add(code.deepening(), path.name)
    return True


def _look_at_sources(found: _Found) -> None:
    crates = sorted(path.name for path in (TOP / "crates").iterdir() if (path / "src").is_dir())
    found.add(sources.measured(TOP), "proofs/")
    rt = shutil.which("rt")
    kit = pathlib.Path(rt).resolve().parent.parent if rt else pathlib.Path("/nowhere")
    cycles, built = sources.in_libraries(TOP, crates, kit)
    if built:
        found.add(cycles, f"{built} libraries of crates")
    else:
        print("skipped the crates' libraries: none stands built here")


def judge(found: _Found, is_code_read: bool) -> None:
    """Holds the cycles against the table, and the table against the sources."""
    own = tuple(f"{path.name}::" for path in (TOP / "crates").iterdir())
    for cycle, places in sorted(found.places.items()):
        is_row = any(set(cycle) <= set(row.cycle) for row in BOUNDS)
        of = f"{' -> '.join(cycle)} ({', '.join(places)})"
        found.hold_against("" if is_row else "calls itself, and no row of tools/depths/bounds.py says how deep", of)
    for row in BOUNDS:
        is_seen = any(set(cycle) <= set(row.cycle) for cycle in found.places)
        is_of_code = not row.cycle[0].startswith(own) or "+Destruct" in row.cycle[0]
        gone = "" if is_seen or (is_of_code and not is_code_read) else "it calls itself no more, so its row goes"
        found.hold_against(gone or row.fault(TOP), " -> ".join(row.cycle))


def main() -> int:
    parser = argparse.ArgumentParser(description=__doc__, formatter_class=argparse.RawDescriptionHelpFormatter)
    parser.add_argument(
        "--program",
        type=pathlib.Path,
        default=TOP / "crates/signtool/out/signtool",
        help="the program signtool, as tools/build.py makes it",
    )
    parser.add_argument(
        "--library", type=pathlib.Path, default=TOP / "crates/wisangub_c/out/libwisangub_c.a", help="the library for C"
    )
    asked = parser.parse_args()
    found = _Found()
    with tempfile.TemporaryDirectory() as room:
        read = [_look_at_code(found, path, pathlib.Path(room)) for path in (asked.program, asked.library)]
    _look_at_sources(found)
    judge(found, read[0])
    print(f"{found.passed} passed, {found.failed} failed")
    return 1 if found.failed else 0


if __name__ == "__main__":
    sys.exit(main())
