"""The statements of the crates below, over which a crate is checked: those that `rt ci` or tools/build.py proved of the
same sources, or else proved now."""

from __future__ import annotations

import contextlib
import importlib.machinery
import importlib.util
import os
import pathlib
import shutil
import sys
import tempfile
from collections.abc import Iterable, Iterator
from types import ModuleType

from building.ending import raise_where_ended
from building.kit import Kit
from building.libraries import link_or_copy
from building.plan import PARTS, TOP, Plan
from building.proofs import Proofs
from building.schedule import Schedule


def whole_plan() -> Plan:
    """A plan of every crate, those beside the program too."""
    plan = Plan()
    plan.crates.update({name: plan.measured(name) for name in plan.uses if name not in plan.crates})
    return plan


def below(plan: Plan, names: Iterable[str]) -> set[str]:
    return {lower for name in names for lower in plan.below(name)}


def give(plan: Plan, proofs: Proofs, name: str, made: pathlib.Path) -> None:
    """Gives a library a second place, with the sum of what it was proved from."""
    if not proofs.made(name).exists():
        shutil.copytree(made, proofs.made(name), copy_function=lambda one, other: link_or_copy(str(one), str(other)))
        proofs.stamp(name).write_text(proofs.sum_of(name), encoding="ascii")


def of_build(plan: Plan, proofs: Proofs, room: pathlib.Path, wanted: set[str]) -> int:
    """What tools/build.py left in a folder, if it was proved from the sources as they stand."""
    theirs = Proofs(plan, proofs.kit, room)
    found = theirs.proved() & wanted
    for name in found:
        give(plan, proofs, name, theirs.made(name))
    return len(found)


def kit_program(kit: Kit) -> ModuleType:
    """The kit's `rt`, which is Python."""
    loader = importlib.machinery.SourceFileLoader("rt_of_kit", str(kit.folder / "bin/rt"))
    spec = importlib.util.spec_from_loader("rt_of_kit", loader)
    assert spec is not None
    module = importlib.util.module_from_spec(spec)
    loader.exec_module(module)
    return module


def of_gate(plan: Plan, proofs: Proofs, wanted: set[str]) -> int:
    """What `rt ci` kept on this machine, where the kit's keeps anything, or else what it left in this clone."""
    rt = kit_program(proofs.kit)
    return kept_by_gate(rt, plan, proofs, wanted) if hasattr(rt, "Kept") else left_by_gate(plan, proofs, wanted)


def changed(paths: Iterable[pathlib.Path]) -> list[float]:
    """When each of these files was changed, and those of a folder."""
    files = (file for path in paths for file in (path.rglob("*") if path.is_dir() else [path]))
    return [file.stat().st_mtime for file in files if file.is_file()]


def left_by_gate(plan: Plan, proofs: Proofs, wanted: set[str]) -> int:
    """What `rt ci` left in out/rlib of the crates, if it made each after the last change of what it is made of, and
    after those below it: it writes no sum of the sources there."""
    made = {name: plan.crates[name].folder / "out/rlib" / f"{name}.rlib" for name in wanted}
    times = {name: changed([path]) for name, path in made.items() if (path / "format").is_file()}
    if not wanted <= set(times):
        return 0
    for name in wanted:
        folder = plan.crates[name].folder
        sources = changed([TOP / "crates.txt", *(folder / part for part in PARTS if (folder / part).is_dir())])
        if min(times[name]) < max([*sources, *(max(times[lower]) for lower in plan.below(name))]):
            return 0
    for name in wanted:
        give(plan, proofs, name, made[name])
    return len(wanted)


def kept_by_gate(rt: ModuleType, plan: Plan, proofs: Proofs, wanted: set[str]) -> int:
    """What `rt ci` kept on this machine, by its own sums of the sources, on a copy of these."""
    here, count = os.getcwd(), 0
    with tempfile.TemporaryDirectory(prefix="wrong-bodies-gate-") as folder:
        copy = f"{folder}/copy"
        rt.copy_crates(str(TOP), copy)
        os.mkdir(f"{copy}/.git")  # it is the top of a repository
        try:
            os.chdir(copy)
            rt.Crate.cuts_libraries = True
            rt.Crate.allowed = rt.handles_of(copy)
            crates = rt.crates_of(copy)
            kept = rt.Kept(crates)
            for crate in (crate for crate in crates if crate.name in wanted):
                is_over_given = all(lower.name in kept.rlibs for lower in crate.below())
                if is_over_given and kept.give(crate, False, kept.key(crate)):
                    kept.is_built(crate)
                    give(plan, proofs, crate.name, pathlib.Path(crate.rlib))
                    count += 1
        finally:
            os.chdir(here)
    return count


def gathered(plan: Plan, proofs: Proofs, room: pathlib.Path, wanted: set[str]) -> None:
    """Fills the folder of `proofs` from one source, since statements fit those alone that they were made over."""
    if of_build(plan, proofs, room, wanted) == len(wanted):
        return
    clear(proofs.room)
    try:
        count = of_gate(plan, proofs, wanted)
    except (Exception, SystemExit) as fault:  # another kit may have other names for all of this
        raise_where_ended(fault)
        count = 0
        print(f"what `rt ci` kept cannot be read: {fault}", file=sys.stderr)
    if count < len(wanted):
        most = Proofs(plan, proofs.kit, room).proved() & wanted
        if len(most) > count:
            clear(proofs.room)
            of_build(plan, proofs, room, wanted)


def clear(room: pathlib.Path) -> None:
    shutil.rmtree(room, ignore_errors=True)
    room.mkdir(parents=True)


@contextlib.contextmanager
def libraries(plan: Plan, names: Iterable[str], room: pathlib.Path | None, processors: int) -> Iterator[pathlib.Path]:
    """A folder with the statements of all below these crates."""
    wanted = below(plan, names)
    with tempfile.TemporaryDirectory(prefix="wrong-bodies-below-") as folder:
        proofs = Proofs(plan, Kit.found(), pathlib.Path(folder) / "libraries")
        gathered(plan, proofs, room or plan.crates[plan.program].folder / "out/proved", wanted)
        lacking = wanted - proofs.proved()
        if lacking:
            print(f"proved first, as nothing here proved the same: {', '.join(sorted(lacking))}", file=sys.stderr)
            failed = Schedule(plan, wanted, proofs.proved(), processors).run(proofs)
            if failed:
                sys.exit(f"{failed.crate.name} is not proved: see {failed.log}")
        yield proofs.room
