"""The libraries over which `rt` works in a crate: those in out/rlib/ of each crate below, beside its own sums of what
they were made from."""

from __future__ import annotations

import contextlib
import fcntl
import inspect
import os
import pathlib
import shutil
from types import ModuleType
from typing import Any

from .plan import TOP
from .proofs import Proofs


def link_or_copy(one: str, other: str) -> None:
    """A second name for a file of a library, which `rt` replaces and never changes."""
    try:
        os.link(one, other)
    except OSError:
        shutil.copy2(one, other)


def _is_same(one: pathlib.Path, other: pathlib.Path) -> bool:
    """Whether both are one library."""
    return (one / "format").exists() and (other / "format").exists() and (one / "format").samefile(other / "format")


def _crates_of(rt: ModuleType) -> list[Any]:
    """The repository's crates as `rt` has them. Some kits' `crates_of` also puts aside what earlier runs left."""
    if len(inspect.signature(rt.crates_of).parameters) == 1:
        return list(rt.crates_of(str(TOP)))
    rt.rtlib.Crate = rt.Crate
    return list(rt.rtlib.crates_below(str(TOP)))


def _give(made: pathlib.Path, to: pathlib.Path, stamp: str) -> None:
    """Puts a library where `rt` looks for it, with its sum of the sources."""
    if not _is_same(made, to):
        shutil.rmtree(to.parent, ignore_errors=True)
        to.parent.mkdir(parents=True)
        shutil.copytree(made, to, copy_function=link_or_copy)
    (to.parent / "stamp").write_text(stamp, encoding="utf-8")


def give_all(rt: ModuleType, proofs: Proofs) -> str:
    """Gives `rt`, the kit's program, what is proved of the sources as they stand, and returns a crate that another `rt`
    works in, if there is one. Then none is given, since statements fit those alone that they were made over."""
    names, here = proofs.proved(), os.getcwd()
    with contextlib.ExitStack() as held:
        for name in sorted(names):
            folder = os.open(proofs.plan.crates[name].folder, os.O_RDONLY)
            held.callback(os.close, folder)
            try:
                fcntl.flock(folder, fcntl.LOCK_EX | fcntl.LOCK_NB)
            except BlockingIOError:
                return name
        held.callback(os.chdir, here)
        os.chdir(TOP)
        rt.Crate.allowed = rt.handles_of(str(TOP))
        for crate in _crates_of(rt):
            if crate.name in names and crate.makes_rlib():
                _give(proofs.made(crate.name), pathlib.Path(crate.rlib), crate.stamp())
    return ""
