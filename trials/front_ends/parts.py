"""The tests of the front ends' parts, which pytest runs too, and alone those that it hands something."""

import contextlib
import importlib
import inspect
import io
import pathlib
import traceback
from typing import Callable

import tests.endpoint

from .bench import Trial
from .patience import HANGS, Hangs, watched


def _takes_nothing(test: Callable[..., object]) -> bool:
    return not inspect.signature(test).parameters


def run(trial: Trial) -> None:
    """Each function named test_.. of each file that takes nothing; one that hangs is ended, and the others go on. A
    file that stands on pytest is skipped where there is none."""
    for path in sorted(pathlib.Path(tests.endpoint.__path__[0]).glob("test_*.py")):
        try:
            module = importlib.import_module(f"tests.endpoint.{path.stem}")
        except ModuleNotFoundError as missing:
            if missing.name != "pytest":
                raise
            trial.skip(path.stem, "there is no pytest")
            continue
        for name in [name for name in vars(module) if name.startswith("test_") and _takes_nothing(vars(module)[name])]:
            try:
                with contextlib.redirect_stderr(io.StringIO()), watched(HANGS):
                    vars(module)[name]()
                trial.holds(name, True)
            except (Exception, Hangs):  # whatever a test raises is what it found
                trial.holds(f"{path.stem}.{name}", False, traceback.format_exc())
