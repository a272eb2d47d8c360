"""Where the program and what is read stand, and what a command is called: in a checkout of the repository, in a release
of it, or in an installed wheel."""

import argparse
import os
import pathlib
import shutil
import sys

from wisangub import __version__

from .stands import FOLDER, IS_CHECKOUT, PACKAGE

_PACKAGE = pathlib.Path(PACKAGE)
TOP = pathlib.Path(FOLDER)
BUILT = TOP / "crates/signtool/out/signtool"
_RELEASED = TOP.parents[1] / "bin/wisangub-signtool"  # of share/wisangub
PROFILE = TOP / "docs/PROFILE.md"
HOMES = [str(_PACKAGE.parent), str(_PACKAGE.parents[1])]  # where this package is found, and the model of a checkout


def installed() -> pathlib.Path:
    """The program of a release, or for a wheel the one beside its commands, or the first in the path."""
    beside = pathlib.Path(sys.prefix) / "bin/wisangub-signtool"
    found = next((str(place) for place in (_RELEASED, beside) if place.is_file()), shutil.which("wisangub-signtool"))
    return pathlib.Path(found or _RELEASED)


SIGNTOOL = BUILT if IS_CHECKOUT else installed()
SIGND = TOP / "examples/out/signd" if IS_CHECKOUT else pathlib.Path(shutil.which("signd") or "signd")


def add_version(options: argparse.ArgumentParser, command: str) -> None:
    """The option --version of a command."""
    options.add_argument(
        "--version", action="version", version=f"{command} {__version__}", help="the command's name and version"
    )


def program(path: str) -> str:
    """The program at this place: the type of an option, so that a tool says that there is none, and ends with 2."""
    if not pathlib.Path(path).is_file():
        raise argparse.ArgumentTypeError(f"no program at {path}: tools/build.py builds it")
    return path


def called(command: str) -> str:
    """How a person calls a command, with its subcommand: from a checkout by its file in bin/."""
    return f"bin/{command}" if IS_CHECKOUT else command


def environment() -> dict[str, str]:
    """The environment of a program in Python that this one starts: it finds the package where this one does."""
    before = os.environ.get("PYTHONPATH", "").split(os.pathsep)
    folders = [*HOMES, *(folder for folder in before if folder and folder not in HOMES)]
    return {**os.environ, "PYTHONPATH": os.pathsep.join(folders)}
