"""Where the package and what it reads stand, as words: `places` has them as paths, which take a tenth of a start."""

import os

PACKAGE = os.path.dirname(os.path.dirname(os.path.realpath(__file__)))
_DATA = os.path.join(PACKAGE, "data")  # what a wheel has of the repository: setup.py says it
FOLDER = _DATA if os.path.isdir(_DATA) else os.path.dirname(os.path.dirname(PACKAGE))
IS_CHECKOUT = os.path.isdir(os.path.join(FOLDER, "crates"))


def file_of(name: str) -> str:
    """A file of the repository."""
    return os.path.join(FOLDER, name)


def signtool() -> str:
    """The program: of a checkout, of a release, or of an installed wheel."""
    if IS_CHECKOUT:
        return file_of("crates/signtool/out/signtool")
    from .places import SIGNTOOL

    return str(SIGNTOOL)


def signd() -> str:
    """examples/signd.c, as it is built."""
    if IS_CHECKOUT:
        return file_of("examples/out/signd")
    from .places import SIGND

    return str(SIGND)
