"""What tests want of the machine: a file of tests is skipped with a word where something is missing."""

import shutil

import pytest

from wisangub.room.start import PACKAGES

PROGRAMS = {"chromium": "chromium", "chromedriver": "chromium-driver", "nginx": "nginx", "openssl": "openssl"}


def modules(*names: str) -> None:
    """Modules of Python that this one has to see."""
    __tracebackhide__ = True  # it is the file of tests that is skipped
    for name in names:
        pytest.importorskip(name, reason=f"this Python does not see {name}: apt-get install {PACKAGES[name]}")


def programs(*names: str) -> None:
    """Programs that have to be there."""
    __tracebackhide__ = True
    for name in names:
        if shutil.which(name) is None:
            pytest.skip(f"{name} is not there: apt-get install {PROGRAMS[name]}", allow_module_level=True)
