"""What commands are called, in a checkout and in a release."""

import argparse
import pathlib
import tempfile
from unittest import mock

from wisangub.process import places


def test_in_a_checkout() -> None:
    assert places.SIGNTOOL == places.BUILT
    assert places.called("wisangub-conform centre") == "bin/wisangub-conform centre"


def test_in_a_release() -> None:
    assert places.installed().name == "wisangub-signtool"
    with mock.patch.object(places, "IS_CHECKOUT", False):
        assert places.called("wisangub-conform") == "wisangub-conform"
        assert places.called("wisangub-control users") == "wisangub-control users"


def test_what_is_started_finds_the_package() -> None:
    with mock.patch.dict("os.environ", {"PYTHONPATH": f"/one:{places.HOMES[0]}"}):
        assert places.environment()["PYTHONPATH"] == ":".join([*places.HOMES, "/one"])


def test_a_program_is_there() -> None:
    with tempfile.TemporaryDirectory() as folder:
        place = pathlib.Path(folder) / "signtool"
        try:
            raise AssertionError(places.program(str(place)))
        except argparse.ArgumentTypeError as fault:
            assert str(fault) == f"no program at {place}: tools/build.py builds it"
        place.touch()
        assert places.program(str(place)) == str(place)
