"""The package as it is installed: its commands, and what they read."""

import pathlib
import tomllib

from wisangub import __version__
from wisangub.process.places import TOP

from .conftest import ran

PYPROJECT = tomllib.loads((TOP / "python/pyproject.toml").read_text(encoding="utf-8"))
COMMANDS = sorted(PYPROJECT["project"]["scripts"])
LOOKS = """
import pathlib, sys
from wisangub.process import places
from wisangub.snmp.mib import Mib
assert pathlib.Path(places.__file__).is_relative_to(sys.prefix), places.__file__
assert Mib.read().objects and places.PROFILE.is_file() and not places.IS_CHECKOUT
assert (places.TOP / "signs/fleet.toml").is_file() and (places.TOP / "vectors/requests.jsonl").is_file()
assert str(places.SIGNTOOL) == sys.argv[1], places.SIGNTOOL
"""


def test_each_command_says_its_version(installed: pathlib.Path) -> None:
    for command in COMMANDS:
        assert ran(str(installed / command), "--version") == f"{command} {__version__}\n"


def test_what_commands_read_is_installed(installed: pathlib.Path) -> None:
    program = installed / "wisangub-signtool"
    program.touch()
    ran(str(installed / "python3"), "-c", LOOKS, str(program))
