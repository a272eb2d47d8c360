"""Each module of the package is imported with nothing but the package in the path: no model, no trials, no tools."""

import os
import pathlib
import subprocess
import sys

import pytest

PYTHON = pathlib.Path(__file__).resolve().parents[2]
PARTS = ("snmp", "process", "endpoint", "tester", "room")
PACKAGES = {"aiohttp", "jinja2", "prometheus_client", "psycopg"}  # that a part of the room needs
IMPORTS = """
import importlib, sys
sys.path.insert(0, sys.argv[1])
for name in sys.argv[2:]:
    try:
        importlib.import_module(name)
    except ImportError as fault:
        print(name, fault.name)
found = {name.split(".")[0] for name in sys.modules} & {"model", "trials", "tools", "tests", "upkeep"}
print(*(f"{name} is imported" for name in sorted(found)), sep="\\n")
"""


def modules(part: str) -> list[str]:
    """The modules of a part."""
    files = sorted((PYTHON / "wisangub" / part).rglob("*.py"))
    names = (".".join(file.relative_to(PYTHON).with_suffix("").parts) for file in files)
    return [name.removesuffix(".__init__") for name in names if not name.endswith("__main__")]


@pytest.mark.parametrize("part", PARTS)
def test_a_part_is_imported_with_the_package_alone(part: str, tmp_path: pathlib.Path) -> None:
    names = modules(part)
    assert len(names) > 3
    environment = {name: held for name, held in os.environ.items() if name != "PYTHONPATH"}
    called = [sys.executable, "-B", "-c", IMPORTS, str(PYTHON), *names]
    ended = subprocess.run(called, cwd=tmp_path, env=environment, capture_output=True, text=True, check=False)
    said = [line for line in ended.stdout.splitlines() if line and line.split(" ")[-1] not in PACKAGES]
    assert (ended.returncode, said, ended.stderr) == (0, [], "")
