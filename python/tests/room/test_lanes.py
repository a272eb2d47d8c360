"""Lanes of the short form: together they run each test once."""

import os
import pathlib
import subprocess
import sys

from . import lanes

TESTS = """
import os
import pytest

@pytest.fixture(scope="module")
def of_the_file():
    with open(os.environ["SAID"], "a") as said:
        yield said

@pytest.mark.parametrize("number", range(4))
def test_that_it_is_run(of_the_file, request, number):
    of_the_file.write(request.node.nodeid + "\\n")
"""


def test_lanes_run_each_test_once(tmp_path: pathlib.Path) -> None:
    folder, said = tmp_path / "lanes", tmp_path / "said"
    folder.mkdir()
    for name in ("first", "second"):
        (tmp_path / f"test_{name}.py").write_text(TESTS)
    environment = {**os.environ, lanes.FOLDER: str(folder), "SAID": str(said)}
    call = [sys.executable, "-m", "pytest", "-q", "-p", "no:cacheprovider", "-p", "tests.room.lanes", str(tmp_path)]
    made = [
        subprocess.Popen(call, cwd=tmp_path, env=environment, stdin=subprocess.DEVNULL, stdout=subprocess.PIPE)
        for _ in range(2)
    ]
    for one in made:
        output, _ = one.communicate(timeout=120)
        assert one.returncode == 0, output
    wanted = [f"test_{name}.py::test_that_it_is_run[{at}]" for name in ("first", "second") for at in range(4)]
    assert sorted(said.read_text().split()) == wanted


def test_long_files_are_there() -> None:
    missing = [name for name in lanes.LONG if not pathlib.Path(__file__).with_name(f"test_{name}.py").exists()]
    assert not missing
