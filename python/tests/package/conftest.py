"""The package in a virtual environment, as `pip install --no-build-isolation ./python` puts it there."""

import importlib.util
import os
import pathlib
import shutil
import subprocess
import sys

import pytest

from wisangub.process.places import TOP

WAIT = 600  # seconds for an installation on a busy machine
LACKS = [name for name in ("pip", "setuptools", "wheel", "ensurepip") if importlib.util.find_spec(name) is None]


def ran(*words: str, status: int = 0) -> str:
    """What a command prints, in an environment of its own without a network, the checkout not in the path."""
    environment = {name: held for name, held in os.environ.items() if not name.startswith("PYTHON")}
    environment |= {"PIP_NO_INDEX": "1", "PIP_DISABLE_PIP_VERSION_CHECK": "1"}
    ended = subprocess.run(
        words, env=environment, cwd=pathlib.Path(words[0]).parent, capture_output=True, text=True, timeout=WAIT
    )
    assert ended.returncode == status, (words, ended.stdout[-2000:], ended.stderr[-2000:])
    return ended.stdout


@pytest.fixture(scope="session")
def installed(tmp_path_factory: pytest.TempPathFactory) -> pathlib.Path:
    """The folder of the commands of a virtual environment, made from a copy of what the wheel is made of."""
    if LACKS:
        pytest.skip(f"not here: {', '.join(LACKS)}")
    folder = tmp_path_factory.mktemp("wheel")
    for name in ("python", "mibs", "signs", "vectors", "docs"):
        left_out = shutil.ignore_patterns("__pycache__", "tests", "build", "*.egg-info", "pictures")
        shutil.copytree(TOP / name, folder / "top" / name, ignore=left_out)
    ran(sys.executable, "-m", "venv", "--system-site-packages", "--without-pip", str(folder / "here"))
    python = str(folder / "here/bin/python3")
    ran(python, "-m", "pip", "install", "--no-build-isolation", str(folder / "top/python"))
    return folder / "here/bin"
