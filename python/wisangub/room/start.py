"""Has a program of the control room run by a Python that sees Debian's packages.

A machine may have another python3 first in its PATH, one that does not see the packages of apt-get. `needed` looks for
one that does, and has it run the same module with the same words; where there is none, it names what to install.
"""

import importlib.util
import os
import shutil
import subprocess
import sys

from wisangub.process import places
from wisangub.refusal import Refusal

PACKAGES = {
    "psycopg": "python3-psycopg",
    "aiohttp": "python3-aiohttp",
    "jinja2": "python3-jinja2",
    "prometheus_client": "python3-prometheus-client",
    "jsonschema": "python3-jsonschema",
    "pytest": "python3-pytest",
    "selenium": "python3-selenium",
}
SEEN = "CONTROL_PYTHON"  # set for the Python that was looked for, so that it does not look again
_PLACES = ("/usr/bin", "/usr/local/bin")


def lacking(modules: tuple[str, ...]) -> list[str]:
    """Which of these modules this Python does not see."""
    return [name for name in modules if importlib.util.find_spec(name) is None]


def pythons() -> list[str]:
    """Other programs named python3: Debian's first."""
    folders = [*_PLACES, *os.get_exec_path()]
    found = [path for folder in folders if (path := shutil.which("python3", path=folder))]
    return [path for path in dict.fromkeys(found) if os.path.realpath(path) != os.path.realpath(sys.executable)]


def _sees(python: str, modules: tuple[str, ...]) -> bool:
    """Whether this Python is 3.11 or newer and sees them all. It looks for them and imports none: that takes a busy
    machine longer than one waits."""
    asked = (
        "import sys; from importlib.util import find_spec; "
        f"sys.exit(sys.version_info < (3, 11) or None in map(find_spec, {modules!r}))"
    )
    try:
        return (
            subprocess.run(
                [python, "-c", asked],
                stdin=subprocess.DEVNULL,
                stdout=subprocess.DEVNULL,
                stderr=subprocess.DEVNULL,
                timeout=60,
            ).returncode
            == 0
        )
    except (OSError, subprocess.TimeoutExpired):
        return False


def seeing(modules: tuple[str, ...]) -> str | None:
    """A python3 that sees these modules: this one, where it does."""
    if not lacking(modules):
        return sys.executable
    return next((python for python in pythons() if _sees(python, modules)), None)


def needed(program: str, *modules: str) -> None:
    """Goes on where this Python sees the modules; else another one runs `python3 -m PROGRAM ..` in its place."""
    lacks = lacking(modules)
    if not lacks:
        return
    python = None if os.environ.get(SEEN) else seeing(modules)
    if python is None:
        names = " ".join(sorted(PACKAGES.get(name, name) for name in modules))
        raise Refusal(f"this Python does not see {', '.join(lacks)}, and no other one does: apt-get install {names}")
    os.environ[SEEN] = python
    os.environ["PYTHONPATH"] = places.environment()["PYTHONPATH"]
    os.execv(python, [python, "-m", program, *sys.argv[1:]])
