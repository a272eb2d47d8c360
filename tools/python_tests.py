#!/usr/bin/env python3
"""Runs pytest in each folder of tests of the tools, mypy, black, isort and flake8: it prints `N passed, N failed`.

    tools/python_tests.py [FOLDER ..]
    tools/python_tests.py --quick | --types | --layout      tests of seconds; mypy alone; black, isort and flake8
    tools/python_tests.py --layout --changed                of the files alone that are not as main has them

The tests of the tester and of the control room are run by `tests.tester.short` and `tests.room.short`. A folder is a
run of its own, as in a fresh clone. The programs are taken of this Python, or of the system's where this one has them
not, and are skipped by name where neither has; so is mypy where its Python lacks a package of the control room. black
keeps in its own cache which files are as it would have them: over all files it takes a minute or some the first time,
and then seconds.
"""

from __future__ import annotations

import argparse
import os
import pathlib
import re
import subprocess
import sys
from collections.abc import Sequence

from steps.changed import changed_python

TOP = pathlib.Path(__file__).resolve().parent.parent
PYTHONS = (sys.executable, "/usr/bin/python3")
_FOLDERS = (
    "tools/*/tests",
    "measures/tests",
    "model/tests",
    *(f"python/tests/{part}" for part in ("package", "snmp", "process", "endpoint")),
)
SLOW = (  # a minute each
    "python/tests/tester/test_signs.py",
    "python/tests/endpoint/page/test_browser.py",
    "tools/tries/tests/test_planted.py",
)

# of the control room: where one is not here, mypy finds faults in what is made of its classes and calls
TYPED = ("aiohttp", "jinja2", "markupsafe", "psycopg", "yarl")

_CONFIGURED = "python/pyproject.toml"
_LAYOUTS: dict[str, list[str]] = {  # .flake8 has the options of flake8
    "black": ["--check", "--quiet", "--config", _CONFIGURED],
    "isort": ["--check-only", "--filter-files", "--settings-path", _CONFIGURED],
    "flake8": [],
}


def _has(python: str, module: str) -> bool:
    """Whether a Python has this module."""
    looks = [python, "-c", f"import {module}"]
    return os.access(python, os.X_OK) and not subprocess.run(looks, capture_output=True, check=False).returncode


def _python_with(module: str) -> str | None:
    """A Python that has this module."""
    return next((python for python in PYTHONS if _has(python, module)), None)


def _ran(*words: str) -> tuple[int, str]:
    environment = {**os.environ, "PYTHONDONTWRITEBYTECODE": "1"}
    ended = subprocess.run(words, cwd=TOP, env=environment, capture_output=True, text=True, check=False)
    return ended.returncode, ended.stdout + ended.stderr


def _tested(python: str, folder: str, left_out: Sequence[str] = ()) -> tuple[int, int]:
    """How many tests of a folder passed, and how many failed."""
    words = [f"--ignore={path}" for path in left_out]
    status, said = _ran(python, "-m", "pytest", "-q", "-p", "no:cacheprovider", *words, folder)
    counts = {word: int(number) for number, word in re.findall(r"(\d+) (passed|failed|error|skipped)", said)}
    passed, failed = counts.get("passed", 0), counts.get("failed", 0) + counts.get("error", 0)
    if status or failed:
        print(said[-6000:])
    if counts.get("skipped"):
        print(f"skipped {counts['skipped']} tests of {folder}: they say why under pytest -rs")
    failed = max(failed, int(bool(status)))
    print(f"{folder}: {passed} passed, {failed} failed", flush=True)
    return passed, failed


def _typed() -> list[tuple[int, int]]:
    """Whether the types of all Python here fit, where what tells that is here."""
    python = _python_with("mypy")
    missing = next((name for name in TYPED if not _has(python, name)), None) if python else "it"
    if python is None or missing:
        print(f"skipped mypy: {missing} is not here")
        return []
    status, said = _ran(python, "-m", "mypy", "--config-file", _CONFIGURED, "--cache-dir", os.devnull)
    print(said[-6000:] if status else f"mypy: {said.strip()}", flush=True)
    return [(int(not status), int(bool(status)))]


def _laid_out(files: Sequence[str]) -> list[tuple[int, int]]:
    """Whether black, isort and flake8 would have these files so, or all below these folders."""
    found = []
    for name, options in _LAYOUTS.items():
        python = _python_with(name)
        if python is None:
            print(f"skipped {name}: it is not here")
            continue
        status, said = _ran(python, "-m", name, *options, *files)
        more = f"\n{said[-6000:]}" if said.strip() else ""
        print(
            f"{name}: other than {_CONFIGURED} and .flake8 say{more}" if status else f"{name}: as it is laid out",
            flush=True,
        )
        found.append((int(not status), int(bool(status))))
    return found


def main() -> int:
    parser = argparse.ArgumentParser(description=__doc__, formatter_class=argparse.RawDescriptionHelpFormatter)
    parser.add_argument("folders", nargs="*", metavar="FOLDER", help="the tests of these folders alone, without mypy")
    parser.add_argument("--quick", action="store_true", help=f"without {', '.join(SLOW)}, and without mypy")
    parser.add_argument("--types", action="store_true", help="mypy alone")
    parser.add_argument("--layout", action="store_true", help="black, isort and flake8 alone")
    parser.add_argument("--changed", action="store_true", help="of --layout: the files that are not as main has them")
    asked = parser.parse_args()
    every = sorted(str(path.relative_to(TOP)) for pattern in _FOLDERS for path in TOP.glob(pattern))
    results = []
    if asked.types or asked.layout:
        pass
    elif python := _python_with("pytest"):
        results += [_tested(python, folder, SLOW if asked.quick else ()) for folder in asked.folders or every]
    else:
        print("skipped pytest: python3-pytest is not here")
    if not (asked.folders or asked.quick or asked.layout):
        results += _typed()
    if asked.layout or not (asked.folders or asked.quick or asked.types):
        files = changed_python(TOP) if asked.changed else None
        results += _laid_out(["."] if files is None else files) if files != [] else [(1, 0)]
    failed = sum(failed for _, failed in results)
    print(f"{sum(passed for passed, _ in results)} passed, {failed} failed")
    return 1 if failed else 0


if __name__ == "__main__":
    sys.exit(main())
