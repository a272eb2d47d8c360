"""All that a release's Python imports is in the release, in Python, or a package that it recommends."""

import ast
import pathlib
import re
import sys
from collections.abc import Iterator

TOP = pathlib.Path(__file__).resolve().parents[3]
SCRIPT = (TOP / "tools/release/trees.sh").read_text(encoding="utf-8")
PACKAGES = ["python/wisangub"]


def files() -> list[pathlib.Path]:
    """The Python of a release, as tools/release/trees.sh copies it."""
    found = []
    for package in PACKAGES:
        assert f'"$source"/{package} ' in SCRIPT, package
        found += sorted((TOP / package).rglob("*.py"))
    return [path for path in found if "tests" not in path.parts]


def imported(path: pathlib.Path) -> Iterator[str]:
    """The first names of what a file imports, but for its own package's parts."""
    for node in ast.walk(ast.parse(path.read_text(encoding="utf-8"))):
        if isinstance(node, ast.Import):
            yield from (name.name.split(".")[0] for name in node.names)
        elif isinstance(node, ast.ImportFrom) and node.level == 0:
            yield str(node.module).split(".")[0]


def test_what_is_imported_is_shipped_or_recommended() -> None:
    shipped = {pathlib.PurePath(package).name for package in PACKAGES}
    recommended = set(re.findall(r"(\w+):python3-\w+", SCRIPT))
    known = set(sys.stdlib_module_names) | shipped | recommended
    unknown = {f"{path.relative_to(TOP)}: {name}" for path in files() for name in imported(path) if name not in known}
    assert not unknown
