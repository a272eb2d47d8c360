"""The version is said in one place, and the changes name it."""

import pathlib
import re
import subprocess
import sys

import pytest

TOP = pathlib.Path(__file__).resolve().parents[3]
sys.path.insert(0, str(TOP / "tools"))

from version import version  # noqa: E402

LINE = 'const VERSION: &[u8] = b"signtool 2.0.1\\n";\n'
AS_TEXT = 'const VERSION: &str = "signtool 2.0.1";\n'


def test_the_newest_changes_are_of_this_version() -> None:
    text = (TOP / "CHANGELOG.md").read_text(encoding="utf-8")
    assert re.findall(r"(?m)^## (\S+)", text)[0] == version()


def test_the_package_is_of_this_version() -> None:
    text = (TOP / "python/wisangub/__init__.py").read_text(encoding="utf-8")
    assert re.findall(r'(?m)^__version__ = "(.*?)"', text) == [version()]


def test_the_header_for_c_is_of_this_version() -> None:
    text = (TOP / "include/wisangub.h").read_text(encoding="utf-8")
    assert re.findall(r'(?m)^#define WISANGUB_VERSION "(.*?)"', text) == [version()]
    names = re.findall(r"(?m)^#define WISANGUB_OF_THIS_VERSION (\w+)", text)
    assert names == [f"wisangub_{version().replace('.', '_')}"]
    rust = (TOP / "examples/from_rust.rs").read_text(encoding="utf-8")
    assert set(re.findall(r"wisangub_[0-9]\w+", rust)) == set(names)
    python = (TOP / "examples/from_python.py").read_text(encoding="utf-8")
    assert re.findall(r'(?m)^VERSION = "(.*?)"', python) == [version()]


@pytest.mark.parametrize(("command", "folder"), [("wisangub-conform", "tester"), ("wisangub-control", "room")])
def test_each_part_of_a_command_says_it(command: str, folder: str) -> None:
    text = (TOP / f"python/wisangub/{folder}/__main__.py").read_text(encoding="utf-8")
    parts = re.findall(r'(?m)^    "(\w+)": "wisangub\.', text)
    assert len(parts) > 4
    for part in parts:
        call = [sys.executable, str(TOP / "bin" / command), part, "--version"]
        ended = subprocess.run(call, capture_output=True, text=True, timeout=60, check=True)
        assert ended.stdout == f"{command} {part} {version()}\n"


def test_the_version_stands_in_one_place(tmp_path: pathlib.Path) -> None:
    folder = tmp_path / "crates/one/src"
    folder.mkdir(parents=True)
    with pytest.raises(ValueError, match="0 places"):
        version(tmp_path)
    (folder / "act.rt").write_text(f"// the name\n{LINE}", encoding="utf-8")
    assert version(tmp_path) == "2.0.1"
    (folder / "other.rt").write_text(AS_TEXT, encoding="utf-8")
    with pytest.raises(ValueError, match="2 places"):
        version(tmp_path)
