"""What the packages of a release say of themselves, and that nobody but an administrator begins their services."""

import pathlib
import re

import pytest

TOP = pathlib.Path(__file__).resolve().parents[3]
RELEASE = TOP / "tools/release"
PACKAGES = sorted(path.name for path in (RELEASE / "debian").iterdir() if path.is_dir())
UNITS = sorted((RELEASE / "units").iterdir())
NEAR = """# while many datagrams come it stays on one processor with its program
SystemCallFilter=sched_setaffinity
"""  # what the unit of a sign allows besides


def test_there_are_three() -> None:
    assert PACKAGES == ["libwisangub-dev", "wisangub", "wisangub-control"]


@pytest.mark.parametrize("name", PACKAGES)
def test_a_package_says_its_name_and_version(name: str) -> None:
    text = (RELEASE / "debian" / name / "control").read_text(encoding="utf-8")
    fields = dict(re.findall(r"(?m)^([A-Z][\w-]*): (.*)$", text))
    assert fields["Package"] == name and fields["Version"] == "@DEBIAN_VERSION@"
    assert all(len(line) <= 79 for line in text.split("Description: ")[1].splitlines())


@pytest.mark.parametrize("path", sorted((RELEASE / "debian").glob("*/p*")), ids=str)
def test_no_script_begins_a_service(path: pathlib.Path) -> None:
    words = set(re.findall(r"systemctl ([\w-]+)", path.read_text(encoding="utf-8")))
    assert words <= {"daemon-reload", "try-restart", "stop"}
    assert path.stat().st_mode & 0o111


@pytest.mark.parametrize("path", UNITS, ids=[path.name for path in UNITS])
def test_each_unit_starts_its_front_end_as_hardened_as_the_others(path: pathlib.Path) -> None:
    text = path.read_text(encoding="utf-8")
    commands = re.findall(r"(?m)^ExecStart=/usr/bin/(\S+)", text)
    assert len(commands) == 1 and (TOP / "bin" / commands[0]).exists()
    assert "User=wisangub\n" in text and "StateDirectory=wisangub\n" in text and "ConditionPathExists=" in text
    assert (NEAR in text) == (commands == ["wisangub-sign"])
    hardening = text.replace(NEAR, "").split("NoNewPrivileges=")[1]
    assert hardening == UNITS[0].read_text(encoding="utf-8").split("NoNewPrivileges=")[1]
