"""The services: units that systemd takes, and the options that they have."""

import pathlib
import re
import shutil
import subprocess

import pytest

TOP = pathlib.Path(__file__).resolve().parents[3]
RELEASE = TOP / "tools/release"
SIGN, *CONTROL = UNITS = sorted((RELEASE / "units").iterdir(), key=lambda unit: "@" not in unit.name)
CONFIGURATIONS = {SIGN: "roadside.conf", **{unit: "control.conf" for unit in CONTROL}}


def started(unit: pathlib.Path) -> str:
    """What a unit starts."""
    found = re.search(r"(?m)^ExecStart=(.*)$", unit.read_text(encoding="utf-8"))
    assert found is not None
    return found[1]


def test_there_are_units() -> None:
    assert {unit.name for unit in UNITS} == {
        "wisangub-control.service",
        "wisangub-sign@.service",
        "wisangub-worker.service",
    }


@pytest.mark.parametrize("unit", UNITS, ids=[unit.name for unit in UNITS])
def test_systemd_takes_a_unit(unit: pathlib.Path, tmp_path: pathlib.Path) -> None:
    if shutil.which("systemd-analyze") is None:
        pytest.skip("systemd-analyze is not there: apt-get install systemd")
    text = re.sub(r"(?m)^(ExecStart=)\S+", r"\1/bin/true", unit.read_text(encoding="utf-8"))
    name = unit.name.replace("@", "@one")
    (tmp_path / name).write_text(re.sub(r"(?m)^Documentation=.*\n", "", text), encoding="utf-8")
    done = subprocess.run(["systemd-analyze", "verify", tmp_path / name], capture_output=True, text=True, timeout=60)
    said = [line for line in done.stderr.splitlines() if name in line]
    assert said == [], said


@pytest.mark.parametrize("unit", UNITS, ids=[unit.name for unit in UNITS])
def test_a_unit_has_what_the_configuration_names(unit: pathlib.Path) -> None:
    named = set(re.findall(r"\$\{?(\w+)\}?", started(unit)))
    given = set(re.findall(r"(?m)^(\w+)=", (RELEASE / "etc" / CONFIGURATIONS[unit]).read_text(encoding="utf-8")))
    assert named <= given and ("DATABASE" in named) is (unit in CONTROL)
    page = "wisangub-control.1" if unit in CONTROL else "wisangub-sign.1"
    manual = (RELEASE / "man" / page).read_text(encoding="utf-8")
    for option in re.findall(r"--([a-z-]+)", started(unit)):
        assert f"Fl -{option} " in manual, option
