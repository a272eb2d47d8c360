"""The gate's last lines and its exit status tell which step failed."""

import contextlib
import pathlib
import subprocess
import sys
import time

import pytest

import after_gate
from steps.step import TOP, Step


def told(monkeypatch: pytest.MonkeyPatch, *steps: Step) -> int:
    """The status of a gate of these steps, over a program that there is."""
    monkeypatch.setattr(after_gate, "STEPS", steps)
    monkeypatch.setattr(sys, "argv", ["after_gate.py", "--program", sys.executable, "--gate", "3 passed, 0 failed"])
    monkeypatch.setattr(after_gate, "adopt_orphans", lambda: None)  # pytest's own children stay its own
    monkeypatch.setattr(after_gate, "end_children", lambda: None)
    return after_gate.main()


def test_what_passes_is_counted(monkeypatch: pytest.MonkeyPatch, capsys: pytest.CaptureFixture[str]) -> None:
    assert told(monkeypatch, Step("model", "true", 30)) == 0
    assert capsys.readouterr().out.splitlines()[-2:] == ["0 skipped: none", "4 passed, 0 failed"]


def test_a_step_that_fails_is_named_and_has_a_status(
    monkeypatch: pytest.MonkeyPatch, capsys: pytest.CaptureFixture[str]
) -> None:
    assert told(monkeypatch, Step("model", "true", 30), Step("lasting", "false", 20)) == 12
    assert capsys.readouterr().out.splitlines()[-3:] == ["failed: lasting", "0 skipped: none", "4 passed, 1 failed"]


def test_of_several_that_fail_the_first_has_the_status(
    monkeypatch: pytest.MonkeyPatch, capsys: pytest.CaptureFixture[str]
) -> None:
    assert told(monkeypatch, Step("model", "false", 10), Step("vectors", "false", 20)) == 11
    assert capsys.readouterr().out.splitlines()[-3] == "failed: model, vectors"


def test_each_step_has_a_status_that_is_no_signal() -> None:
    assert len(after_gate.STEPS) + 10 < 128


STOPPED = """import sys

sys.path.insert(0, "tools")
import after_gate
from steps.step import Step

after_gate.STEPS = (Step("long", "sleep 1613.25", 1700),)
sys.argv = ["after_gate.py", "--program", sys.executable]
sys.exit(after_gate.main())
"""


def sleeping() -> int:
    """How many processes of that step there are."""
    found = 0
    for path in pathlib.Path("/proc").glob("[0-9]*/cmdline"):
        with contextlib.suppress(OSError):  # it ended meanwhile
            found += path.read_bytes() == b"sleep\x001613.25\x00"
    return found


def test_a_gate_that_is_stopped_leaves_no_step() -> None:
    gate = subprocess.Popen([sys.executable, "-c", STOPPED], cwd=TOP, stdout=subprocess.DEVNULL)
    ends = time.monotonic() + 120
    while not sleeping() and time.monotonic() < ends:
        time.sleep(0.05)
    assert sleeping() == 1
    gate.terminate()
    assert gate.wait(120) == 143 and sleeping() == 0
