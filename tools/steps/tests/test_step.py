"""What comes of a step that passes, fails, skips, hangs, cannot be started, or leaves something running."""

import os
import pathlib
import subprocess
import sys
import time

import pytest

from steps.step import TOP, Outcome, Step, run, totals
from steps.together import ended


def shell(tmp_path: pathlib.Path, text: str, limit: int = 20, needs: str = "") -> Step:
    """A step that runs these lines of bash."""
    script = tmp_path / "step.sh"
    script.write_text(text, encoding="utf-8")
    return Step("a step", f"bash {script}", limit, needs)


def test_the_last_counts_are_taken(tmp_path: pathlib.Path) -> None:
    outcome = run(shell(tmp_path, "echo 1 passed, 0 failed; echo 7 passed, 0 failed"), "")
    assert (outcome.passed, outcome.failed, outcome.skipped) == (7, 0, [])


def test_a_step_without_counts_is_one(tmp_path: pathlib.Path) -> None:
    outcome = run(shell(tmp_path, "echo well"), "")
    assert (outcome.passed, outcome.failed) == (1, 0)


def test_a_status_counts_as_failed_and_the_output_is_shown(tmp_path: pathlib.Path) -> None:
    outcome = run(shell(tmp_path, "echo what went wrong; echo 7 passed, 0 failed; exit 3"), "")
    assert (outcome.passed, outcome.failed) == (7, 1)
    assert "what went wrong" in outcome.said and outcome.said.endswith("exit 3")


def test_what_a_step_skips_has_its_name(tmp_path: pathlib.Path) -> None:
    outcome = run(shell(tmp_path, "echo 'skipped mypy: it is not here'; echo 2 passed, 0 failed"), "")
    assert outcome.skipped == ["a step: mypy"]


def test_a_step_that_lacks_something_is_skipped_by_name(tmp_path: pathlib.Path) -> None:
    for need in ("no_such_program", "python:no_such_module", "tools/no_such_file"):
        outcome = run(shell(tmp_path, "exit 1", needs=need), "")
        assert (outcome.passed, outcome.failed, outcome.skipped) == (0, 0, ["a step"])


def test_a_step_that_hangs_is_stopped_with_what_it_started(tmp_path: pathlib.Path) -> None:
    begun = time.monotonic()
    outcome = run(shell(tmp_path, f"sleep 60 & echo $! > {tmp_path}/number; wait", limit=1), "")
    assert (outcome.failed, time.monotonic() - begun < 30) == (1, True) and "stopped after 1 seconds" in outcome.said
    number = int((tmp_path / "number").read_text())
    time.sleep(0.2)
    assert not pathlib.Path(f"/proc/{number}").exists() or "Z" in pathlib.Path(f"/proc/{number}/stat").read_text()


def test_another_user_passes_through_the_folder_of_temporary_files(tmp_path: pathlib.Path) -> None:
    outcome = run(shell(tmp_path, 'echo "folder $(stat -c %a "$TMPDIR")"; exit 1'), "")
    assert "folder 711\n" in outcome.said


def test_a_command_that_is_not_there_fails() -> None:
    assert run(Step("a step", "/no/such/command", 5), "").failed == 1


def test_the_program_stands_in_its_place() -> None:
    assert run(Step("a step", "test -x {program}", 5), sys.executable).passed == 1


def test_each_step_is_told_as_it_ends(tmp_path: pathlib.Path) -> None:
    steps = [Step("long", "sleep 1", 20), Step("short", "true", 10), Step("bad", "false", 10)]
    found = {step.name: outcome.failed for step, outcome in ended(steps, "", 2)}
    assert found == {"long": 0, "short": 0, "bad": 1}


def test_steps_are_stopped_where_nobody_waits_for_them(tmp_path: pathlib.Path) -> None:
    steps = [Step("long", "sleep 60", 80), Step("short", "true", 70), Step("never begun", f"touch {tmp_path}/x", 10)]
    begun, told = time.monotonic(), ended(steps, "", 1)
    told.close()
    told = ended([Step("quick", "true", 90), *steps], "", 1)
    assert next(told)[0].name == "quick"
    told.close()
    assert time.monotonic() - begun < 30 and not (tmp_path / "x").exists()


def test_totals_are_the_last_two_lines(capsys: pytest.CaptureFixture[str]) -> None:
    assert totals([Outcome(3, 0, ["b"]), Outcome(1, 2, ["a"])]) == 1
    assert capsys.readouterr().out == "2 skipped: a, b\n4 passed, 2 failed\n"
    assert totals([Outcome(3)]) == 0
    assert capsys.readouterr().out == "0 skipped: none\n3 passed, 0 failed\n"


def test_the_gate_counts_what_ran_before_and_needs_a_program() -> None:
    words = [sys.executable, "tools/after_gate.py", "--gate", "464 passed, 0 failed", "--gate", "killed"]
    call = subprocess.run([*words, "--program", "/no/program"], cwd=TOP, capture_output=True, text=True, check=False)
    assert call.returncode == 9
    assert call.stdout.splitlines()[-2:] == ["0 skipped: none", "464 passed, 2 failed"]


def test_the_gate_lists_its_steps_and_knows_their_names() -> None:
    words = [sys.executable, "tools/after_gate.py"]
    listed = subprocess.run([*words, "--list"], cwd=TOP, capture_output=True, text=True, check=True).stdout
    assert listed.startswith("vectors: python3 -m trials.check_vectors --program {program} (at most ")
    environment = {**os.environ, "PYTHONDONTWRITEBYTECODE": "1"}
    unknown = subprocess.run([*words, "no such step"], cwd=TOP, env=environment, capture_output=True, check=False)
    assert unknown.returncode == 2
