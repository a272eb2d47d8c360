"""Checks that run in threads end with the tool, or after their time, with what they started."""

from __future__ import annotations

import concurrent.futures
import os
import pathlib
import signal
import subprocess
import sys
import time

from tries.checks import KILLED, Checks

TOOLS = pathlib.Path(__file__).resolve().parents[2]
# a command that starts another one, and says which
STARTS = "sleep 600 & echo $!; wait"
ENDED_BY_SIGTERM = """
import pathlib, sys, threading
from building.ending import end_at_sigterm
from tries.checks import Checks
from try_edits import Run, Work

class Waits(Run):
    def counted(self, work, below):
        self.checks.run(["bash", "-c", "echo $$ > pid; sleep 600"], below, 600)
        return 0, 1, 0

class Crate:
    memory = work = 1

end_at_sigterm()
run = Waits(None, None, None, False)
run.side_by_side([Work(Crate(), "", [], ["edit"])] * 2, pathlib.Path(sys.argv[1]), 1)
"""


def is_there(pid: int) -> bool:
    try:
        os.kill(pid, 0)
    except ProcessLookupError:
        return False
    return pathlib.Path(f"/proc/{pid}/stat").read_text(encoding="ascii").rpartition(")")[2].split()[0] != "Z"


def waited(is_so: object, seconds: float = 30) -> bool:
    """Whether something comes to be so."""
    end = time.monotonic() + seconds
    while time.monotonic() < end:
        if is_so():  # type: ignore[operator]
            return True
        time.sleep(0.02)
    return False


def test_what_a_check_says_is_heard(tmp_path: pathlib.Path) -> None:
    ran = Checks().run(["bash", "-c", "pwd; echo no >&2; exit 3"], tmp_path, 60)
    assert (ran.returncode, ran.stdout, ran.stderr) == (3, f"{tmp_path}\n", "no\n")


def test_a_check_that_takes_too_long_is_killed_with_what_it_started(tmp_path: pathlib.Path) -> None:
    words = ["bash", "-c", f"({STARTS}) > pid"]
    ran = Checks().run(words, tmp_path, 2)
    assert ran.returncode == KILLED
    assert waited(lambda: not is_there(int((tmp_path / "pid").read_text(encoding="ascii"))))


def test_the_end_kills_those_that_run_and_lets_no_other_begin(tmp_path: pathlib.Path) -> None:
    checks = Checks()
    with concurrent.futures.ThreadPoolExecutor(2) as pool:
        runs = [pool.submit(checks.run, ["bash", "-c", f"({STARTS}) > {name}"], tmp_path, 600) for name in "ab"]
        files = [tmp_path / name for name in "ab"]
        assert waited(lambda: all(file.exists() and file.read_text(encoding="ascii").strip() for file in files))
        checks.end()
        assert [run.result().returncode for run in runs] == [KILLED] * 2
    assert waited(lambda: not any(is_there(int(file.read_text(encoding="ascii"))) for file in files))
    assert checks.run(["touch", "c"], tmp_path, 60).returncode == KILLED and not (tmp_path / "c").exists()


def test_a_tool_that_is_stopped_leaves_no_check_behind(tmp_path: pathlib.Path) -> None:
    words = [sys.executable, "-c", ENDED_BY_SIGTERM, str(tmp_path)]
    with subprocess.Popen(words, cwd=TOOLS, env={**os.environ, "PYTHONPATH": str(TOOLS)}) as tool:
        pid = tmp_path / "pid"
        assert waited(lambda: pid.exists() and pid.read_text(encoding="ascii").strip())
        tool.send_signal(signal.SIGTERM)
        assert tool.wait(30) == 143
    assert waited(lambda: not is_there(int(pid.read_text(encoding="ascii"))))
