"""A step of a test, how it is run, and what came of it."""

from __future__ import annotations

import contextlib
import importlib.util
import os
import pathlib
import re
import shutil
import signal
import subprocess
import tempfile
import threading
import time
from dataclasses import dataclass, field

TOP = pathlib.Path(__file__).resolve().parents[2]
COUNTS = re.compile(r"(?m)^(\d+) passed, (\d+) failed")
_SKIPPED = re.compile(r"(?m)^skipped ([^:\n]+)")
_MOST_SHOWN = 6000
_NEVER = threading.Event()


@dataclass(frozen=True)
class Step:
    name: str
    command: str
    limit: int
    needs: str = ""
    seconds: float = 10.0  # about what it takes on a quiet machine


@dataclass
class Outcome:
    passed: int = 0
    failed: int = 0
    skipped: list[str] = field(default_factory=list)
    said: str = ""


def lacking(step: Step) -> list[str]:
    """What the step needs and is not here: a file of the repository, a module of Python, or a program."""

    def is_here(need: str) -> bool:
        if "/" in need:
            return (TOP / need).exists()
        if need.startswith("python:"):
            return importlib.util.find_spec(need.removeprefix("python:")) is not None
        return shutil.which(need) is not None

    return [need for need in step.needs.split() if not is_here(need)]


def _waited(process: subprocess.Popen[bytes], limit: float, stopped: threading.Event) -> bool:
    """Whether the process ended in time. It is not reaped, so that its number still names its group."""
    last = time.monotonic() + limit
    while os.waitid(os.P_PID, process.pid, os.WEXITED | os.WNOHANG | os.WNOWAIT) is None:
        if time.monotonic() > last or stopped.is_set():
            return False
        time.sleep(0.05)
    return True


def run(step: Step, program: str, stopped: threading.Event = _NEVER) -> Outcome:
    """Runs the step in a process group of its own, which is gone afterwards, with temporary files of its own. Where all
    are stopped it ends at once."""
    lacks = lacking(step)
    if lacks:
        return Outcome(skipped=[step.name], said=f"{step.name}: skipped, as here is no {', '.join(lacks)}")
    begun = time.monotonic()
    words = [program if word == "{program}" else word for word in step.command.split()]
    with tempfile.TemporaryDirectory(prefix="step-") as room, tempfile.TemporaryFile() as output:
        os.chmod(room, 0o711)  # a server that root has run as another user passes through it
        environment = {**os.environ, "TMPDIR": room, "PYTHONDONTWRITEBYTECODE": "1"}
        try:
            process = subprocess.Popen(
                words,
                cwd=TOP,
                env=environment,
                start_new_session=True,
                stdin=subprocess.DEVNULL,
                stdout=output,
                stderr=output,
            )
        except OSError as fault:
            return Outcome(failed=1, said=f"{step.name}: {fault}")
        is_ended = _waited(process, step.limit, stopped)
        with contextlib.suppress(ProcessLookupError):
            os.killpg(process.pid, signal.SIGKILL)
        status = process.wait()
        output.seek(0)
        text = output.read().decode(errors="replace")
    return judged(step, text, status if is_ended else None, time.monotonic() - begun)


def judged(step: Step, text: str, status: int | None, seconds: float) -> Outcome:
    """The counts of what a step printed. It failed at least once where its status is not 0 (none: it was stopped)."""
    counts = COUNTS.findall(text)
    passed, failed = map(int, counts[-1]) if counts else (int(status == 0), 0)
    failed = max(failed, int(status != 0))
    skipped = [f"{step.name}: {name}" for name in _SKIPPED.findall(text)]
    how = f"stopped after {step.limit} seconds" if status is None else f"{seconds:.0f} s"
    said = f"{step.name}: {passed} passed, {failed} failed ({how})"
    if failed:
        said = f"--- {step.name}: {step.command}\n{text[-_MOST_SHOWN:].rstrip()}\n{said}, exit {status}"
    return Outcome(passed, failed, skipped, said)


def totals(found: list[Outcome]) -> int:
    """Says what was skipped and how many passed and failed, in two lines, and returns the exit status."""
    skipped = sorted(name for outcome in found for name in outcome.skipped)
    failed = sum(outcome.failed for outcome in found)
    print(f"{len(skipped)} skipped: {', '.join(skipped) or 'none'}")
    print(f"{sum(outcome.passed for outcome in found)} passed, {failed} failed")
    return 1 if failed else 0
