"""Standard files of a front end that are closed, or full, or that nobody reads."""

import functools
import os
import pathlib
import signal
import subprocess
import sys

from wisangub.process.places import TOP

from .bench import Trial, eventually
from .follower import lines_of
from .patience import PACE


def run(trial: Trial) -> None:
    """Standard files that are closed, or full: no file of a front end's own has their numbers, and the front end
    goes on."""
    rows = [">&-", "2>&-", "<&- >&- 2>&-", ">/dev/full", "2>/dev/full", "| true"]
    for row in rows:
        if trial.is_late():
            break
        path = trial.new_folder() / "journal"
        words = ["--port", "0", "--journal", str(path), *([] if trial.other else ["--log", "-"])]
        call = trial.call("wisangub-sign", *words)
        process = _shell(f'exec "$@" {row}' if row != "| true" else '"$@" | true', call)
        trial.holds(f"a sign with {row} begins", eventually(lambda: _has_begun(path)), path)
        errors = _ended(process, path, call[0])
        is_well = b"Traceback" not in errors and b"Exception" not in errors
        trial.holds(f"a sign with {row} ends", process.returncode == 0 and is_well, (process.returncode, errors))
        lines = lines_of(path.read_bytes())
        trial.holds(f"a sign with {row} keeps a journal", lines[-1].startswith(b"clock ") and len(lines) >= 4, lines)
        if row != "| true" and trial.other is None:
            centre = _shell(f'exec "$@" {row}', [sys.executable, str(TOP / "bin/wisangub-centre"), "--to", "x"])
            _communicated(centre)
            trial.holds(f"a centre with {row} has its status", centre.returncode == 2, centre.returncode)


def _shell(line: str, call: list[str]) -> subprocess.Popen[bytes]:
    """A call that a shell makes with other standard files."""
    pipe = subprocess.PIPE
    words = ["sh", "-c", line, "sh", *call]
    return subprocess.Popen(words, stdin=subprocess.DEVNULL, stdout=pipe, stderr=pipe, process_group=0)


def _has_begun(path: pathlib.Path) -> bool:
    """Whether a front end has recorded its start."""
    try:
        return any(line.startswith(b"clock ") for line in lines_of(path.read_bytes()))
    except OSError:
        return False


def _ended(process: subprocess.Popen[bytes], path: pathlib.Path, program: str) -> bytes:
    """Asks the front end of a journal to end, whose process may be a shell's: what it said on standard error."""
    numbers = [int(name) for name in os.listdir("/proc") if name.isdecimal()]
    for number in numbers:
        try:
            words = pathlib.Path(f"/proc/{number}/cmdline").read_bytes().split(b"\0")
        except OSError:
            continue
        if str(path).encode() in words and words[0] == program.encode():
            eventually(functools.partial(_is_waiting, number))
            os.kill(number, signal.SIGTERM)
    return _communicated(process)


def _communicated(process: subprocess.Popen[bytes]) -> bytes:
    """What a process said on standard error, once it and all that it started have ended, or are ended."""
    try:
        return process.communicate(timeout=PACE.patience())[1]
    except subprocess.TimeoutExpired:
        os.killpg(process.pid, signal.SIGKILL)
        return process.communicate(timeout=PACE.patience())[1]


def _is_waiting(number: int) -> bool:
    """Whether a process takes a SIGTERM by itself."""
    try:
        status = pathlib.Path(f"/proc/{number}/status").read_text(encoding="latin-1")
    except OSError:
        return True
    caught, blocked = (int(status.split(word)[1].split()[0], 16) for word in ("SigCgt:", "SigBlk:"))
    return bool((caught | blocked) >> (signal.SIGTERM - 1) & 1)
