"""The checks that run, which end with the tool: none goes on behind a tool that was stopped."""

from __future__ import annotations

import os
import pathlib
import signal
import subprocess
import threading

KILLED = -signal.SIGKILL


class Checks:
    """Commands that run in threads, each in a process group of its own."""

    def __init__(self) -> None:
        self.have_ended = False
        self._lock, self._running = threading.Lock(), set[subprocess.Popen[str]]()

    def run(self, words: list[str], folder: pathlib.Path, seconds: float) -> subprocess.CompletedProcess[str]:
        """What a command says, which is killed after so many seconds, or at once where all have ended."""
        with self._lock:
            if self.have_ended:
                return subprocess.CompletedProcess(words, KILLED, "", "")
            process = subprocess.Popen(
                words,
                cwd=folder,
                process_group=0,
                stdin=subprocess.DEVNULL,
                stdout=subprocess.PIPE,
                stderr=subprocess.PIPE,
                text=True,
                errors="replace",
            )
            self._running.add(process)
        try:
            out, err = process.communicate(timeout=seconds)
            return subprocess.CompletedProcess(words, process.returncode, out, err)
        except subprocess.TimeoutExpired:
            _kill(process)
            process.communicate()
            return subprocess.CompletedProcess(words, KILLED, "", "")
        finally:
            with self._lock:
                self._running.discard(process)

    def end(self) -> None:
        """Kills those that run, with what they started, and lets no other begin."""
        with self._lock:
            self.have_ended = True
            for process in self._running:
                _kill(process)


def _kill(process: subprocess.Popen[str]) -> None:
    if process.poll() is None:
        os.killpg(process.pid, signal.SIGKILL)
