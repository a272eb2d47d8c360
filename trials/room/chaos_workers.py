"""Workers of chaos: processes that are killed, or stopped for longer than their lease while others go on."""

import os
import pathlib
import random
import signal
import subprocess
import sys
import time

from wisangub.process.places import TOP


class Workers:
    """Processes, some of which are stopped. What they say goes to a file."""

    def __init__(
        self,
        count: int,
        folder: pathlib.Path,
        where: str,
        signtool: str,
        tick: float,
        lease: float,
        words: tuple[str, ...] = (),
    ) -> None:
        self.count, self.lease = count, lease
        self.call = [
            sys.executable,
            "-m",
            "wisangub.room.worker.program",
            "--fleet",
            str(folder / "fleet.toml"),
            "--database",
            where,
            "--signtool",
            signtool,
            "--tick",
            str(tick),
            "--lease",
            str(lease),
            *words,
        ]
        self.said = folder / "workers"
        self.going: list[subprocess.Popen[bytes]] = []
        self.stopped: list[tuple[float, subprocess.Popen[bytes]]] = []
        self.killed = self.paused = self.gave_up = 0

    def fill(self) -> None:
        """As many as are asked for go."""
        while len(self.going) < self.count:
            with open(self.said, "ab") as said:
                self.going.append(
                    subprocess.Popen(
                        self.call, cwd=TOP, stdin=subprocess.DEVNULL, stdout=subprocess.DEVNULL, stderr=said
                    )
                )

    def refill(self) -> None:
        """Others go where some gave up, since there was no database as they began."""
        ended = [worker for worker in self.going if worker.poll() is not None]
        self.going = [worker for worker in self.going if worker not in ended]
        self.gave_up += len(ended)
        self.fill()

    def trouble(self, chance: random.Random) -> None:
        """One is killed or stopped, and another takes its place."""
        worker = self.going.pop(chance.randrange(len(self.going)))
        if chance.random() < 0.5:
            worker.kill()
            worker.wait()
            self.killed += 1
        else:
            os.kill(worker.pid, signal.SIGSTOP)
            self.stopped.append((time.monotonic() + chance.uniform(1.2, 2.5) * self.lease, worker))
            self.paused += 1
        self.fill()

    def wake(self) -> None:
        """Those whose lease is over go on, beside the others; as many of the others end as are too many."""
        now = time.monotonic()
        for until, worker in [one for one in self.stopped if one[0] <= now]:
            self.stopped.remove((until, worker))
            os.kill(worker.pid, signal.SIGCONT)
            self.going.append(worker)
        while len(self.going) > 2 * self.count:
            worker = self.going.pop(0)
            worker.terminate()
            worker.wait(60)

    def end(self) -> list[int]:
        """How all that go ended."""
        for _, worker in self.stopped:
            os.kill(worker.pid, signal.SIGCONT)
        every = self.going + [worker for _, worker in self.stopped]
        for worker in every:
            worker.terminate()
        return [worker.wait(60) for worker in every]
