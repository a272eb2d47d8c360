"""What stands beside the workers of chaos, or alone: a service with pages that are asked for, many at a time, which is
killed now and then; and the programs over the database, each of which ends beside it."""

import pathlib
import subprocess
import threading
import time
import urllib.error

from . import beside
from .beside import Browser, Service

PAUSE = 0.5  # seconds from one program to the next
LIVES = 5  # programs that end beside a service until it is killed
LINE = "blank 1 65535 255 192.0.2.1"
OLD = "3s"  # what goes into an archive is older


class Beside(threading.Thread):
    """All of it in a thread, until it is ended. What does not hold is kept."""

    def __init__(self, fleet: pathlib.Path, where: str, signtool: str, sign: str, words: tuple[str, ...] = ()) -> None:
        super().__init__(name="beside", daemon=True)
        self.fleet, self.where, self.signtool, self.sign = fleet, where, signtool, sign
        self.said = fleet.with_name("service")
        self.service = Service(fleet, where, signtool, self.said, [*words])
        self.is_done = False
        self.killed = self.programs = self.most_connections = 0
        self.faults: list[str] = []
        self.archives: list[pathlib.Path] = []

    def run(self) -> None:
        """A service after the other."""
        while not self.is_done:
            try:
                self.service.start()
                self.life()
            except (urllib.error.URLError, AssertionError, OSError, subprocess.TimeoutExpired):
                pass  # the database's server was away as it began, or as somebody logged in
            if not self.is_done:
                self.killed += 1
                self.service.kill()

    def life(self) -> None:
        """Pages and programs, until the service is killed."""
        browser = Browser(self.service.address)
        for at in range(LIVES):
            if self.is_done:
                return
            browser.look()
            self.program(at)
            self.look()
            time.sleep(PAUSE)

    def program(self, at: int) -> None:
        """One of the programs, to its end."""
        if at == 1:
            status = beside.worker_ended(self.fleet, self.where, self.signtool)
            self.faults += [f"a worker that was ended beside it has status {status}"] * (status not in (0, None))
        else:
            words = {
                0: ("wisangub.room.users", "list"),
                2: ("wisangub.room.command", "--wait", "1", self.sign, LINE),
                3: ("wisangub.room.store.backup", "copy", "--to", str(self.fleet.with_name(f"copy {self.programs}"))),
                4: ("wisangub.room.archive", "write", "--older-than", OLD, "--to", str(self.archive())),
            }[at]
            done = beside.ended(self.where, *words)
            self.faults += [f"{words[0]}: {done.stderr}"] * ("Traceback" in done.stderr)
        self.programs += 1

    def archive(self) -> pathlib.Path:
        """The next archive."""
        self.archives.append(self.fleet.with_name(f"archive {self.programs}.gz"))
        return self.archives[-1]

    def look(self) -> None:
        """No file of the database is deleted under the service."""
        assert self.service.process is not None
        files = self.service.open_files(self.where)
        self.faults += [f"the service has {name}" for name in files if name.endswith("(deleted)")]
        self.most_connections = max(self.most_connections, files.count(self.where))

    def end(self) -> None:
        """Ends the service, and waits for what is under way; once."""
        self.is_done = True
        if self.ident is not None:
            self.join()
        if self.service.is_standing:
            status = self.service.end()
            self.service.process = None
            self.faults += [f"the service ended with status {status}"] * (status != 0)
            if "Traceback" in self.said.read_text(errors="replace"):
                self.faults.append("the service said a traceback")

    def told(self) -> str:
        """The numbers."""
        return (
            f"{self.programs} programs ended beside a service of up to {self.most_connections} connections, which"
            f" was killed {self.killed} times"
        )
