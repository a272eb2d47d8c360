"""A PostgreSQL server of its own, for tests and chaos: a cluster in a temporary folder, on a port that is free.

python3 -m trials.room.cluster tries whether there can be one: its exit status is 0, or it says why not.

It refuses to run as root, so root has it run as another user by setpriv. It ends with the process that began it,
whatever happens to that one.
"""

import argparse
import contextlib
import os
import pathlib
import pwd
import shutil
import signal
import subprocess
import sys
import tempfile
import time
from typing import Iterator

from wisangub.refusal import Refusal, status_of
from wisangub.room.store.programs import program

from .ports import free_port

USERS = ("postgres", "nobody")
PORT = "ROOM_SERVER"  # of the environment: that of a server which many processes of tests share
START = 60.0  # seconds that the server has to answer


class Server:
    """A server that somebody has started, at a port of this machine."""

    def __init__(self, port: int) -> None:
        self.port, self.user, self.made = port, self.other_user(), 0

    @staticmethod
    def other_user() -> pwd.struct_passwd | None:
        """Who runs it where this is root."""
        if os.geteuid() != 0:
            return None
        for name in USERS:
            with contextlib.suppress(KeyError):
                return pwd.getpwnam(name)
        raise Refusal(f"root cannot run PostgreSQL, and there is no user {' or '.join(USERS)}")

    def words(self, name: str) -> list[str]:
        """The call of one of its programs as that user, ended with this process."""
        if shutil.which("setpriv") is None:
            raise Refusal("there is no setpriv: apt-get install util-linux")
        who = (
            []
            if self.user is None
            else [f"--reuid={self.user.pw_uid}", f"--regid={self.user.pw_gid}", "--clear-groups"]
        )
        return ["setpriv", "--pdeathsig=QUIT", *who, program(name)]

    def call(self, name: str, *words: str) -> None:
        """Runs one of its programs to its end."""
        done = subprocess.run(
            [*self.words(name), *words],
            stdin=subprocess.DEVNULL,
            stdout=subprocess.PIPE,
            stderr=subprocess.STDOUT,
            cwd="/",
            timeout=120,
        )
        if done.returncode:
            raise Refusal(f"{name}: {done.stdout.decode(errors='replace').strip()[-500:]}")

    def url(self, name: str = "postgres") -> str:
        return f"postgresql://control@127.0.0.1:{self.port}/{name}"

    def database(self, like: str = "template1") -> str:
        """The URL of a new database, with what another one has to which nobody is connected."""
        self.made += 1
        name = f"room_{os.getpid()}_{self.made}"  # of several who share the server
        self.call("createdb", "-h", "127.0.0.1", "-p", str(self.port), "-U", "control", "-T", like, name)
        return self.url(name)


class Cluster(Server):
    """A server of its own with these settings, which can be stopped and started again over the same files."""

    def __init__(self, folder: pathlib.Path, settings: dict[str, str]) -> None:
        super().__init__(free_port())
        self.folder, self.data, self.settings = folder, folder / "data", settings
        self.process: subprocess.Popen[bytes] | None = None
        if self.user is not None:
            os.chown(folder, self.user.pw_uid, self.user.pw_gid)
        self.call(
            "initdb", "-D", str(self.data), "-A", "trust", "-U", "control", "-E", "UTF8", "--locale=C", "--no-sync"
        )

    def start(self) -> None:
        """The server, once it answers."""
        places = {"listen_addresses": "127.0.0.1", "unix_socket_directories": str(self.folder)}
        call = [*self.words("postgres"), "-D", str(self.data), "-p", str(self.port)]
        for name, value in {**places, "max_connections": "100", **self.settings}.items():
            call += ["-c", f"{name}={value}"]
        with open(self.folder / "log", "ab") as log:
            self.process = subprocess.Popen(
                call, stdin=subprocess.DEVNULL, stdout=log, stderr=log, cwd="/", process_group=0
            )
        ends = time.monotonic() + START
        while self.process.poll() is None and time.monotonic() < ends:
            with contextlib.suppress(Refusal):
                return self.call("pg_isready", "-q", "-h", "127.0.0.1", "-p", str(self.port))
            time.sleep(0.05)
        said = (self.folder / "log").read_text(errors="replace").strip()[-500:]
        raise Refusal(f"PostgreSQL did not start: {said}")

    def stop(self, how: signal.Signals = signal.SIGINT) -> None:
        """Ends the server: SIGINT at once with what was committed in its files, SIGQUIT as where it crashed."""
        if self.process is not None:
            self.process.send_signal(how)
            try:
                self.process.wait(30)
            except subprocess.TimeoutExpired:
                os.killpg(self.process.pid, signal.SIGKILL)
                self.process.wait()
            self.process = None


@contextlib.contextmanager
def cluster(**settings: str) -> Iterator[Cluster]:
    """A server that stands as long as the block; a Refusal says why there is none."""
    with tempfile.TemporaryDirectory(prefix="control-postgresql-") as folder:
        made = Cluster(pathlib.Path(folder), settings)
        try:
            made.start()
            yield made
        finally:
            made.stop(signal.SIGQUIT)


def shared() -> contextlib.AbstractContextManager[Server] | None:
    """The server of whom the environment names the port, where it names one. It goes on."""
    port = os.environ.get(PORT)
    return contextlib.nullcontext(Server(int(port))) if port else None


def main() -> int:
    parser = argparse.ArgumentParser(
        prog="python3 -m trials.room.cluster", description=__doc__, formatter_class=argparse.RawDescriptionHelpFormatter
    )
    parser.parse_args()
    with cluster():
        return 0


if __name__ == "__main__":
    sys.exit(status_of(main))
