"""A sign's front end with a file of objects is killed at random moments while a manager dims it and the file is read
again: the next one has what was set last, and firmware is told of it."""

import pathlib
import signal
import time

from model import wire
from wisangub.process.coprocess import CoProcess

from .. import agents
from .bench import FrontEnd, Trial, eventually
from .kills import killed_later
from .manager import DMS, Manager

_LEVEL, _WORDS = (*DMS, 7, 6, 0), (1, 3, 6, 1, 2, 1, 1, 1, 0)
_FILE = """uptime 1.3.6.1.2.1.1.3.0
object 1.3.6.1.2.1.1.1.0 OCTET STRING {words}
object 1.3.6.1.4.1.1206.4.2.3.7.6.0 INTEGER 0 number 0 65535
"""
_PATIENCE = 0.3  # seconds for a reply of a front end that may be killed


class _Dimmed:
    """Lives of a sign over one journal and one file, whose level is set to one more each time."""

    def __init__(self, trial: Trial) -> None:
        folder = trial.new_folder()
        self.trial, self.journal, self.file = trial, folder / "journal", pathlib.Path(folder, "some.objects")
        self.level, self.may_be = 0, [0]  # the values that it may have: the last one answered, and those after it
        self.answered = self.read_again = 0
        self.write()

    def write(self) -> None:
        """The file, with other words."""
        new = self.file.with_suffix(".new")
        new.write_text(_FILE.format(words=f"{self.trial.chance.randrange(2**32):08x}"), encoding="ascii")
        new.rename(self.file)

    def life(self, at: int) -> None:
        """A life that is killed."""
        name = f"dimmed life {at}"
        front_end = self.trial.sign("--journal", str(self.journal), "--objects", str(self.file))
        if self.trial.holds(f"{name}: it starts", front_end.port != 0, front_end.errors.decode()):
            manager = Manager(front_end.port)
            self.look(name, front_end, manager)
            timer = killed_later(
                front_end, self.trial.chance.choice(self.trial.victims()), self.trial.chance.uniform(0.01, 1.0)
            )
            while timer.is_alive() and front_end.process.poll() is None:
                self.step(front_end, manager)
            timer.join()
            manager.get([_LEVEL], _PATIENCE)  # of a front end whose co-process is gone
            manager.close()
            front_end.kill("both")
        self.trial.holds(f"{name}: no traceback", front_end.ended() != 999 and b"Traceback" not in front_end.errors)
        front_end.forget()
        self.trial.front_ends.remove(front_end)

    def look(self, name: str, front_end: FrontEnd, manager: Manager) -> None:
        """What was set last is there, and firmware was told of it at the start."""
        found = manager.values([_LEVEL]).get(_LEVEL)
        known = [one for one in self.may_be if found == (wire.INTEGER, one)]
        if not self.trial.holds(f"{name}: what was set last is there", known != [], (found, self.may_be)):
            return
        self.may_be = known
        line = f"set {agents.dotted(_LEVEL)} INTEGER {known[0]}\n".encode()
        is_told = known == [0] or eventually(lambda: line in front_end.output)
        self.trial.holds(f"{name}: firmware is told", is_told, front_end.output.decode())

    def step(self, front_end: FrontEnd, manager: Manager) -> None:
        """The level is set, or the file is another and read again."""
        if self.trial.chance.random() < 0.1:
            self.write()
            self.read_again += 1
            front_end.process.send_signal(signal.SIGHUP)
            return
        self.level += 1
        reply = manager.exchange(manager.request(wire.SET, [(_LEVEL, (wire.INTEGER, self.level))]), _PATIENCE)
        message = None if reply is None else wire.spelled(reply)
        if message is not None and message.status == 0:
            self.may_be, self.answered = [self.level], self.answered + 1
        else:
            self.may_be.append(self.level)
        time.sleep(self.trial.chance.uniform(0.0, 0.05))


def run(trial: Trial) -> None:
    """Lives, as many as there is time for; none where the program does not know the lines."""
    process = CoProcess(trial.program, ["sign"])
    is_known = agents.knows(process, "objects")
    process.end()
    if not is_known:
        trial.skip("dimmed", "the program has no line `object`")
        return
    dimmed, lives = _Dimmed(trial), 0
    for at in range(4 if trial.is_short else 200):
        if trial.is_late():
            break
        dimmed.life(at)
        lives += 1
    print(f"{lives} dimmed lives: {dimmed.answered} levels set, {dimmed.read_again} times read again", flush=True)
