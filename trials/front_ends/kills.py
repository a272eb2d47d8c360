"""A sign's front end, its co-process, or both are killed at random moments, again and again, over one journal."""

import pathlib
import threading
import time

from model import wire

from .bench import FrontEnd, Trial, eventually, is_gone
from .follower import Follower
from .manager import Manager
from .requests import Changes


def killed_later(front_end: FrontEnd, which: str, seconds: float) -> threading.Timer:
    """A kill so many seconds from now."""
    timer = threading.Timer(seconds, front_end.kill, (which,))
    timer.daemon = True
    timer.start()
    return timer


class Kills:
    """Lives of a sign over one journal, each of which is ended by a kill."""

    def __init__(self, trial: Trial, folder: pathlib.Path) -> None:
        self.trial, self.path = trial, folder / "journal"
        self.words = ["--journal", str(self.path), *trial.unshortened()]
        self.follower, self.changes = Follower(self.path), Changes(trial.chance)
        self.counted: list[int] = []  # values that the counter may have: the last one answered, and those after it
        self.answered = self.killed = self.early_kills = 0
        self.takes = 0.3  # seconds of a start

    def early(self, at: int) -> None:
        """A life that is killed while it starts, or soon after."""
        which = self.trial.chance.choice(self.trial.victims())
        name = f"life {at}, {which} killed at its start"
        front_end = self.trial.front_end("wisangub-sign", "--port", "0", *self.words, "--no-ticks")
        time.sleep(self.trial.chance.uniform(0.0, 1.2 * self.takes))
        inner = front_end.inner()
        front_end.kill(which)
        if which == "co-process":
            eventually(lambda: front_end.process.poll() is not None, self.takes)
            front_end.stop()
        self.over(name, front_end, inner)
        is_killed = which != "co-process" or inner is not None
        self.killed, self.early_kills = self.killed + is_killed, self.early_kills + is_killed

    def life(self, at: int) -> None:
        """A life with ticks or without, which is looked at where no tick can change it meanwhile."""
        has_ticks = at % 3 == 2
        which = self.trial.chance.choice(self.trial.victims())
        begun = time.monotonic()
        front_end = self.trial.sign(*self.words, *([] if has_ticks else ["--no-ticks"]))
        self.takes = time.monotonic() - begun
        name = f"life {at}, {which} killed"
        if not self.trial.holds(f"{name}: it starts", front_end.port != 0, front_end.errors.decode()):
            return
        manager = Manager(front_end.port)
        if not has_ticks:
            self.look(name, manager)
        inner = front_end.inner()
        timer = killed_later(front_end, which, self.trial.chance.uniform(0.001, 1.3 if has_ticks else 0.1))
        self.ask(front_end, manager, 0.1 if has_ticks else 0.0)
        timer.join()
        if which == "co-process":
            self.dies_too(name, front_end)
        self.over(name, front_end, inner)
        manager.close()
        self.killed += 1

    def over(self, name: str, front_end: FrontEnd, inner: int | None) -> None:
        """Nothing of this life stays."""
        self.trial.holds(f"{name}: it ended", front_end.ended() != 999)
        self.trial.holds(f"{name}: its co-process ended", eventually(lambda: is_gone(inner)), inner)
        self.trial.holds(f"{name}: no traceback", b"Traceback" not in front_end.errors, front_end.errors.decode())
        front_end.forget()
        self.trial.front_ends.remove(front_end)

    def dies_too(self, name: str, front_end: FrontEnd) -> None:
        """A front end whose co-process was killed says so and ends, at the next datagram at the latest."""
        last = Manager(front_end.port, b"public")
        last.get([Changes.COUNTER], 0.2)
        last.close()
        status = front_end.ended()
        self.trial.holds(
            f"{name}: the front end ends",
            status == 1 and b"co-process ended by signal 9" in front_end.errors,
            (status, front_end.errors.decode()),
        )

    def ask(self, front_end: FrontEnd, manager: Manager, pause: float) -> None:
        """SETs and Gets until the kill, one by one or up to sixteen at once, with pauses between them."""
        while front_end.process.poll() is None:
            time.sleep(self.trial.chance.uniform(0.0, pause))
            many, counts = [], []
            for _ in range(self.trial.chance.choice([1, 1, 1, 1, 1, 2, 16])):
                before = self.changes.count
                many.append(self.changes.next(manager))
                counts.append(self.changes.count if self.changes.count != before else None)
            replies = self.follower.ask(manager, many, 0.3)
            for count, reply in zip(counts, replies):
                self.answered += reply is not None
                self.count(count, reply)
            if None in replies:
                return
            if self.trial.chance.random() < 0.2:
                manager.get([Changes.COUNTER], 0.3)

    def count(self, count: int | None, reply: bytes | None) -> None:
        """What the counter may be after a SET of it."""
        if count is None:
            return
        message = None if reply is None else wire.spelled(reply)
        if message is None:
            self.counted.append(count % 65_536)
        elif message.status == 0:
            self.counted = [count % 65_536]

    def last(self) -> None:
        """A life that ends well."""
        front_end = self.trial.sign(*self.words, "--no-ticks")
        if self.trial.holds("after all kills: it starts", front_end.port != 0, front_end.errors.decode()):
            manager = Manager(front_end.port)
            self.look("after all kills", manager)
            manager.close()
        self.trial.holds("after all kills: it ends at a SIGTERM", front_end.stop() == 0, front_end.errors.decode())
        front_end.forget()
        self.trial.front_ends.remove(front_end)

    def look(self, name: str, manager: Manager) -> None:
        """After a start: the journal, the counter, the whole walk."""
        self.follower.catch_up(self.trial, name)
        found = manager.get([Changes.COUNTER])
        value = found[0][1][1] if found else None
        self.trial.holds(
            f"{name}: the counter is what was answered last, or what was asked after it",
            value in (self.counted or [0]),
            (value, self.counted),
        )
        if isinstance(value, int):
            self.counted = [value]
        self.follower.compare(self.trial, name, manager)

    def run(self, count: int) -> None:
        """So many kills, and a last look."""
        begun, at = time.monotonic(), 0
        while self.killed < count and at < 2 * count and not self.trial.is_late():
            (self.early if at % 8 == 7 else self.life)(at)
            at += 1
            if at % 100 == 0:
                print(f"{self.killed} kills, {time.monotonic() - begun:.0f} s", flush=True)
        self.last()
        print(
            f"kills of a sign: {self.killed}, {self.early_kills} of them at a start, {self.answered} SETs answered, "
            f"a journal of {self.path.stat().st_size} octets, "
            f"{time.monotonic() - begun:.0f} s",
            flush=True,
        )


def run(trial: Trial, count: int) -> None:
    """So many kills, and a last look."""
    Kills(trial, trial.new_folder()).run(count)
