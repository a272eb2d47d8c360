"""Disks that are full, that can only be read, and that are there again."""

import os
import pathlib
import subprocess
from typing import Callable

from model import wire
from model.codes import Activation, MessageId
from wisangub.endpoint import records
from wisangub.endpoint.clock import Moment
from wisangub.endpoint.records import FORM

from .bench import FrontEnd, Trial, eventually
from .follower import Follower
from .manager import DMS, Manager
from .patience import PACE
from .requests import Changes

PAGE = 4096  # octets of which a file in memory has a whole number


class Mounted:
    """A small file system in memory, where it may be mounted, in a folder that is made where it is not there."""

    def __init__(self, folder: pathlib.Path) -> None:
        self.folder = folder
        folder.mkdir(exist_ok=True)
        self.is_there = self._call("mount", "-t", "tmpfs", "-o", "size=64k", "tmpfs", str(folder))

    def _call(self, *words: str) -> bool:
        try:
            return subprocess.run(words, capture_output=True, check=False, timeout=PACE.patience()).returncode == 0
        except (OSError, subprocess.TimeoutExpired):
            return False

    def remount(self, how: str) -> bool:
        """Whether it can be read only (`ro`), or written again (`rw`)."""
        return self._call("mount", "-o", f"remount,{how}", str(self.folder))

    def fill(self) -> pathlib.Path:
        """No octet is left on the disk: the file that has them."""
        filler = self.folder / "filler"
        with open(filler, "wb", buffering=0) as file:
            for size in (512, 1):
                try:
                    while file.write(b"\0" * size):
                        pass
                except OSError:
                    pass
        return filler

    def end(self) -> None:
        if self.is_there:
            self._call("umount", "-l", str(self.folder))


def _answered(follower: Follower, front_end: FrontEnd, changes: Changes, count: int) -> list[bool]:
    """Whether each of so many SETs was answered."""
    manager = Manager(front_end.port)
    found = []
    for _ in range(count):
        octets = manager.request(wire.SET, changes.counter())
        found.append(follower.surely(manager, octets, lambda: front_end.process.poll() is not None))
    manager.close()
    return found


def full(trial: Trial, mounted: Mounted) -> None:
    """A disk that runs full: SETs are lost and Gets answered, until there is room again."""
    path = mounted.folder / "journal"
    follower, changes = Follower(path), Changes(trial.chance)
    front_end = trial.sign("--journal", str(path), "--no-ticks")
    trial.holds(
        "on a small disk SETs are answered", all(_answered(follower, front_end, changes, 3)), front_end.errors.decode()
    )
    filler = mounted.fill()
    found = _answered(follower, front_end, changes, 40)
    trial.holds(
        "on a full disk SETs are lost", not any(found[found.index(False) :] if False in found else [True]), found
    )
    is_told = eventually(lambda: b"No space left on device" in front_end.errors)
    trial.holds("and the front end says why", is_told, front_end.errors.decode())
    manager = Manager(front_end.port)
    trial.holds("and answers Gets", bool(manager.get([Changes.COUNTER])))
    manager.close()
    filler.unlink()
    trial.holds(
        "with room again SETs are answered", all(_answered(follower, front_end, changes, 3)), front_end.errors.decode()
    )
    front_end.kill()
    _look_again(trial, "after a full disk", path, follower)


def _full_at_start(trial: Trial, mounted: Mounted) -> None:
    """On a full disk a front end that needs its journal says why and ends; another one starts from what is there."""
    filler = mounted.fill()
    front_end = trial.sign("--journal", str(mounted.folder / "none"), "--no-ticks", "--need-journal")
    is_well = (
        front_end.ended() in (1, 2) and b"No space left" in front_end.errors and b"Traceback" not in front_end.errors
    )
    trial.holds(
        "a new journal on a full disk: said in words", is_well and not front_end.output, front_end.errors.decode()
    )
    filler.unlink()
    lines = [trial.head(form=FORM).line(), Moment.now().start(), Moment.now().clock()]
    lines += [b"ticks 1"] * 700
    while len(records.records(lines)) % PAGE < PAGE - 20:
        lines.append(b"ticks 1")
    (mounted.folder / "packed").write_bytes(records.records(lines))
    for name in ("packed", "none"):
        mounted.fill()
        _goes_on(trial, f"a full disk at the start of {name}", mounted.folder / name, b"No space left", filler.unlink)
    front_end = trial.sign("--journal", str(mounted.folder / "none"), "--no-ticks")
    trial.holds(
        "and it is begun where there is room", front_end.port != 0 and front_end.stop() == 0, front_end.errors.decode()
    )


def _goes_on(trial: Trial, name: str, path: pathlib.Path, words: bytes, repair: Callable[[], object]) -> None:
    """A sign that starts where the disk takes nothing answers Gets and no SET, and says so by its exit status; after a
    repair it answers SETs, and the next start has them."""
    changes = Changes(trial.chance)
    front_end = trial.sign("--journal", str(path), "--no-ticks")
    if trial.holds(
        f"{name}: a sign starts", front_end.port != 0 and words in front_end.errors, front_end.errors.decode()
    ):
        manager = Manager(front_end.port)
        octets = manager.request(wire.SET, changes.counter())
        found = manager.surely(octets, lambda: front_end.process.poll() is not None)
        trial.holds(f"{name}: it answers Gets, and no SET", found is None and bool(manager.get([Changes.COUNTER])))
        manager.close()
    status = front_end.stop()
    trial.holds(
        f"{name}: its exit status is 1", status == 1 and b"lost at the next start" in front_end.errors, front_end.errors
    )
    front_end = trial.sign("--journal", str(path), "--no-ticks")
    repair()
    follower = Follower(path)
    trial.holds(
        f"{name}: then SETs are answered", all(_answered(follower, front_end, changes, 3)), front_end.errors.decode()
    )
    trial.holds(f"{name}: and it ends well", front_end.stop() == 0, front_end.errors.decode())
    after = trial.sign("--journal", str(path), "--no-ticks")
    if trial.holds(f"{name}: and starts again", after.port != 0, after.errors.decode()):
        manager = Manager(after.port)
        value = manager.get([Changes.COUNTER])
        trial.holds(f"{name}: with what was answered", bool(value) and value[0][1][1] == changes.count % 65_536, value)
        manager.close()
    trial.holds(f"{name}: and ends", after.stop() == 0, after.errors.decode())


def _seconds_on_full(trial: Trial, mounted: Mounted) -> None:
    """On a disk that is full at a start seconds pass and a duration ends; it is said each minute, and written after."""
    path = mounted.folder / "seconds"
    front_end, changes, follower = trial.sign("--journal", str(path)), Changes(trial.chance), Follower(path)
    manager = Manager(front_end.port)
    code = Activation(1, 255, MessageId(7, 9, 0), b"\x7f\0\0\1")
    octets = manager.request(wire.SET, [(DMS + (6, 3, 0), (wire.OCTETS, code.octets(False)))])
    trial.holds("a message of a minute is shown", follower.surely(manager, octets, lambda: False))
    manager.close()
    front_end.stop()
    with open(path, "ab") as file:
        number = path.read_bytes().count(b"\n") + 1
        while (path.stat().st_size + 60) % PAGE > 60:  # a full page has no room for another record
            file.write(records.record(b"heard", number, number))
            file.flush()
            number += 1
    filler = mounted.fill()
    front_end = trial.sign("--journal", str(path))
    manager = Manager(front_end.port)
    is_told = eventually(lambda: b"lost at the next start" in front_end.errors, 70.0)
    trial.holds("on a full disk it is said each minute", is_told, front_end.errors.decode())
    mode = manager.get([DMS + (6, 7, 0)])
    trial.holds("and a duration ends", bool(mode) and mode[0][1] == (wire.INTEGER, 14), mode)
    filler.unlink()
    trial.holds(
        "with room again a SET is answered", all(_answered(follower, front_end, changes, 2)), front_end.errors.decode()
    )
    manager.close()
    trial.holds("and nothing is lost", front_end.stop() == 0, front_end.errors.decode())
    _look_again(trial, "after seconds on a full disk", path, follower)


def _centre_on_full(trial: Trial, mounted: Mounted) -> None:
    """A centre whose disk is full at its start takes no command, and says why."""
    filler = mounted.fill()
    words = ["--to", "127.0.0.1:9", "--journal", str(mounted.folder / "centre"), "--tick", "900", "--wait", "0.1"]
    rows: list[tuple[list[str], bytes]] = [([], b"not begun: it cannot be recorded: "), (["--need-journal"], b"")]
    for more, told in rows:
        front_end = trial.front_end("wisangub-centre", *words, *more, stdin=subprocess.PIPE)
        assert front_end.process.stdin is not None
        try:
            front_end.process.stdin.write(b"status\nblank 5 65535 255 127.0.0.1\n")
            front_end.process.stdin.close()
        except BrokenPipeError:
            pass
        status = front_end.ended()
        is_well = status in (1, 2) and told in front_end.output and b"No space left" in front_end.errors
        trial.holds(f"a centre on a full disk {more}", is_well, (status, front_end.output, front_end.errors))
    filler.unlink()


def _log_on_full(trial: Trial, mounted: Mounted) -> None:
    """A log whose disk is full: its front end goes on, and writes it again where there is room."""
    log = mounted.folder / "log"
    path = trial.new_folder() / "journal"
    follower, changes = Follower(path), Changes(trial.chance)
    front_end = trial.sign("--journal", str(path), "--no-ticks", "--log", str(log))
    filler = mounted.fill()
    trial.holds(
        "with a log on a full disk SETs are answered",
        all(_answered(follower, front_end, changes, 30)),
        front_end.errors.decode(),
    )
    is_told = eventually(lambda: b"the log" in front_end.errors and b"No space left" in front_end.errors)
    trial.holds("and the front end says so", is_told, front_end.errors)
    filler.unlink()
    trial.holds(
        "with room again SETs are answered", all(_answered(follower, front_end, changes, 3)), front_end.errors.decode()
    )
    trial.holds("and the log is written again", b"written again" in front_end.errors, front_end.errors.decode())
    trial.holds(
        "such a front end ends well",
        front_end.stop() == 0 and b"Exception" not in front_end.errors,
        front_end.errors.decode(),
    )
    torn = [line for line in log.read_text(encoding="utf-8").splitlines() if not line.startswith("20")]
    trial.holds("each line of the log is one", not torn, torn)


def _look_again(trial: Trial, name: str, path: pathlib.Path, follower: Follower) -> None:
    """What a front end finds after a kill is what was answered."""
    front_end = trial.sign("--journal", str(path), "--no-ticks")
    if trial.holds(f"{name}: a front end starts", front_end.port != 0, front_end.errors.decode()):
        manager = Manager(front_end.port)
        follower.catch_up(trial, name)
        follower.compare(trial, name, manager)
        manager.close()
    trial.holds(f"{name}: and ends", front_end.stop() == 0, front_end.errors.decode())


def _read_only(trial: Trial, mounted: Mounted) -> None:
    """A folder that can only be read: no front end begins there."""
    path = mounted.folder / "journal"
    if not mounted.remount("ro"):
        trial.skip("a folder that can only be read", "it cannot be mounted so")
        return
    for name, one in (("a journal", path), ("a folder", mounted.folder / "other")):
        refused(trial, f"{name} that can only be read", str(one), b"Read-only file system", "--need-journal")
    for name in ("journal", "other"):
        mounted.remount("ro")
        how = lambda: mounted.remount("rw")  # noqa: E731
        _goes_on(
            trial, f"a disk that can only be read at the start of {name}", mounted.folder / name, b"Read-only", how
        )
    mounted.remount("rw")
    front_end = trial.sign("--journal", str(path), "--no-ticks")
    trial.holds(
        "and it begins where it can be written again",
        front_end.port != 0 and front_end.stop() == 0,
        front_end.errors.decode(),
    )


def refused(trial: Trial, name: str, path: str, words: bytes, *more: str) -> None:
    """No front end begins on this file, and it says why. One that needs its journal may have failed at writing it."""
    front_end = trial.sign("--journal", path, *more)
    is_status = front_end.ended() in ((1, 2) if more else (2,))
    is_well = is_status and words in front_end.errors and b"Traceback" not in front_end.errors and not front_end.output
    trial.holds(f"{name}: refused in words", is_well, (front_end.process.returncode, front_end.errors.decode()))


def run(trial: Trial) -> None:
    """What needs no mount, and what does."""
    folder = trial.new_folder()
    refused(trial, "a folder", str(folder), b"Is a directory")
    refused(trial, "no folder", str(folder / "none" / "journal"), b"No such file or directory")
    refused(trial, "a device", "/dev/full", b"is no plain file")
    if os.geteuid():
        folder.chmod(0o500)
        refused(trial, "a folder that is not ours", str(folder / "journal"), b"Permission denied")
        folder.chmod(0o700)
    mounted = Mounted(trial.new_folder())
    try:
        if mounted.is_there:
            parts = [full, _full_at_start, _log_on_full, _centre_on_full, _read_only]
            for part in parts + ([] if trial.is_short else [_seconds_on_full]):
                is_any = part not in (_log_on_full, _centre_on_full)
                if not trial.is_late() and (is_any or trial.is_ours(f"{part.__name__} of a full disk")):
                    part(trial, mounted)
        else:
            trial.skip("a full disk, a folder that can only be read", "no file system can be mounted")
    finally:
        mounted.end()
