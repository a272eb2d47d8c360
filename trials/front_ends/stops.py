"""Interrupts at any moment, processes that stand still for a while, and hands that move a journal away."""

import os
import signal
import time
from typing import Callable

from model import wire
from wisangub.process.places import TOP

from .bench import FrontEnd, Trial, eventually, is_gone
from .follower import Follower, lines_of
from .manager import Manager
from .patience import PACE
from .requests import Changes


def _ended_well(front_end: FrontEnd) -> bool:
    """Whether what a front end said is in words."""
    return (
        front_end.ended() != 999
        and b"Traceback" not in front_end.errors
        and b"Exception ignored" not in front_end.errors
    )


def _interrupts(trial: Trial, count: int) -> None:
    """SIGINT and SIGTERM at random moments of a start, of work and of an end."""
    path = trial.new_folder() / "journal"
    for at in range(count):
        if trial.is_late():
            break
        is_sign = trial.other is not None or at % 2 == 0
        tool = "wisangub-sign" if is_sign else "wisangub-centre"
        words = ["--port", "0", "--journal", f"{path}-{at}"] if is_sign else ["--to", "127.0.0.1:9", "--wait", "9"]
        front_end = trial.front_end(
            tool, *words, stdin=None if is_sign else _lines_in(b"blank 5 65535 255 127.0.0.1\n")
        )
        _started(front_end)
        inner = front_end.inner()
        for _ in range(trial.chance.randint(1, 2)):
            time.sleep(trial.chance.uniform(0.0, 0.7))
            if front_end.process.poll() is None:
                front_end.process.send_signal(trial.chance.choice([signal.SIGINT, signal.SIGTERM]))
        if not eventually(lambda: front_end.process.poll() is not None, 1.0):
            front_end.stop()
        trial.holds(
            f"interrupt {at} of {tool}: words and no traceback", _ended_well(front_end), front_end.errors.decode()
        )
        trial.holds(f"interrupt {at} of {tool}: no process stays", eventually(lambda: is_gone(inner)), inner)
        front_end.forget()
        trial.front_ends.remove(front_end)


def _lines_in(octets: bytes) -> int:
    """A pipe that has these octets to be read."""
    reader, writer = os.pipe()
    os.write(writer, octets)
    os.close(writer)
    return reader


def _started(front_end: FrontEnd) -> None:
    """Until the interpreter is past its own beginning, where an interrupt is none of a front end's: it lets SIGPIPE
    be, and SIGINT too, or the front end waits for both signals."""

    def has_begun() -> bool:
        ignored, caught = _signals(front_end.process.pid, "SigIgn"), _signals(front_end.process.pid, "SigCgt")
        is_python = signal.SIGPIPE in ignored and (signal.SIGINT not in caught or signal.SIGTERM in caught)
        return is_python or front_end.process.poll() is not None

    eventually(has_begun)


def _signals(number: int, which: str) -> set[int]:
    """The signals that a process ignores, or catches."""
    try:
        with open(f"/proc/{number}/status", encoding="latin-1") as file:
            mask = int(file.read().split(f"{which}:")[1].split()[0], 16)
    except (OSError, IndexError):
        return set()
    return {one for one in range(1, 65) if mask >> (one - 1) & 1}


def stands_still(trial: Trial, seconds: float) -> None:
    """A sign that is stopped for a while makes up the seconds, and answers what came meanwhile."""
    path = trial.new_folder() / "journal"
    front_end = trial.sign("--journal", str(path))
    manager, begun = Manager(front_end.port), time.monotonic()
    front_end.process.send_signal(signal.SIGSTOP)
    request = manager.request(wire.SET, [(Changes.COUNTER, (wire.INTEGER, 11))])
    manager.socket.send(request)
    time.sleep(seconds)
    front_end.process.send_signal(signal.SIGCONT)
    reply = manager.exchange(request)
    trial.holds("a sign that stood still answers", reply is not None, front_end.errors.decode())
    manager.close()
    trial.holds("a sign that stood still ends", front_end.stop() == 0, front_end.errors.decode())
    lived = time.monotonic() - begun
    lines = lines_of(path.read_bytes())
    passed = sum(int(line.split()[1]) for line in lines if line.startswith(b"ticks "))
    trial.holds("it made up the seconds", seconds - 2 <= passed <= lived + 2, (passed, seconds, lived))
    at = [place for place, line in enumerate(lines) if line.startswith(b"datagram ")]
    before = sum(int(line.split()[1]) for line in lines[: at[0]] if line.startswith(b"ticks ")) if at else -1
    trial.holds("and before what came meanwhile", before >= seconds - 2, lines[-6:])


def _co_process_stands_still(trial: Trial) -> None:
    """A front end whose co-process is stopped waits for it, and ends at the second SIGTERM at the latest."""
    front_end = trial.sign("--journal", str(trial.new_folder() / "journal"), "--no-ticks")
    inner, manager = front_end.inner(), Manager(front_end.port)
    assert inner is not None
    os.kill(inner, signal.SIGSTOP)
    reply = manager.exchange(manager.request(wire.SET, [(Changes.COUNTER, (wire.INTEGER, 12))]), 0.5)
    trial.holds("no reply of a co-process that is stopped", reply is None)
    front_end.process.send_signal(signal.SIGTERM)
    time.sleep(0.2)
    trial.holds(
        "a front end whose co-process is stopped waits for it",
        front_end.process.poll() is None,
        front_end.errors.decode(),
    )
    ends = time.monotonic() + PACE.patience()
    while front_end.process.poll() is None and time.monotonic() < ends:  # a busy machine may take two for one
        front_end.process.send_signal(signal.SIGTERM)
        time.sleep(0.2)
    is_well = front_end.ended() == -signal.SIGTERM and _ended_well(front_end)
    trial.holds("the second SIGTERM ends it", is_well, front_end.errors.decode())
    os.kill(inner, signal.SIGCONT)
    trial.holds("and its co-process ends", eventually(lambda: is_gone(inner)))
    manager.close()


def _by_another_hand(trial: Trial) -> None:
    """A journal that is moved, removed, replaced, cut or written by another hand while a front end has it open:
    nothing that is not kept under its name is answered, and the front end ends with words."""
    rows: list[tuple[str, Callable[[str], None]]] = [
        ("moved", lambda path: os.rename(path, path + ".moved")),
        ("removed", os.unlink),
        ("replaced", lambda path: os.rename(copied(path), path)),
        ("cut", lambda path: os.truncate(path, 20)),
        ("written", lambda path: append(path, b"ticks 5 #00000000\n")),
    ]
    for name, does in rows:
        if trial.is_late():
            break
        path = trial.new_folder() / "journal"
        follower = Follower(path)
        front_end = trial.sign("--journal", str(path), "--no-ticks")
        manager = Manager(front_end.port)
        reply = manager.exchange(manager.request(wire.SET, [(Changes.COUNTER, (wire.INTEGER, 1))]))
        does(str(path))
        octets = manager.request(wire.SET, [(Changes.COUNTER, (wire.INTEGER, 2))])
        is_answered = follower.surely(manager, octets, lambda: front_end.process.poll() is not None)
        trial.holds(f"a journal that is {name}: what is not kept is not answered", bool(reply) and not is_answered)
        is_well = front_end.ended() == 1 and b"another hand" in front_end.errors and _ended_well(front_end)
        trial.holds(f"a journal that is {name}: said in words", is_well, front_end.errors.decode())
        manager.close()


def copied(path: str) -> str:
    """A copy of a file."""
    with open(path, "rb") as file, open(path + ".copy", "wb") as copy:
        copy.write(file.read())
    return path + ".copy"


def append(path: str, octets: bytes) -> None:
    """Octets at the end of a file."""
    with open(path, "ab") as file:
        file.write(octets)


def _read_once(trial: Trial) -> None:
    """A description that can be read once is read once: what the journal is of is what the sign is."""
    path = trial.new_folder() / "journal"
    text = (TOP / "signs/roadside.sign").read_bytes()
    reader = _lines_in(text)
    front_end = trial.sign("--journal", str(path), "--sign", f"/proc/{os.getpid()}/fd/{reader}", "--no-ticks")
    trial.holds("a description from a pipe", front_end.port != 0 and front_end.stop() == 0, front_end.errors.decode())
    os.close(reader)
    after = trial.sign("--journal", str(path), "--sign", str(TOP / "signs/roadside.sign"), "--no-ticks")
    trial.holds("and it is the file's", after.port != 0 and after.stop() == 0, after.errors.decode())


def run(trial: Trial) -> None:
    """All of it; in the long form a sign stands still for more than a minute."""
    _by_another_hand(trial)
    _read_once(trial)
    if trial.is_ours("a co-process that stands still"):
        _co_process_stands_still(trial)
    stands_still(trial, 3.0 if trial.is_short else 70.0)
    _interrupts(trial, 8 if trial.is_short else 100)
