"""What the trials share: the compiled examples, counts, and talks with them."""

from __future__ import annotations

import os
import pathlib
import random
import shutil
import subprocess
import threading
import time
from dataclasses import dataclass

TOP = pathlib.Path(__file__).resolve().parent.parent.parent
SANITIZE = "-fsanitize=address,undefined -fno-sanitize-recover=all -fno-omit-frame-pointer"
MOST_TALK = 600  # seconds
MOST_COMPILED = 600
LAST = 50.0
MOST_SHOWN = 600
SIGNS = ("roadside", "gantry")
VALGRIND = ("valgrind", "-q", "--error-exitcode=9", "--leak-check=full", "--errors-for-leak-kinds=all")
QEMU = ("qemu-aarch64", "-L", "/usr/aarch64-linux-gnu")


@dataclass(frozen=True)
class Way:
    """A folder of compiled examples, and what they are run by."""

    name: str
    folder: str
    by: tuple[str, ...] = ()
    words: tuple[str, ...] = ()  # of make
    programs: tuple[str, ...] = ()  # that are compiled; else all


PLAIN = Way("plain", "plain")
SANITIZED = Way("sanitizers", "sanitized", words=(f"EXTRA={SANITIZE}",))
REFUSING = Way("refused memory", "refusing", words=("HEAP=refusing_heap.c",), programs=("talk",))
UNDER_VALGRIND = Way("valgrind", "plain", VALGRIND)
OF_VECTORS = ("talk", "header_test")
AARCH64 = Way("aarch64", "aarch64", QEMU, ("TARGET=aarch64",), OF_VECTORS)
ANY = Way("any x86-64", "any", programs=OF_VECTORS)


class Late(Exception):
    """A process took longer than it may, and was stopped."""


class Trial:
    """A folder with the examples, what passed and what failed. In the short form nothing begins after the moment
    `ends`, and after LAST more seconds what still runs is stopped."""

    def __init__(
        self, folder: pathlib.Path, program: pathlib.Path, chance: random.Random, ends: float = float("inf")
    ) -> None:
        self.folder, self.program, self.chance, self.ends = folder, program, chance, ends
        self.passed = self.failed = 0
        self.way = PLAIN  # with sanitizers, where they are here

    def is_short(self) -> bool:
        return self.ends != float("inf")

    def left(self) -> float:
        """The seconds that are left."""
        return self.ends - time.monotonic()

    def most(self, seconds: float) -> float:
        """The seconds that a process may take that is given so many."""
        return max(0.1, min(seconds, self.left() + LAST))

    def seconds(self, asked: int) -> int:
        """So many seconds as are asked for, or half of those that are left."""
        return max(1, int(min(float(asked), self.left() / 2)))

    def check(self, name: str, is_so: bool, told: object = "") -> bool:
        """Counts a trial, and tells of one that failed."""
        self.passed, self.failed = self.passed + is_so, self.failed + (not is_so)
        if not is_so:
            print(f"{name}: {str(told)[:MOST_SHOWN]}", flush=True)
        return is_so

    def same(self, name: str, found: object, wanted: object) -> bool:
        return self.check(name, found == wanted, f"found {str(found)[:300]}, wanted {str(wanted)[:300]}")

    def skip(self, name: str, why: str) -> None:
        print(f"skipped {name}: {why}", flush=True)

    def has(self, name: str, program: str) -> bool:
        """Whether a program is here; where it is not, what it is for is skipped by its name."""
        is_here = shutil.which(program) is not None
        if not is_here:
            self.skip(name, f"here is no {program}")
        return is_here

    def compiled(self, way: Way, library: pathlib.Path) -> bool:
        """Whether the examples can be compiled for a way."""
        folder = self.folder / way.folder
        words = ["make", "-s", f"LIBRARY={library}", f"OUT={folder}", *way.words]
        words += [str(folder / program) for program in way.programs]
        status, said = self.ran(words, "", MOST_COMPILED, folder=TOP / "examples")
        return self.check(f"compile, {way.name}", status == 0, said)

    def ran(
        self,
        words: list[str] | tuple[str, ...],
        text: str = "",
        seconds: float = MOST_TALK,
        folder: pathlib.Path | None = None,
        **environment: str,
    ) -> tuple[int, str]:
        """The exit status of a process, and what it printed. It is late after so many seconds."""
        try:
            ended = subprocess.run(
                list(words),
                input=text.encode("latin-1"),
                stdout=subprocess.PIPE,
                stderr=subprocess.STDOUT,
                timeout=self.most(seconds),
                cwd=folder,
                env={**os.environ, **environment},
            )
        except subprocess.TimeoutExpired as late:
            raise Late(f"{pathlib.Path(words[0]).name} took more than {late.timeout:.0f} seconds") from late
        return ended.returncode, ended.stdout.decode("latin-1")

    def called(self, way: Way, name: str, *words: str) -> list[str]:
        """The words of a call of an example."""
        return [*way.by, str(self.folder / way.folder / name), *words]

    def talk(self, description: str, way: Way, **environment: str) -> "Talk":
        return Talk(self.called(way, "talk"), description, environment, self.most(MOST_TALK))


def described(sign: str) -> str:
    """The description of a sign of signs/, up to its line `end`."""
    text = (TOP / "signs" / f"{sign}.sign").read_text(encoding="latin-1")
    lines = [line for line in text.split("\n") if not line.startswith("#")]
    return "\n".join(lines[: lines.index("end") + 1]) + "\n"


class Talk:
    """A process of examples/talk.c that is handed a line at a time. It is late after so many seconds."""

    def __init__(self, words: list[str], description: str, environment: dict[str, str], seconds: float) -> None:
        self.process = subprocess.Popen(
            words,
            stdin=subprocess.PIPE,
            stdout=subprocess.PIPE,
            stderr=subprocess.PIPE,
            env={**os.environ, **environment},
        )
        self.refused = 0  # how often memory was wanting
        self.faults = b""
        self.listener = threading.Thread(target=self.listen, daemon=True)
        self.listener.start()
        self.seconds, self.ends = seconds, time.monotonic() + seconds
        self.late = threading.Timer(seconds, self.process.kill)
        self.late.start()
        self.write(description)

    def __enter__(self) -> "Talk":
        return self

    def __exit__(self, *_: object) -> None:
        self.end()

    def listen(self) -> None:
        """Collects what sanitizers and valgrind say."""
        assert self.process.stderr is not None
        self.faults = self.process.stderr.read()

    def write(self, text: str) -> None:
        assert self.process.stdin is not None
        try:
            self.process.stdin.write(text.encode("latin-1"))
            self.process.stdin.flush()
        except (BrokenPipeError, ValueError):
            pass

    def line(self) -> str:
        """A line of an answer; want of memory is counted, and answered by the next line where it was tried again."""
        assert self.process.stdout is not None
        line = self.process.stdout.readline().decode("latin-1")
        if not line and time.monotonic() >= self.ends:
            raise Late(f"a talk took more than {self.seconds:.0f} seconds")
        return line.rstrip("\n")

    def ask(self, line: str) -> str:
        """The one line that answers a line; `memory` is asked again, as nothing has changed."""
        self.write(line + "\n")
        return self.answered(line, self.line())

    def answered(self, line: str, answer: str) -> str:
        if answer != "memory":
            return answer
        self.refused += 1
        return self.line() if line == "anew" else self.ask(line)

    def first(self, line: str) -> str:
        """The answer to the first line. Where memory is wanting when the sign is made, it is made again by itself."""
        self.write(line + "\n")
        answer = self.line()
        self.refused += answer == "memory"
        return self.line() if answer == "memory" else answer

    def ask_lines(self, line: str) -> list[str]:
        """The lines that answer a line, up to the last one, `ok`; one that is refused is answered by one line."""
        self.write(line + "\n")
        found = [self.line()]
        while found[-1] and found[-1] != "ok" and not found[-1].startswith(("fault ", "bad line", "memory")):
            found.append(self.line())
        if found[-1] != "memory":
            return found
        self.refused += 1
        return self.ask_lines(line)

    def end(self) -> int:
        """Its exit status; what was said of faults is in `faults` then."""
        assert self.process.stdin is not None and self.process.stdout is not None
        try:
            self.process.stdin.close()
        except BrokenPipeError:
            pass
        status = self.process.wait()
        self.late.cancel()
        self.listener.join()
        self.process.stdout.close()
        return status
